//! One case, run by the engine on lent buffers and by the second implementation.

use crate::lent::Lent;
use covrith::{sys, Outcome};
use reference::coverage::Coverage;
use reference::generate::random::Random;
use reference::generate::Case;
use std::panic::{catch_unwind, AssertUnwindSafe};

/// What the engine gives, with the buffers that it was lent.
struct Ran {
    outcome: Lent<u64>,
    work: Lent<u32>,
    trace: Lent<u8>,
    report: Lent<u8>,
}

fn run_engine(case: &Case, random: &mut Random) -> Ran {
    let mut ran = Ran {
        outcome: Lent::new(random, 8),
        work: Lent::new(random, case.work_len),
        trace: Lent::new(random, case.trace_len),
        report: Lent::new(random, case.report_len),
    };
    let (work, trace, report) = (ran.work.lend(), ran.trace.lend(), ran.report.lend());
    // SAFETY: each pointer is that of a slice with the length beside it, `outcome` has 8 numbers, and they are disjoint.
    unsafe {
        sys::covrith_run(
            case.model.as_ptr(),
            case.model.len(),
            case.tape.as_ptr(),
            case.tape.len(),
            case.budget,
            work.as_mut_ptr(),
            work.len(),
            trace.as_mut_ptr(),
            trace.len(),
            report.as_mut_ptr(),
            report.len(),
            ran.outcome.lend().as_mut_ptr(),
        );
    }
    ran
}

/// What both agree on: the results and the bytes of the trace.
pub struct Agreed {
    pub outcome: Outcome,
    pub trace: Vec<u8>,
}

/// Compares one case; gives what differs.
pub fn compare(case: &Case, stale: u64, coverage: &mut Coverage) -> Result<Agreed, String> {
    let mut trace = vec![0; case.trace_len];
    let mut report = vec![0; case.report_len];
    let wanted = catch_unwind(AssertUnwindSafe(|| {
        coverage.run(case, &mut trace, &mut report)
    }))
    .map_err(|_| "the second implementation panics".to_string())?;
    let given = (case.model.clone(), case.tape.clone());
    let ran = run_engine(case, &mut Random::new(stale));
    if given != (case.model.clone(), case.tape.clone()) {
        return Err("model or tape changed".to_string());
    }
    if ran.outcome.now() != wanted.numbers() {
        return Err(format!(
            "results {:?}, reference {:?}",
            ran.outcome.now(),
            wanted.numbers()
        ));
    }
    let used = (wanted.trace_bytes as usize, wanted.report_bytes as usize);
    same("trace", &ran.trace.now()[..used.0], &trace[..used.0])?;
    same("report", &ran.report.now()[..used.1], &report[..used.1])?;
    kept(&ran, wanted.refusal != 0, used)?;
    Ok(Agreed {
        outcome: Outcome::of(wanted.numbers()),
        trace: trace[..used.0].to_vec(),
    })
}

/// "Bytes past these lengths are untouched"; a refused run alters nothing.
fn kept(ran: &Ran, refused: bool, used: (usize, usize)) -> Result<(), String> {
    let work_kept = if refused {
        ran.work.kept_past(0)
    } else {
        ran.work.guards_kept()
    };
    for (name, kept) in [
        ("outcome", ran.outcome.guards_kept()),
        ("work", work_kept),
        ("trace", ran.trace.kept_past(used.0)),
        ("report", ran.report.kept_past(used.1)),
    ] {
        if !kept {
            return Err(format!("{name} changed where it may not"));
        }
    }
    Ok(())
}

fn same(name: &str, engine: &[u8], reference: &[u8]) -> Result<(), String> {
    match (0..engine.len()).find(|at| engine[*at] != reference[*at]) {
        None => Ok(()),
        Some(at) => Err(format!(
            "{name} byte {at} is {:02x}, reference {:02x}",
            engine[at], reference[at]
        )),
    }
}
