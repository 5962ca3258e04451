//! Two plants as one model: random calls, good and damaged, through the interface and through the reference.

use crate::lent::Lent;
use covrith::sys;
use reference::generate::pairs::{call, JoinCall};
use reference::generate::random::Random;
use reference::join::join;
use reference::line::hex;
use reference::Rules;
use std::collections::BTreeMap;

/// Prints what was compared; gives whether all of it agrees.
pub fn compare(calls: u64, seed: u64) -> bool {
    let mut random = Random::new(seed);
    let mut answers: BTreeMap<u32, u64> = BTreeMap::new();
    for number in 1..=calls {
        let call = call(Rules::LANDED, &mut random);
        match one(&mut random, &call) {
            Ok(answer) => *answers.entry(answer).or_default() += 1,
            Err(text) => {
                println!("call {number} of seed {seed} differs: {text}");
                return false;
            }
        }
    }
    let joined = answers.remove(&0).unwrap_or_default();
    let refused: Vec<String> = answers.iter().map(|(n, k)| format!("{n} {k}")).collect();
    println!(
        "{calls} joins of seed {seed} agree: {joined} joined, refused {}",
        refused.join(", ")
    );
    true
}

/// The answer, where both agree.
fn one(random: &mut Random, call: &JoinCall) -> Result<u32, String> {
    let given = [&call.first.0, &call.first.1, &call.second.0, &call.second.1];
    let mut lent: [Lent<u8>; 4] = given.map(|bytes| Lent::of(random, bytes));
    let mut model: Lent<u8> = Lent::new(random, call.model_room);
    let mut tape: Lent<u8> = Lent::new(random, call.tape_room);
    let mut written: Lent<u64> = Lent::new(random, 2);
    let [model1, tape1, model2, tape2] = lent.each_mut().map(|bytes| {
        let bytes = bytes.lend();
        (bytes.as_ptr(), bytes.len())
    });
    // SAFETY: slices that are valid for their lengths and disjoint.
    let answer = unsafe {
        sys::covrith_join(
            model1.0,
            model1.1,
            tape1.0,
            tape1.1,
            model2.0,
            model2.1,
            tape2.0,
            tape2.1,
            model.lend().as_mut_ptr(),
            call.model_room,
            tape.lend().as_mut_ptr(),
            call.tape_room,
            written.lend().as_mut_ptr(),
        )
    };
    let mut wanted = (vec![0; call.model_room], vec![0; call.tape_room]);
    let first = (&call.first.0[..], &call.first.1[..]);
    let second = (&call.second.0[..], &call.second.1[..]);
    let (number, lengths) = match join(first, second, &mut wanted.0, &mut wanted.1) {
        Ok(lengths) => (0, lengths),
        Err(number) => (number, (0, 0)),
    };
    let agreed = answer == number
        && written.now() == [lengths.0 as u64, lengths.1 as u64]
        && model.now()[..lengths.0] == wanted.0[..lengths.0]
        && tape.now()[..lengths.1] == wanted.1[..lengths.1];
    let kept = model.kept_past(lengths.0)
        && tape.kept_past(lengths.1)
        && written.guards_kept()
        && lent.iter().all(|bytes| bytes.kept_past(0));
    if agreed && kept {
        return Ok(number);
    }
    Err(format!(
        "{}, rooms {} and {}: {answer}, {:?}, and not {number}, {lengths:?}",
        given.map(|bytes| hex(bytes)).join(" "),
        call.model_room,
        call.tape_room,
        written.now()
    ))
}
