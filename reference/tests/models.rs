//! The models of models/ keep their traces under every request that they can
//! be run without: "A model whose transactions release only their own facilities,
//! and hold none when ending, gives the trace it gave" among them.

mod common;
use common::*;
use reference::claims::check_with;
use reference::generate::Case;
use reference::report::REPORT_BYTES;
use reference::run::WORK_NUMBERS;
use reference::Rules;

#[test]
fn models_keep_their_traces_with_all_requests() {
    let folder = concat!(env!("CARGO_MANIFEST_DIR"), "/../models");
    let mut runs = 0;
    for entry in std::fs::read_dir(folder).expect("the folder of models") {
        let path = entry.expect("an entry").path();
        let read = |name: &str| std::fs::read(path.join(name)).ok();
        let (Some(model), Some(tape)) = (read("model.bin"), read("tape.bin")) else {
            continue;
        };
        let case = Case {
            model,
            tape,
            budget: 200_000,
            work_len: WORK_NUMBERS,
            trace_len: 65_536,
            report_len: REPORT_BYTES,
        };
        // A model of a later request has nothing to keep.
        let before = everything(Rules::BASE, &case);
        if before.0.refusal == 0 {
            assert!(before == everything(Rules::ALL, &case), "{path:?}");
            runs += 1;
        }
        if let Err(errors) = check_with(Rules::ALL, &case) {
            panic!("{path:?}: {errors:?}");
        }
    }
    assert!(runs > 0);
}
