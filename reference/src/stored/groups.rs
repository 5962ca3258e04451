//! Groups of joined waits (02, item 7) that are whole or broken: 7, and 4 for a
//! back count out of range. Nobody comes, so that an accepted model ends dry.

use super::joined::{joined, of, terminate, wait, Wanted, STORM, TUG};
use crate::generate::Case;
use crate::model::{Block, Comparison, Term};

pub fn cases() -> Vec<(Case, Wanted)> {
    let mut cases = whole_and_broken();
    cases.extend(targets());
    cases
}

const DRY: Wanted = [0, 1, 0, 0, 0, 0, 0];

fn refused(refusal: u64) -> Wanted {
    [refusal, 0, 0, 0, 0, 0, 0]
}

/// Groups that are whole or broken in one place, and back counts out of range.
fn whole_and_broken() -> Vec<(Case, Wanted)> {
    let ask = |mut blocks: Vec<Block>, wanted: Wanted| {
        blocks.push(terminate(1));
        (of(1, blocks, &[]), wanted)
    };
    let w = || wait(STORM);
    let j = |back: u32| joined(TUG, back);
    let mut cases = vec![
        ask(vec![w(), j(0)], refused(4)),
        ask(vec![w(), j(8)], refused(4)),
        ask(vec![j(1)], refused(7)),
        ask(vec![w(), j(2)], refused(7)),
        ask(vec![w(), w(), w(), w(), w(), w(), j(7)], refused(7)),
        ask(vec![w(), w(), w(), w(), w(), w(), w(), j(7)], DRY),
        ask(vec![w(), w(), j(1)], DRY),
        // Another group in it, whole or in part.
        ask(vec![w(), j(1), j(1)], refused(7)),
        ask(vec![w(), j(1), w(), j(1)], DRY),
        ask(vec![w(), j(1), w(), j(2)], refused(7)),
        ask(vec![w(), j(1), w(), j(3)], refused(7)),
        ask(vec![w(), w(), j(2), w(), w(), j(3)], refused(7)),
    ];
    let comparison = Comparison {
        left: Term::Clock,
        relation: 1,
        right: Term::Constant(0),
    };
    for other in [
        Block::WaitIfComparison { comparison },
        Block::Seize { facility: STORM },
        Block::Priority { priority: 1 },
    ] {
        cases.push(ask(vec![other.clone(), w(), j(2)], refused(7)));
        cases.push(ask(vec![w(), other.clone(), j(2)], refused(7)));
        cases.push(ask(vec![other, w(), j(1)], DRY));
    }
    cases
}

/// IF, GOTO and SPLIT at the first of a group, at the second, at the joined wait
/// itself and behind it.
fn targets() -> Vec<(Case, Wanted)> {
    let mut cases = Vec::new();
    for target in 1..=4 {
        let comparison = Comparison {
            left: Term::Clock,
            relation: 1,
            right: Term::Constant(0),
        };
        for aim in [
            Block::If { comparison, target },
            Block::Goto { target },
            Block::Split { copies: 1, target },
        ] {
            let group = [wait(STORM), wait(STORM), joined(TUG, 2)];
            let mut blocks = group.to_vec();
            blocks.extend([terminate(0), aim, terminate(1)]);
            let whole = target == 1 || target == 4;
            let wanted = if whole { DRY } else { refused(7) };
            cases.push((of(1, blocks, &[]), wanted));
        }
    }
    cases
}
