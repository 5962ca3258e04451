//! Where IF, GOTO and SPLIT go, and which blocks the terms of blocks name.

use super::random::Random;
use crate::model::{Block, Term};

/// Gives each target and each block number in a block's term its last form.
/// `segments` are the first and last block of each run of blocks.
pub fn resolve(random: &mut Random, blocks: &mut [Block], segments: &[(u32, u32)]) {
    let count = blocks.len() as u32;
    let inside = inside_groups(blocks);
    let aims: Vec<u32> = (1..=count)
        .filter(|number| !matches!(blocks[*number as usize - 1], Block::Generate { .. }))
        .filter(|number| !inside.contains(number))
        .collect();
    let held = held_before(blocks, segments);
    for (first, last) in segments {
        for own in *first..=*last {
            let holds = match &blocks[own as usize - 1] {
                Block::Split { .. } => Vec::new(), // copies hold nothing
                _ => held[own as usize - 1].clone(),
            };
            // Mostly to where the same is held, so that runs go on.
            let calm: Vec<u32> = aims
                .iter()
                .copied()
                .filter(|aim| held[*aim as usize - 1] == holds)
                .collect();
            let calm = if calm.is_empty() || random.one_in(12) {
                &aims
            } else {
                &calm
            };
            let near: Vec<u32> = calm
                .iter()
                .copied()
                .filter(|aim| (*first..=*last).contains(aim))
                .collect();
            let forward: Vec<u32> = near.iter().copied().filter(|aim| *aim > own).collect();
            let aim = match random.below(10) {
                0..=5 if !forward.is_empty() => *random.pick(&forward),
                6..=7 if !near.is_empty() => *random.pick(&near),
                _ => *random.pick(calm),
            };
            // Copies often go the same way as their original.
            let split = matches!(blocks[own as usize - 1], Block::Split { .. });
            let aim = if split && random.percent(45) {
                own + 1
            } else {
                aim
            };
            set_names(random, &mut blocks[own as usize - 1], own, aim, count);
        }
    }
}

/// The second and later blocks of groups of joined waits: no target names them.
fn inside_groups(blocks: &[Block]) -> Vec<u32> {
    let mut inside = Vec::new();
    for (index, block) in blocks.iter().enumerate() {
        if let Block::WaitJoined { back, .. } = block {
            let number = index as u32 + 1;
            inside.extend(number.saturating_sub(*back) + 1..=number);
        }
    }
    inside
}

/// What a transaction holds before each block if it came straight through the
/// segment: servers with units, and queues.
fn held_before(blocks: &[Block], segments: &[(u32, u32)]) -> Vec<Vec<(u32, u32, u32)>> {
    let mut held = Vec::new();
    for (first, last) in segments {
        let mut now: Vec<(u32, u32, u32)> = Vec::new();
        for block in &blocks[*first as usize - 1..*last as usize] {
            held.push(now.clone());
            match *block {
                Block::Seize { facility } => now.push((1, facility, 1)),
                Block::Preempt { facility } => now.push((4, facility, 1)),
                Block::Return { facility } => now.retain(|h| *h != (4, facility, 1)),
                Block::Release { facility } => now.retain(|h| *h != (1, facility, 1)),
                Block::Enter { storage, units } => now.push((2, storage, units)),
                Block::Leave { storage, units } => now.retain(|h| *h != (2, storage, units)),
                Block::Arrive { queue } => now.push((3, queue, 1)),
                Block::Depart { queue } => now.retain(|h| *h != (3, queue, 1)),
                _ => {}
            }
            now.sort();
        }
    }
    held
}

/// Sets the target and the block numbers in terms of one block.
fn set_names(random: &mut Random, block: &mut Block, own: u32, aim: u32, blocks: u32) {
    let mut set_term = |term: &mut Term| {
        if let Term::Entries(number) = term {
            // Its own entries now and then: they are read before they count.
            *number = if random.one_in(4) {
                own
            } else {
                *number % blocks + 1
            };
        }
    };
    match block {
        Block::If { comparison, target } => {
            *target = aim;
            set_term(&mut comparison.left);
            set_term(&mut comparison.right);
        }
        Block::Goto { target } | Block::Split { target, .. } => *target = aim,
        Block::WaitIfComparison { comparison } => {
            set_term(&mut comparison.left);
            set_term(&mut comparison.right);
        }
        Block::Let { term, .. } => set_term(term),
        _ => {}
    }
}
