//! Question 7: blocks where they may not stand, and names of none.

use super::asker::{Answer, Asker};
use super::model::{Head, Shape};
use super::{Item, Words};
use modeltext::words::{self, GENERATE, GOTO, TERMINATE, WAITIF_JOINED, WAITIF_STATUS};

pub fn shape(asker: &mut Asker, head: &Head, shape: &Shape) -> Answer<()> {
    let ends =
        |kind: Option<&u64>| kind.is_some_and(|kind| [TERMINATE, GOTO].contains(&(*kind as u32)));
    let generate = |kind: Option<&u64>| kind == Some(&u64::from(GENERATE));
    for (i, kind) in shape.kinds.iter().enumerate() {
        if generate(Some(kind)) && i > 0 && !ends(shape.kinds.get(i - 1)) {
            let words = (
                "GENERATE must be the first block or follow TERMINATE or GOTO".to_string(),
                "end the segment before it with TERMINATE or GOTO, or move it to the front"
                    .to_string(),
            );
            let (byte, number) = shape.places[i];
            asker.found_at(7, Item::Block(i as u64 + 1), byte, number, None, words)?;
        }
    }
    for &(block, target, (byte, number)) in &shape.targets {
        if generate(shape.kinds.get((target as usize).wrapping_sub(1))) {
            let name = head.thing('b', target);
            let words = (
                format!("a target names {name}, a GENERATE, which only its own arrivals enter"),
                "name the block behind the GENERATE".to_string(),
            );
            asker.found_at(7, Item::Block(block), byte, number, None, words)?;
        }
    }
    groups(asker, head, shape)?;
    if !ends(shape.kinds.last()) {
        let (byte, number) = shape.places.last().copied().unwrap_or_default();
        let words = (
            "the last block must be TERMINATE or GOTO".to_string(),
            "end the model with TERMINATE 1, or with GOTO and a label".to_string(),
        );
        asker.found_at(7, Item::Block(head.blocks), byte, number, None, words)?;
    }
    for &(value, block, (byte, number)) in &shape.named {
        if block > head.blocks {
            let who = head.thing('w', value);
            let words = head.nothing(&who, 'b', block);
            asker.found_at(7, Item::Value(value), byte, number, None, words)?;
        }
    }
    Ok(())
}

/// Joined waits: the blocks that one goes back over are plain server waits, and no target leads into them behind the first.
fn groups(asker: &mut Asker, head: &Head, shape: &Shape) -> Answer<()> {
    for &(block, back, (byte, number)) in &shape.groups {
        if let Some(words) = not_joined(shape, block, back) {
            asker.found_at(7, Item::Block(block), byte, number, None, words)?;
        }
        let first = block.saturating_sub(back);
        for &(from, target, (byte, number)) in &shape.targets {
            if first < target && target <= block && first > 0 {
                let name = head.thing('b', target);
                let words = (
                    format!(
                        "a target names {name}, in the middle of waits that block {block} joins"
                    ),
                    format!("name the first of them, {}", head.thing('b', first)),
                );
                asker.found_at(7, Item::Block(from), byte, number, None, words)?;
            }
        }
    }
    Ok(())
}

/// What is wrong with the blocks that a joined wait goes back over, if something is.
fn not_joined(shape: &Shape, block: u64, back: u64) -> Option<Words> {
    if back >= block {
        let plural = if back == 1 { "" } else { "s" };
        let before = match block - 1 {
            0 => "none stands".to_string(),
            1 => "1 stands".to_string(),
            before => format!("{before} stand"),
        };
        return Some((
            format!("WAITIF goes back {back} block{plural}, and {before} before it"),
            "let the waits that it is joined with stand right before it, each as WAITIF server = code"
                .to_string(),
        ));
    }
    let kind = |block: u64| shape.kinds[block as usize - 1] as u32;
    let inside = (block - back..block).find(|inside| kind(*inside) != WAITIF_STATUS)?;
    let what = match words::kind_of(kind(inside)) {
        Some(kind) if kind.number == WAITIF_JOINED => "a WAITIF that goes back itself",
        Some(kind) => kind.word,
        None => "of no known kind",
    };
    Some((
        format!(
            "WAITIF goes back over block {inside}, {what}, and may only over waits as WAITIF server = code"
        ),
        "go back fewer blocks, or let only such waits stand right before it".to_string(),
    ))
}
