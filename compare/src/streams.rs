//! Streams: the start of each, what a stream beyond the last gets, steps along each stream and from states of any kind.

use crate::lent::Lent;
use covrith::sys;
use reference::generate::random::Random;
use reference::streams::{start, step, MODULUS, STREAMS};

/// Steps along each stream.
const STEPS: u32 = 10_000;

/// Steps from states that no stream has, too.
const STATES: u64 = 1_000_000;

/// Prints what was compared; gives whether all of it agrees.
pub fn compare() -> bool {
    match compared() {
        Ok(()) => {
            println!("{STREAMS} streams of {STEPS} steps each and {STATES} other steps agree");
            true
        }
        Err(text) => {
            println!("{text}");
            false
        }
    }
}

fn compared() -> Result<(), String> {
    let mut random = Random::new(1);
    for stream in 0..STREAMS {
        let first = same_start(stream, &mut random)?;
        steps_along(first.ok_or(format!("stream {stream} is refused"))?)?;
    }
    for stream in [STREAMS, STREAMS + 1, 1 << 16, 1 << 31, u32::MAX] {
        same_start(stream, &mut random)?;
    }
    for near in [0, MODULUS as u32, 1 << 31, u32::MAX] {
        for away in 0..100 {
            same_step(near.wrapping_add(away))?;
            same_step(near.wrapping_sub(away))?;
        }
    }
    for _ in 0..STATES {
        same_start(random.next_u64() as u32, &mut random)?;
        same_step(random.next_u64() as u32)?;
    }
    Ok(())
}

/// The start of a stream from both, none where it is refused. A refusal leaves the lent number.
fn same_start(stream: u32, random: &mut Random) -> Result<Option<u32>, String> {
    let mut state: Lent<u32> = Lent::new(random, 1);
    // SAFETY: one number is lent.
    let answer = unsafe { sys::covrith_stream_start(stream, state.lend().as_mut_ptr()) };
    let wanted = start(stream);
    let same = match wanted {
        Ok(first) => answer == 0 && state.now() == [first] && state.guards_kept(),
        Err(refusal) => answer == refusal && state.kept_past(0),
    };
    if !same {
        return Err(format!(
            "start of stream {stream}: {answer}, {:?}, reference {wanted:?}",
            state.now()
        ));
    }
    Ok(wanted.ok())
}

fn same_step(state: u32) -> Result<u32, String> {
    // SAFETY: a number goes in and a number comes out.
    let next = unsafe { sys::covrith_stream_step(state) };
    if next != step(state) {
        return Err(format!(
            "step of {state}: {next}, reference {}",
            step(state)
        ));
    }
    Ok(next)
}

fn steps_along(first: u32) -> Result<(), String> {
    let mut state = first;
    for _ in 0..STEPS {
        state = same_step(state)?;
    }
    Ok(())
}
