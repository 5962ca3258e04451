//! Tapes from distributions: random calls, good and damaged, through the interface and through the reference's whole numbers.

use crate::lent::Lent;
use covrith::sys;
use reference::generate::random::Random;
use reference::maker::make_tape;

/// Prints what was compared; gives whether all of it agrees.
pub fn compare(calls: u64, seed: u64) -> bool {
    let mut random = Random::new(seed);
    let (mut times, mut refused) = (0, [0; 3]);
    for call in 1..=calls {
        match one(&mut random) {
            Ok((0, count)) => times += count,
            Ok((answer, _)) => refused[answer as usize - 41] += 1,
            Err(text) => {
                println!("call {call} of seed {seed} differs: {text}");
                return false;
            }
        }
    }
    let [streams, lists, rooms] = refused;
    println!("{calls} tapes of seed {seed} agree: {times} times drawn, refused 41 {streams}, 42 {lists}, 43 {rooms}");
    true
}

/// The answer, and how many times were drawn.
fn one(random: &mut Random) -> Result<(u32, u64), String> {
    let stream = if random.below(40) == 0 {
        random.next_u64() as u32
    } else {
        random.below(513) as u32
    };
    let (lists, numbers) = lists(random);
    let room = if random.below(8) == 0 {
        random.below(400)
    } else {
        3 * 16 * 4_000
    } as usize;
    let mut tape: Lent<u8> = Lent::new(random, room);
    let mut written: Lent<u64> = Lent::new(random, 1);
    // SAFETY: slices that are valid for their lengths and disjoint.
    let answer = unsafe {
        sys::covrith_make_tape(
            stream,
            lists.as_ptr(),
            lists.len(),
            numbers.as_ptr(),
            numbers.len(),
            tape.lend().as_mut_ptr(),
            room,
            written.lend().as_mut_ptr(),
        )
    };
    let mut wanted = vec![0; room];
    let agreed = match make_tape(stream, &lists, &numbers, &mut wanted) {
        Ok(length) => {
            answer == 0
                && written.now() == [length as u64]
                && tape.now()[..length] == wanted[..length]
                && tape.kept_past(length)
        }
        Err(refusal) => answer == refusal && written.now() == [0] && tape.kept_past(0),
    };
    if !agreed || !written.guards_kept() {
        return Err(format!(
            "stream {stream}, lists {lists:?}, numbers {numbers:?}, room {room}: {answer}, {:?}",
            written.now()
        ));
    }
    let times = lists.chunks(4).map(|list| u64::from(list[1])).sum();
    Ok((answer, times))
}

fn lists(random: &mut Random) -> (Vec<u32>, Vec<f64>) {
    let mut lists = Vec::new();
    let mut numbers = Vec::new();
    let most = if random.below(30) == 0 { 19 } else { 5 };
    for _ in 0..random.below(most) {
        let first = numbers.len() as u32;
        let kind = random.below(3) as u32;
        let mut points = 0;
        match kind {
            0 => numbers.push(time(random, 64_000_000)),
            1 => {
                let mean = random.below(32_000_001);
                numbers.push(mean as f64 / 64.0);
                numbers.push(time(random, mean));
            }
            _ => points = curve(random, &mut numbers),
        }
        lists.extend([kind, random.below(4_000) as u32, first, points]);
    }
    damage(random, &mut lists, &mut numbers);
    (lists, numbers)
}

/// A multiple of 1/64 of so many at most, often at an end.
fn time(random: &mut Random, most: u64) -> f64 {
    let parts = match random.below(6) {
        0 => 0,
        1 => most,
        _ => random.below(most + 1),
    };
    parts as f64 / 64.0
}

fn curve(random: &mut Random, numbers: &mut Vec<f64>) -> u32 {
    let mut inside: Vec<u64> = (0..random.below(23))
        .map(|_| 1 + random.below(65_535))
        .collect();
    if random.below(4) == 0 {
        let start = 1 + random.below(65_000);
        inside = (start..start + random.below(23)).collect(); // 1/65,536 apart
    }
    inside.extend([0, 65_536]);
    inside.sort_unstable();
    inside.dedup();
    let most = if random.below(2) == 0 {
        64_000_000
    } else {
        6_400
    };
    let mut times: Vec<f64> = inside.iter().map(|_| time(random, most)).collect();
    times.sort_by(f64::total_cmp);
    for (u, time) in inside.iter().zip(&times) {
        numbers.extend([*u as f64 / 65_536.0, *time]);
    }
    inside.len() as u32
}

/// One call in six has something wrong in it.
fn damage(random: &mut Random, lists: &mut Vec<u32>, numbers: &mut [f64]) {
    if random.below(6) != 0 || lists.is_empty() {
        return;
    }
    let list = 4 * random.below(lists.len() as u64 / 4) as usize;
    match random.below(6) {
        0 => lists[list] = random.below(5) as u32,
        1 => lists[list + 1] = 65_530 + random.below(12) as u32,
        2 => lists[list + 2] = random.next_u64() as u32,
        3 => lists[list + 3] = random.below(30) as u32,
        4 => lists.truncate(lists.len() - 1),
        _ => {
            let at = random.below(numbers.len() as u64) as usize;
            numbers[at] = match random.below(5) {
                0 => f64::from_bits(random.next_u64()),
                1 => -numbers[at],
                2 => f64::NAN,
                3 => numbers[at] + 1.0 / 131_072.0,
                _ => f64::from_bits(numbers[at].to_bits().wrapping_add(1)),
            };
        }
    }
}
