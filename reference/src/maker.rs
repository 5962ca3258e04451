//! Tapes from distributions (02, item 4), in whole numbers: a caller's double is
//! taken apart by its bits, and where the paper rounds, so does `Binary`.

use crate::model::Model;
use crate::number::number_bytes;
use crate::streams::{start, step};

/// "Times, means and halves are multiples of 1/64 from 0 to 1,000,000".
pub const PER_TICK: u64 = 64;
pub const MAX_TIME: u64 = 1_000_000;
pub const MAX_MEAN: u64 = 500_000;

/// "u rising strictly from 0 to 1 in 65,536ths"
pub const PER_ONE: u64 = 65_536;

pub const MIN_POINTS: usize = 2;
pub const MAX_POINTS: usize = 24;

/// "a distribution or count outside these rules or a seventeenth"
pub const NO_DISTRIBUTION: u32 = 42;

/// "the tape needs more bytes than were lent"
pub const NO_ROOM: u32 = 43;

/// What a list is drawn from; times in 64ths, u in 65,536ths.
#[derive(Clone, Debug, PartialEq, Eq)]
pub enum Distribution {
    Fixed(u64),
    Spread {
        mean: u64,
        half: u64,
    },
    /// Points of u and time.
    Curve(Vec<(u64, u64)>),
}

/// A double as a whole number of parts, `per` to one, from 0 to `most`.
/// `None`: not a number, infinite, below 0, too large or no such multiple.
pub fn parts_of(double: f64, per: u64, most: u64) -> Option<u64> {
    let bits = double.to_bits();
    let exponent = (bits >> 52 & 0x7FF) as i32;
    let fraction = bits & ((1 << 52) - 1);
    if exponent == 0 && fraction == 0 {
        return Some(0); // minus zero counts as 0
    }
    let negative = bits >> 63 == 1;
    let places = 1075 - exponent; // the double is its 53 digits over 2 to this power
    if negative || !(0..128).contains(&places) {
        return None; // 2 to the power 53 and more, not a number, or tiny
    }
    let digits = u128::from(fraction | 1 << 52) * u128::from(per);
    let divisor = 1u128 << places;
    let parts = digits / divisor;
    (digits % divisor == 0 && parts <= u128::from(most)).then_some(parts as u64)
}

fn time_parts(double: f64, most: u64) -> Option<u64> {
    parts_of(double, PER_TICK, most * PER_TICK)
}

impl Distribution {
    /// A distribution of the interface: kind 0 fixed, 1 spread, 2 curve, its
    /// first double and the number of points, which is 0 but for a curve.
    pub fn given(kind: u32, numbers: &[f64], points: u32) -> Option<Distribution> {
        if kind != 2 && points != 0 {
            return None;
        }
        match kind {
            0 => Some(Distribution::Fixed(time_parts(
                *numbers.first()?,
                MAX_TIME,
            )?)),
            1 => {
                let mean = time_parts(*numbers.first()?, MAX_MEAN)?;
                let half = time_parts(*numbers.get(1)?, MAX_TIME)?;
                (half <= mean).then_some(Distribution::Spread { mean, half })
            }
            2 => curve(numbers, points as usize),
            _ => None,
        }
    }

    /// The time for a draw of u, in 65,536ths.
    pub fn time(&self, u: u64) -> u64 {
        match self {
            Distribution::Fixed(time) => time / PER_TICK,
            Distribution::Spread { mean, half } => {
                // "mean - half + 2 × half × u without any rounding error"
                ((mean - half) * PER_ONE + 2 * half * u) / (PER_TICK * PER_ONE)
            }
            Distribution::Curve(points) => {
                let segment = segment(points, u);
                interpolated(segment[0], segment[1], u).whole()
            }
        }
    }

    /// "A fixed time draws nothing, the others draw once for each time."
    pub fn draws(&self) -> bool {
        !matches!(self, Distribution::Fixed(_))
    }
}

fn curve(numbers: &[f64], count: usize) -> Option<Distribution> {
    if !(MIN_POINTS..=MAX_POINTS).contains(&count) {
        return None;
    }
    let mut points: Vec<(u64, u64)> = Vec::new();
    for at in 0..count {
        let u = parts_of(*numbers.get(2 * at)?, PER_ONE, PER_ONE)?;
        let time = time_parts(*numbers.get(2 * at + 1)?, MAX_TIME)?;
        if let Some((before, earlier)) = points.last() {
            if u <= *before || time < *earlier {
                return None;
            }
        }
        points.push((u, time));
    }
    let whole = points[0].0 == 0 && points[count - 1].0 == PER_ONE;
    whole.then_some(Distribution::Curve(points))
}

/// The two neighbouring points between which u lies.
pub fn segment(points: &[(u64, u64)], u: u64) -> &[(u64, u64)] {
    let at = (0..points.len() - 1).find(|at| u < points[at + 1].0);
    let at = at.expect("u is below 1");
    &points[at..at + 2]
}

/// "time0 + ((time1 - time0) × (u - u0)) ÷ (u1 - u0), each operation rounded
/// once": both differences and the product are exact, as they have few digits.
pub fn interpolated((u0, time0): (u64, u64), (u1, time1): (u64, u64), u: u64) -> Binary {
    let product = (time1 - time0) * (u - u0);
    let quotient = Binary::rounded(u128::from(product), u128::from(PER_TICK * (u1 - u0)));
    quotient.plus(u128::from(time0), PER_TICK.trailing_zeros())
}

/// A nonnegative binary number of at most 53 digits: `digits` over 2 to the power `scale`.
#[derive(Clone, Copy, Debug, PartialEq, Eq)]
pub struct Binary {
    pub digits: u128,
    pub scale: u32,
}

impl Binary {
    /// The nearest to a quotient, of two equally near the even one. The
    /// quotient is 0 or from 2 to the power -22 to below 2 to the power 53.
    pub fn rounded(numerator: u128, denominator: u128) -> Binary {
        let limit = 1u128 << 53;
        // As many places after the point as leave 53 digits before it.
        let mut scale = 0;
        while scale < 75 && ((numerator << (scale + 1)) / denominator) < limit {
            scale += 1;
        }
        let shifted = numerator << scale;
        let digits = shifted / denominator;
        let rest = 2 * (shifted % denominator);
        let up = rest > denominator || (rest == denominator && digits % 2 == 1);
        Binary {
            digits: digits + u128::from(up),
            scale,
        }
    }

    /// This and `parts` over 2 to the power `places`, added and rounded.
    fn plus(self, parts: u128, places: u32) -> Binary {
        let sum = (self.digits << places) + (parts << self.scale);
        let scale = self.scale + places;
        let length = u128::BITS - sum.leading_zeros();
        let dropped = length.saturating_sub(53);
        if dropped == 0 {
            return Binary { digits: sum, scale };
        }
        let digits = sum >> dropped;
        let rest = sum - (digits << dropped);
        let half = 1 << (dropped - 1);
        let up = rest > half || (rest == half && digits % 2 == 1);
        Binary {
            digits: digits + u128::from(up),
            scale: scale - dropped,
        }
    }

    /// The whole part.
    pub fn whole(self) -> u64 {
        (self.digits >> self.scale) as u64
    }
}

/// "u = (r - 1) divided by 32,768, whole part, over 65,536"
pub fn draw(state: u32) -> u64 {
    (u64::from(state) - 1) / 32_768
}

/// Writes a tape at the front of `tape` and gives its length, or 41, 42 or 43.
/// `lists` has four numbers for each list: kind, count, the index of its first
/// double in `numbers`, the number of its points.
pub fn make_tape(
    stream: u32,
    lists: &[u32],
    numbers: &[f64],
    tape: &mut [u8],
) -> Result<usize, u32> {
    let mut state = start(stream)?;
    let mut bytes = Vec::new();
    for (distribution, count) in given_lists(lists, numbers)? {
        bytes.extend(number_bytes(u64::from(count)));
        for _ in 0..count {
            let mut u = 0;
            if distribution.draws() {
                state = step(state);
                u = draw(state);
            }
            bytes.extend(number_bytes(distribution.time(u)));
        }
    }
    if bytes.len() > tape.len() {
        return Err(NO_ROOM);
    }
    tape[..bytes.len()].copy_from_slice(&bytes);
    Ok(bytes.len())
}

/// "list by list, 42 a distribution or count outside these rules or a seventeenth"
pub fn given_lists(lists: &[u32], numbers: &[f64]) -> Result<Vec<(Distribution, u32)>, u32> {
    if lists.len() % 4 != 0 || lists.len() / 4 > Model::MAX_LISTS as usize {
        return Err(NO_DISTRIBUTION);
    }
    let mut given = Vec::new();
    for list in lists.chunks(4) {
        let first = numbers.get(list[2] as usize..).unwrap_or(&[]);
        let distribution = Distribution::given(list[0], first, list[3]);
        match distribution {
            Some(distribution) if list[1] <= Model::MAX_SAMPLES => {
                given.push((distribution, list[1]));
            }
            _ => return Err(NO_DISTRIBUTION),
        }
    }
    Ok(given)
}
