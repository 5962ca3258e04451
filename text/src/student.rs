//! Quantiles of Student's t, by whole-number arithmetic.

use crate::fixed::{div, mul, root, BITS, ONE};

/// π / 2, rounded down.
const QUARTER_TURN: i128 = 113_187_804_032_455_044;

/// What a quantile is a multiple of: 2^-32.
pub const T_BITS: u32 = 32;

/// sin and cos of an angle from 0 to π / 2.
fn sin_cos(angle: i128) -> (i128, i128) {
    let (mut sums, mut term, mut k) = ([0; 2], ONE, 0);
    while term > 0 {
        let sign = if k & 2 == 0 { 1 } else { -1 };
        sums[k as usize & 1] += sign * term;
        k += 1;
        term = mul(term, angle) / k;
    }
    (sums[1].clamp(0, ONE), sums[0].clamp(0, ONE))
}

/// The part of Student's t with this many degrees of freedom between -t and t, where t = √degrees tan angle: a finite sum of powers of
/// the cosine.
fn within(degrees: u32, angle: i128) -> i128 {
    let (sin, cos) = sin_cos(angle);
    let square = mul(cos, cos);
    let odd = degrees % 2 == 1;
    let (mut term, mut sum) = (if odd { cos } else { ONE }, 0);
    let first = if odd { 3 } else { 2 };
    for k in (first..=degrees).step_by(2) {
        sum += term;
        let k = i128::from(k);
        term = mul(term, square) * (k - 1) / k;
    }
    let of_sum = mul(sin, sum);
    match odd {
        true => div(angle + of_sum, QUARTER_TURN),
        false => of_sum,
    }
}

/// The t that a part of all, in 100,000ths, lies within: of 95,000 and 29 degrees 2.045. In multiples of 2^-32.
pub fn quantile(degrees: u32, part: u32) -> i128 {
    let part = i128::from(part) * ONE / 100_000;
    let angle = crate::fixed::reaches(part, 0, QUARTER_TURN, |angle| within(degrees, angle));
    let (sin, cos) = sin_cos(angle);
    let root = root(i128::from(degrees) << (2 * T_BITS));
    (root * div(sin, cos.max(1))) >> BITS
}

#[cfg(test)]
mod tests {
    use super::{quantile, T_BITS};

    /// Published quantiles: degrees, then t of 80, 90, 95, 98, 99 and 99.9 % within -t and t, in thousandths.
    const PUBLISHED: &[(u32, [i128; 6])] = &[
        (1, [3078, 6314, 12706, 31821, 63657, 636619]),
        (2, [1886, 2920, 4303, 6965, 9925, 31599]),
        (3, [1638, 2353, 3182, 4541, 5841, 12924]),
        (4, [1533, 2132, 2776, 3747, 4604, 8610]),
        (5, [1476, 2015, 2571, 3365, 4032, 6869]),
        (6, [1440, 1943, 2447, 3143, 3707, 5959]),
        (7, [1415, 1895, 2365, 2998, 3499, 5408]),
        (8, [1397, 1860, 2306, 2896, 3355, 5041]),
        (9, [1383, 1833, 2262, 2821, 3250, 4781]),
        (10, [1372, 1812, 2228, 2764, 3169, 4587]),
        (12, [1356, 1782, 2179, 2681, 3055, 4318]),
        (15, [1341, 1753, 2131, 2602, 2947, 4073]),
        (19, [1328, 1729, 2093, 2539, 2861, 3883]),
        (20, [1325, 1725, 2086, 2528, 2845, 3850]),
        (24, [1318, 1711, 2064, 2492, 2797, 3745]),
        (29, [1311, 1699, 2045, 2462, 2756, 3659]),
        (30, [1310, 1697, 2042, 2457, 2750, 3646]),
        (40, [1303, 1684, 2021, 2423, 2704, 3551]),
        (60, [1296, 1671, 2000, 2390, 2660, 3460]),
        (100, [1290, 1660, 1984, 2364, 2626, 3390]),
        (120, [1289, 1658, 1980, 2358, 2617, 3373]),
        (1000, [1282, 1646, 1962, 2330, 2581, 3300]),
    ];

    #[test]
    fn as_published() {
        let thousandths = |t: i128| (t * 1000 + (1 << (T_BITS - 1))) >> T_BITS;
        for (degrees, published) in PUBLISHED {
            let parts = [80_000, 90_000, 95_000, 98_000, 99_000, 99_900];
            let found = parts.map(|part| thousandths(quantile(*degrees, part)));
            assert_eq!(found, *published, "{degrees} degrees");
        }
    }

    #[test]
    fn falls_with_the_degrees() {
        for part in [50_000, 95_000, 99_900] {
            let all: Vec<i128> = (1..5120).step_by(97).map(|d| quantile(d, part)).collect();
            assert!(all.windows(2).all(|pair| pair[0] > pair[1]), "{part}");
        }
    }
}
