//! Sums over runs: mean, standard deviation and half-width of numbers that come one by one, by whole-number arithmetic.

use modeltext::fixed::root;
use modeltext::student::{quantile, T_BITS};

/// Numbers are multiples of a millionth. None is above 3.2 × 10^10, the last clock, so that the squares of 5,120 have room.
pub const MILLION: i128 = 1_000_000;

#[derive(Clone, Copy, Debug, Default, PartialEq, Eq)]
pub struct Sums {
    pub count: i128,
    sum: i128,
    squares: i128,
    pub least: i128,
    pub most: i128,
}

impl Sums {
    pub fn add(&mut self, x: i128) {
        let first = self.count == 0;
        self.least = if first { x } else { self.least.min(x) };
        self.most = if first { x } else { self.most.max(x) };
        self.count += 1;
        self.sum += x;
        self.squares += x * x;
    }

    /// The mean, halves up.
    pub fn mean(&self) -> Option<i128> {
        let n = self.count;
        (n > 0).then(|| (2 * self.sum + n).div_euclid(2 * n))
    }

    /// The squares of what is off the mean, rounded down.
    fn off(&self) -> i128 {
        let (whole, rest) = (
            self.sum.div_euclid(self.count),
            self.sum.rem_euclid(self.count),
        );
        let around = self.squares - 2 * whole * self.sum + self.count * whole * whole;
        around - rest * rest / self.count
    }

    /// The root of the squares by a divisor, with as many binary digits behind the point as there is room for, and how many.
    fn root_of_off(&self, divisor: i128) -> (i128, u32) {
        let off = self.off().max(0);
        let bits = off.leading_zeros().saturating_sub(2).min(60) / 2;
        (root((off << (2 * bits)) / divisor), bits)
    }

    /// The standard deviation, by the number less one.
    pub fn sd(&self) -> Option<i128> {
        (self.count > 1).then(|| {
            let (root, bits) = self.root_of_off(self.count - 1);
            rounded(root, bits)
        })
    }

    /// Half the interval that holds the true mean in this part of all studies, in 100,000ths.
    pub fn half_width(&self, part: u32) -> Option<i128> {
        (self.count > 1).then(|| {
            let (root, bits) = self.root_of_off(self.count * (self.count - 1));
            let t = quantile((self.count - 1) as u32, part);
            rounded(t * root, T_BITS + bits)
        })
    }
}

fn rounded(n: i128, bits: u32) -> i128 {
    match bits {
        0 => n,
        bits => (n + (1 << (bits - 1))) >> bits,
    }
}

/// A number with two decimals, halves up.
pub fn two(x: i128) -> String {
    let hundredths = (x.abs() + 5_000) / 10_000;
    let sign = if x < 0 && hundredths > 0 { "-" } else { "" };
    format!("{sign}{}.{:02}", hundredths / 100, hundredths % 100)
}

#[cfg(test)]
mod tests {
    use super::{two, Sums, MILLION};

    fn of(numbers: &[i128]) -> Sums {
        let mut sums = Sums::default();
        numbers.iter().for_each(|x| sums.add(x * MILLION));
        sums
    }

    #[test]
    fn as_by_hand() {
        let sums = of(&[2, 4, 4, 4, 5, 5, 7, 9]);
        assert_eq!(sums.mean(), Some(5 * MILLION));
        assert_eq!(sums.sd(), Some(2_138_090)); // √(32 / 7)
        assert_eq!(sums.half_width(95_000), Some(1_787_488)); // 2.364624 × 2.138090 / √8
        assert_eq!((sums.least, sums.most), (2 * MILLION, 9 * MILLION));
        assert_eq!(of(&[3]).sd(), None);
        assert_eq!(of(&[]).mean(), None);
        assert_eq!(of(&[-3, -3]).half_width(99_900), Some(0));
    }

    #[test]
    fn the_largest_have_room() {
        let mut sums = Sums::default();
        for i in 0..5120 {
            sums.add(if i % 2 == 0 {
                0
            } else {
                32_000_000_000 * MILLION
            });
        }
        assert_eq!(sums.mean(), Some(16_000_000_000 * MILLION));
        let sd = sums.sd().unwrap() / MILLION;
        assert_eq!(sd, 16_001_562_728);
        assert!(sums.half_width(99_900).unwrap() > 0);
    }

    #[test]
    fn decimals() {
        let shown = [0, 5_000, 4_999, -4_999, -5_000, 12_345_678].map(two);
        assert_eq!(shown, ["0.00", "0.01", "0.00", "0.00", "-0.01", "12.35"]);
    }
}
