//! Distributions by name, each turned into a curve that the engine draws from. Whole numbers only: the same curve on every machine.
//! `docs/DISTRIBUTIONS.md` has the algorithm, `python/covrith/distributions.py` the same in Python.

use crate::fixed::{
    div, exp, gamma, ln, lower_gamma, mul, normal_below, normal_density, reaches, root, BITS, ONE,
};

/// A parameter: a multiple of 2^-32.
pub type Number = i128;

/// The bits behind the point of a parameter, and 1.
pub const PLACES: u32 = 32;
pub const UNIT: Number = 1 << PLACES;

/// u of a curve counts in 65,536ths, a time in 64ths of a tick.
pub const U_PARTS: u32 = 65_536;
pub const TIME_PARTS: u32 = 64;

/// The longest time of a curve, and of a discrete distribution the most values, of an Erlang the most phases.
pub const LONGEST: i128 = 1_000_000;
pub const MOST_VALUES: usize = 12;
pub const MOST_PHASES: i128 = 100;

/// Where the points of a fitted curve stand.
pub const KNOTS: [i128; 24] = [
    0, 16, 128, 512, 1536, 3584, 6656, 10752, 15872, 21504, 27136, 32768, 38400, 43520, 48128,
    52224, 56064, 59392, 61952, 63744, 64896, 65408, 65524, 65536,
];

/// Points of u in 65,536ths and of time in 64ths.
pub type Points = Vec<(u32, u32)>;

/// A distribution by name; parameters are multiples of 2^-32, times of `uniform` and `discrete` whole ticks.
#[derive(Clone, Debug, PartialEq, Eq)]
pub enum Shape {
    Exponential(Number),
    Uniform(i128, i128),
    Normal(Number, Number),
    Erlang(i128, Number),
    /// Least, most frequent, most.
    Triangular(Number, Number, Number),
    Lognormal(Number, Number),
    Weibull(Number, Number),
    /// Times and their probabilities in 10^-18.
    Discrete(Vec<(i128, i128)>),
    /// Measured times, rising.
    Empirical(Vec<Number>),
}

/// What is wrong with a parameter: the how manyeth of the text, the rule, the remedy.
#[derive(Clone, Debug, PartialEq, Eq)]
pub struct Wrong {
    pub parameter: usize,
    pub what: String,
    pub remedy: String,
}

fn wrong(parameter: usize, what: impl Into<String>, remedy: impl Into<String>) -> Wrong {
    Wrong {
        parameter,
        what: what.into(),
        remedy: remedy.into(),
    }
}

/// What a distribution by name has by its formula: mean and standard deviation, and the least and the most, if there is one.
#[derive(Clone, Debug, PartialEq, Eq)]
pub struct Figures {
    pub mean: Number,
    pub sd: Number,
    pub least: Option<Number>,
    pub most: Option<Number>,
}

/// A decimal number, its digits behind the eighteenth left out: as a multiple of 10^-18. None for what is no number below 10^18.
pub fn decimal(word: &str) -> Option<i128> {
    let (whole, part) = word.split_once('.').unwrap_or((word, ""));
    let digits = |s: &str| s.chars().all(|c| c.is_ascii_digit());
    if !digits(whole) || !digits(part) || whole.len() + part.len() == 0 || whole.len() > 18 {
        return None;
    }
    let part: String = part
        .chars()
        .chain("0".repeat(18).chars())
        .take(18)
        .collect();
    let whole: i128 = if whole.is_empty() {
        0
    } else {
        whole.parse().ok()?
    };
    Some(whole * EIGHTEEN + part.parse::<i128>().ok()?)
}

/// 10^18.
pub const EIGHTEEN: i128 = 1_000_000_000_000_000_000;

/// A multiple of 10^-18, at most 10^9, as the nearest parameter, halves up.
pub fn number(decimal: i128) -> Number {
    (2 * decimal * UNIT + EIGHTEEN) / (2 * EIGHTEEN)
}

/// A parameter with the digits that tell it from its neighbours, at most two behind the point where that is enough.
pub fn shown(n: Number) -> String {
    let billionths = (n * 1_000_000_000 + UNIT / 2) >> PLACES;
    let text = format!(
        "{}.{:09}",
        billionths / 1_000_000_000,
        billionths % 1_000_000_000
    );
    text.trim_end_matches('0').trim_end_matches('.').to_string()
}

impl Shape {
    /// The first rule that a parameter breaks.
    pub fn check(&self) -> Result<(), Wrong> {
        match self {
            Shape::Exponential(mean) => above_0(0, "the mean", *mean),
            Shape::Uniform(a, b) => uniform(*a, *b),
            Shape::Normal(mean, sd) => {
                above_0(0, "the mean", *mean)?;
                at_most(1, *sd, *mean / 2, "a normal distribution has an sd of at most half its mean, so that few times would be below 0")
            }
            Shape::Erlang(phases, mean) => {
                if !(1..=MOST_PHASES).contains(phases) {
                    return Err(wrong(
                        0,
                        format!("an Erlang distribution has 1 to {MOST_PHASES} phases, and here {phases}"),
                        format!("write a whole number from 1 to {MOST_PHASES}, or take `normal`"),
                    ));
                }
                above_0(1, "the mean", *mean)
            }
            Shape::Triangular(a, c, b) => {
                if c < a || b < c {
                    let place = if c < a { 1 } else { 2 };
                    return Err(wrong(
                        place,
                        "the numbers of a triangular distribution rise: least, most frequent, most",
                        "write them like `triangular 4 6 12`",
                    ));
                }
                long(2, *b)
            }
            Shape::Lognormal(mean, sd) => {
                above_0(0, "the mean", *mean)?;
                at_most(
                    1,
                    *sd,
                    3 * *mean,
                    "a lognormal distribution has an sd of at most three times its mean",
                )
            }
            Shape::Weibull(shape, scale) => {
                if *shape < UNIT / 2 {
                    return Err(wrong(
                        0,
                        format!(
                            "the shape of a Weibull distribution is at least 0.5, and here {}",
                            shown(*shape)
                        ),
                        "write the shape first, then the scale: `weibull 1.5 20`",
                    ));
                }
                above_0(1, "the scale", *scale)
            }
            Shape::Discrete(values) => discrete(values),
            Shape::Empirical(times) => match times.last() {
                None => Err(wrong(
                    0,
                    "there is no time in the file",
                    "write a time to a line",
                )),
                Some(most) => long(0, *most),
            },
        }?;
        let curve = self.curve();
        let last = curve.last().map_or(0, |point| i128::from(point.1));
        if last > LONGEST * i128::from(TIME_PARTS) {
            let ticks = (last + 63) / i128::from(TIME_PARTS);
            return Err(wrong(
                self.size(),
                format!("the longest time of the curve would be {ticks}, and a time is at most {LONGEST}"),
                format!("count in larger ticks, or write a number so much smaller and `, times {}` behind it", factor(ticks)),
            ));
        }
        Ok(())
    }

    /// Which parameter the times grow with.
    fn size(&self) -> usize {
        match self {
            Shape::Erlang(..) | Shape::Weibull(..) => 1,
            _ => 0,
        }
    }

    /// The curve that stands for it; half a tick is added so that the whole part rounds, save where the times are whole.
    pub fn curve(&self) -> Points {
        match self {
            Shape::Uniform(a, b) => vec![(0, whole(*a)), (U_PARTS, whole(b + 1))],
            Shape::Discrete(values) => steps(values, EIGHTEEN),
            Shape::Exponential(mean) => Standard::erlang(1).curve(*mean),
            Shape::Erlang(phases, mean) => Standard::erlang(*phases).curve(*mean),
            Shape::Weibull(shape, scale) => Standard::weibull(*shape).curve(*scale),
            Shape::Normal(mean, sd) => Standard::normal(*mean, *sd).curve(*mean),
            Shape::Lognormal(mean, sd) => Standard::lognormal(*mean, *sd).curve(*mean),
            Shape::Triangular(a, c, b) => triangular(*a, *c, *b).points(1, PLACES),
            Shape::Empirical(times) => empirical(times),
        }
    }

    /// By the formula; of measured times by their number less one.
    pub fn figures(&self) -> Figures {
        let from_0 = |mean, sd| Figures {
            mean,
            sd,
            least: Some(0),
            most: None,
        };
        let between = |mean, sd, least, most| Figures {
            mean,
            sd,
            least: Some(least),
            most: Some(most),
        };
        match self {
            Shape::Exponential(mean) => from_0(*mean, *mean),
            Shape::Erlang(phases, mean) => from_0(*mean, root(mean * mean / phases)),
            Shape::Normal(mean, sd) | Shape::Lognormal(mean, sd) => from_0(*mean, *sd),
            Shape::Weibull(shape, scale) => {
                let of = |times: i128| gamma(ONE + div(times * UNIT, *shape));
                let (first, second) = (of(1), of(2));
                let sd = root((second - mul(first, first)).max(0) << BITS);
                from_0(mul(first, *scale), mul(sd, *scale))
            }
            Shape::Uniform(a, b) => {
                let width = b - a + 1;
                let sd = root((width * width - 1) * UNIT * UNIT / 12);
                between((a + b) * UNIT / 2, sd, a * UNIT, b * UNIT)
            }
            Shape::Triangular(a, c, b) => {
                let squares = a * a + b * b + c * c - a * b - a * c - b * c;
                between((a + b + c) / 3, root(squares / 18), *a, *b)
            }
            Shape::Discrete(values) => {
                let mean: i128 = values.iter().map(|(t, p)| t * p).sum();
                let square: i128 = values.iter().map(|(t, p)| t * t * (p / 1_000)).sum();
                let mean = (mean / 1_000_000 * UNIT) / (EIGHTEEN / 1_000_000);
                let variance =
                    (square / 1_000_000 * UNIT) / 1_000_000_000 - ((mean * mean) >> PLACES);
                between(
                    mean,
                    root(variance.max(0) << PLACES),
                    values[0].0 * UNIT,
                    values[values.len() - 1].0 * UNIT,
                )
            }
            Shape::Empirical(times) => {
                let count = times.len() as i128;
                let mean = times.iter().sum::<i128>() / count;
                let squares: i128 = times
                    .iter()
                    .map(|t| ((t - mean) * (t - mean)) >> PLACES)
                    .sum();
                let sd = root((squares / (count - 1).max(1)) << PLACES);
                between(mean, sd, times[0], times[times.len() - 1])
            }
        }
    }
}

/// The least power of ten that brings a time below the limit.
fn factor(ticks: i128) -> i128 {
    let mut factor = 10;
    while ticks > LONGEST * factor {
        factor *= 10;
    }
    factor
}

fn above_0(parameter: usize, what: &str, n: Number) -> Result<(), Wrong> {
    if n <= 0 {
        return Err(wrong(
            parameter,
            format!("{what} is more than 0, and here {}", shown(n)),
            "write a number above 0; `fixed 0` gives zeros",
        ));
    }
    long(parameter, n)
}

fn long(parameter: usize, n: Number) -> Result<(), Wrong> {
    if n > LONGEST * UNIT {
        return Err(wrong(
            parameter,
            format!("a time of a distribution is at most {LONGEST}, and here {}", shown(n)),
            format!("count in larger ticks, or write a number so much smaller and `, times {}` behind it", factor(n >> PLACES)),
        ));
    }
    Ok(())
}

/// Both are rounded: 2^-31 more is none.
fn at_most(parameter: usize, n: Number, most: Number, rule: &str) -> Result<(), Wrong> {
    if n > most + 2 {
        return Err(wrong(
            parameter,
            format!("{rule}; here it is {}", shown(n)),
            format!(
                "write at most {}, or take another distribution",
                shown(most)
            ),
        ));
    }
    Ok(())
}

fn uniform(a: i128, b: i128) -> Result<(), Wrong> {
    if b < a {
        return Err(wrong(
            1,
            format!(
                "the last time of `uniform` is not before the first, and here {b} is below {a}"
            ),
            format!("write `uniform {b} {a}`"),
        ));
    }
    if b >= LONGEST {
        return Err(wrong(
            1,
            format!("the last time of `uniform` is at most {}, and here {b}", LONGEST - 1),
            format!("count in larger ticks, or write numbers so much smaller and `, times {}` behind them", factor(b + 1)),
        ));
    }
    Ok(())
}

fn discrete(values: &[(i128, i128)]) -> Result<(), Wrong> {
    if values.is_empty() || values.len() > MOST_VALUES {
        return Err(wrong(
            0,
            format!(
                "`discrete` has 1 to {MOST_VALUES} values, and here {}",
                values.len()
            ),
            "a value is a time and its probability with `:` between them, as 0:0.7",
        ));
    }
    for (i, (time, part)) in values.iter().enumerate() {
        if i > 0 && *time <= values[i - 1].0 {
            return Err(wrong(
                2 * i,
                format!(
                    "times of `discrete` rise, and here {time} follows {}",
                    values[i - 1].0
                ),
                "write the values by rising time, each time once",
            ));
        }
        if *time > LONGEST {
            return Err(wrong(
                2 * i,
                format!("a time of a distribution is at most {LONGEST}, and here {time}"),
                "count in larger ticks, or write `, times 10` behind it",
            ));
        }
        if *part * i128::from(U_PARTS) < EIGHTEEN {
            return Err(wrong(2 * i + 1, format!("a probability is at least 1/{U_PARTS}, the part of one draw, and here it is less"), format!("leave the value out, or write at least 0.0000152588 behind {time}")));
        }
    }
    let sum: i128 = values.iter().map(|(_, part)| part).sum();
    if sum != EIGHTEEN {
        return Err(wrong(
            2 * values.len() - 1,
            format!("the probabilities sum to 1, and here to {}", tenths(sum)),
            format!(
                "write {} at the end, or change the others",
                tenths(EIGHTEEN - sum + values[values.len() - 1].1)
            ),
        ));
    }
    Ok(())
}

/// A multiple of 10^-18 as it is written.
fn tenths(n: i128) -> String {
    let sign = if n < 0 { "-" } else { "" };
    let (whole, part) = (n.abs() / EIGHTEEN, n.abs() % EIGHTEEN);
    let text = format!("{sign}{whole}.{part:018}");
    text.trim_end_matches('0').trim_end_matches('.').to_string()
}

fn whole(ticks: i128) -> u32 {
    ticks as u32 * TIME_PARTS
}

/// A curve that jumps: each time has the whole 65,536ths of its part of all, the sums rounded.
fn steps(values: &[(i128, i128)], all: i128) -> Points {
    let parts = i128::from(U_PARTS);
    let mut points: Points = Vec::new();
    let (mut sum, mut from) = (0, 0);
    for (time, part) in values {
        sum += part;
        let to = ((2 * sum * parts + all) / (2 * all)) as u32;
        if to > from {
            points.push((from, whole(*time)));
            let end = if to == U_PARTS { to } else { to - 1 };
            if end > from {
                points.push((end, whole(*time)));
            }
        }
        from = to;
    }
    points
}

/// What a curve is fitted to, at the knots: the quantile there (not asked for at the last), and 65,536 times the mean of all times below it.
struct Fit {
    knots: Vec<i128>,
    quantiles: Vec<i128>,
    sums: Vec<i128>,
    least: i128,
    most: i128,
    /// Up to this knot all times are 0.
    zeros: Option<usize>,
}

/// A fit whose numbers are multiples of 2^-56.
struct Standard(Fit);

/// No time is above this, in means.
const NO_END: i128 = 1_000_000 * ONE;

fn parts(u: i128) -> i128 {
    u * (ONE / i128::from(U_PARTS))
}

/// What is above the first knot and below the last, of the knots.
fn inner<T>(first: T, of: impl Fn(i128) -> T, last: T, knots: &[i128]) -> Vec<T> {
    let between = knots[1..knots.len() - 1].iter().map(|u| of(parts(*u)));
    std::iter::once(first)
        .chain(between)
        .chain([last])
        .collect()
}

/// The standard normal quantile.
fn normal_at(u: i128) -> i128 {
    reaches(u, -6 * ONE, 6 * ONE, normal_below)
}

impl Standard {
    fn new(knots: Vec<i128>, quantiles: Vec<i128>, below: Vec<i128>) -> Standard {
        Standard(Fit {
            knots,
            quantiles,
            sums: below
                .iter()
                .map(|part| part * i128::from(U_PARTS))
                .collect(),
            least: -ONE,
            most: NO_END,
            zeros: None,
        })
    }

    /// Times of mean 1.
    fn erlang(phases: i128) -> Standard {
        let ln_factorial = |n: i128| (1..=n).map(|k| ln(k * ONE)).sum::<i128>();
        let (own, more) = (ln_factorial(phases), ln_factorial(phases + 1));
        let end = phases * ONE + root((36 * phases) << (2 * BITS - 8)) * 16 + 12 * ONE;
        let at = |u| match phases {
            1 => -ln(ONE - u),
            _ => reaches(u, 0, end, |x| lower_gamma(phases * ONE, own, x)),
        };
        let x = inner(0, at, end, &KNOTS);
        let below = |x: &i128| lower_gamma((phases + 1) * ONE, more, *x);
        let mut means: Vec<i128> = x.iter().map(below).collect();
        means[KNOTS.len() - 1] = ONE;
        let quantiles = x.iter().map(|x| x.div_euclid(phases)).collect();
        Standard::new(KNOTS.to_vec(), quantiles, means)
    }

    /// Times of scale 1.
    fn weibull(shape: Number) -> Standard {
        let a = ONE + div(UNIT, shape);
        let y = inner(0, |u| -ln(ONE - u), ONE, &KNOTS);
        let at = |y: &i128| match y {
            0 => 0,
            y => exp((ln(*y) << PLACES).div_euclid(shape)),
        };
        let mut means: Vec<i128> = y.iter().map(|y| lower_gamma(a, ln(a), *y)).collect();
        means[KNOTS.len() - 1] = gamma(a);
        Standard::new(KNOTS.to_vec(), y.iter().map(at).collect(), means)
    }

    /// Times of mean 1.
    fn lognormal(mean: Number, sd: Number) -> Standard {
        let ratio = div(sd, mean);
        let variance = ln(ONE + mul(ratio, ratio));
        let sigma = root(variance << BITS);
        let z = inner(0, normal_at, 0, &KNOTS);
        let mut quantiles: Vec<i128> = z
            .iter()
            .map(|z| exp(mul(sigma, *z) - variance / 2))
            .collect();
        let mut means: Vec<i128> = z.iter().map(|z| normal_below(z - sigma)).collect();
        let last = KNOTS.len() - 1;
        (quantiles[0], means[0], means[last]) = (0, 0, ONE);
        Standard::new(KNOTS.to_vec(), quantiles, means)
    }

    /// Times of mean 1 before those below 0 become 0. Where more than one 65,536th is below 0, the nearest knot stands there.
    fn normal(mean: Number, sd: Number) -> Standard {
        let ratio = div(sd, mean).max(1);
        let zero = (-div(ONE, ratio)).max(-6 * ONE);
        let negative = normal_below(zero);
        let edge = (negative * i128::from(U_PARTS) + ONE / 2) >> BITS;
        let mut knots = KNOTS.to_vec();
        let mut zeros = None;
        if edge >= 2 {
            let near = (1..11)
                .min_by_key(|i| (knots[*i] - edge).abs())
                .unwrap_or(1);
            knots[near] = edge;
            zeros = Some(near);
        }
        let z = inner(zero, normal_at, 0, &knots);
        let above = |(z, u): (&i128, &i128)| match *z <= zero {
            true => 0,
            false => parts(*u) - negative + mul(ratio, normal_density(zero) - normal_density(*z)),
        };
        let mut means: Vec<i128> = z.iter().zip(&knots).map(above).collect();
        means[KNOTS.len() - 1] = ONE - negative + mul(ratio, normal_density(zero));
        let mut quantiles: Vec<i128> = z.iter().map(|z| (ONE + mul(ratio, *z)).max(0)).collect();
        if let Some(near) = zeros {
            (means[near], quantiles[near]) = (0, 0);
        }
        let mut standard = Standard::new(knots, quantiles, means);
        standard.0.zeros = zeros;
        standard
    }

    fn curve(&self, unit: Number) -> Points {
        self.0.points(unit, BITS + PLACES)
    }
}

/// In multiples of 2^-32 ticks.
fn triangular(a: Number, c: Number, b: Number) -> Fit {
    let all = i128::from(U_PARTS);
    let low = |u: i128| root((b - a) * (c - a) / all * u);
    let high = |u: i128| root((b - a) * (b - c) / all * (all - u));
    let rising = |u: i128| u * (b - a) <= all * (c - a);
    let at = |u: &i128| match rising(*u) {
        true => a + low(*u),
        false => b - high(*u),
    };
    let below = |u: &i128| match rising(*u) {
        true => u * (3 * a + 2 * low(*u)) / 3,
        false => (all * (a + b + c) - (all - u) * (3 * b - 2 * high(*u))) / 3,
    };
    Fit {
        knots: KNOTS.to_vec(),
        quantiles: KNOTS.iter().map(at).collect(),
        sums: KNOTS.iter().map(below).collect(),
        least: a,
        most: b,
        zeros: None,
    }
}

/// Up to twelve different whole times jump from one to the next; more are fitted.
fn empirical(times: &[Number]) -> Points {
    let mut counts: Vec<(i128, i128)> = Vec::new();
    for time in times {
        let ticks = (time + UNIT / 2) >> PLACES;
        match counts.last_mut() {
            Some((last, count)) if *last == ticks => *count += 1,
            _ => counts.push((ticks, 1)),
        }
    }
    let count = times.len() as i128;
    if counts.len() <= MOST_VALUES {
        return steps(&counts, count);
    }
    let mut before = vec![0];
    for time in times {
        before.push(before[before.len() - 1] + time);
    }
    let all = i128::from(U_PARTS);
    let at = |u: &i128| times[((u * count / all) as usize).min(times.len() - 1)];
    let below = |u: &i128| {
        let (k, rest) = ((u * count / all) as usize, u * count % all);
        let part = if rest == 0 { 0 } else { rest * times[k] };
        (all * before[k] + part) / count
    };
    let fit = Fit {
        knots: KNOTS.to_vec(),
        quantiles: KNOTS.iter().map(at).collect(),
        sums: KNOTS.iter().map(below).collect(),
        least: times[0],
        most: times[times.len() - 1],
        zeros: None,
    };
    fit.points(1, PLACES)
}

impl Fit {
    /// Times at the knots so that each segment has its mean over the u that are drawn. Where a line fits best to begin with, the quantile
    /// is taken; from there each segment gives the next time, to the right and to the left.
    fn times(&self) -> Vec<i128> {
        let segments = self.knots.len() - 1;
        let q = &self.quantiles;
        let width = |i: usize| self.knots[i + 1] - self.knots[i];
        let area = |i: usize| 2 * (self.sums[i + 1] - self.sums[i]);
        let off = |i: &usize| (q[*i] + q[*i + 1] - area(*i).div_euclid(width(*i))).abs();
        let start = (0..segments - 1)
            .filter(|i| q[i + 1] > q[*i])
            .min_by_key(off)
            .unwrap_or(segments / 2);
        let mut times = vec![0; segments + 1];
        times[start] = q[start];
        let mut left_over = 0;
        for i in start..segments {
            let wanted = area(i) + left_over - (width(i) + 1) * times[i];
            let most = if i + 2 < segments {
                q[i + 2]
            } else {
                self.most
            };
            times[i + 1] = wanted.div_euclid(width(i) - 1).min(most).max(times[i]);
            left_over = wanted - (width(i) - 1) * times[i + 1];
        }
        left_over = 0;
        for i in (0..start).rev() {
            let wanted = area(i) + left_over - (width(i) - 1) * times[i + 1];
            let least = if i > 0 { q[i - 1] } else { self.least };
            times[i] = wanted.div_euclid(width(i) + 1).max(least).min(times[i + 1]);
            left_over = wanted - (width(i) + 1) * times[i];
        }
        if let Some(zeros) = self.zeros {
            times[..=zeros].fill(0);
        }
        times
    }

    /// The curve in units of this many ticks, half a tick added; `bits` stand behind the point of a product.
    fn points(&self, unit: i128, bits: u32) -> Points {
        let parts = i128::from(TIME_PARTS);
        let half = ((parts + 1) << bits) / 2;
        let time =
            |t: &i128| ((t * unit * parts + half) >> bits).clamp(0, i128::from(u32::MAX)) as u32;
        let knots = self.knots.iter().map(|u| *u as u32);
        knots.zip(self.times().iter().map(time)).collect()
    }
}
