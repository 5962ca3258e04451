//! Whole-number arithmetic for curves: numbers are multiples of 2^-56, every operation rounds down, and nothing depends on the machine.
//! `python/covrith/distributions.py` has the same functions, and `tools/check-distributions` compares what both give.

/// 1.
pub const ONE: i128 = 1 << BITS;
pub const BITS: u32 = 56;

/// ln Γ(3/2) and ln √(2π), rounded down.
const LN_GAMMA_3_2: i128 = -8_703_277_446_513_042;
const LN_ROOT_2_PI: i128 = 66_216_499_771_471_269;

pub fn mul(a: i128, b: i128) -> i128 {
    (a * b) >> BITS
}

/// b is above 0.
pub fn div(a: i128, b: i128) -> i128 {
    (a << BITS).div_euclid(b)
}

/// The whole part of a root.
pub fn root(n: i128) -> i128 {
    if n < 2 {
        return n.max(0);
    }
    // Newton from above: falls until it is there
    let mut x: i128 = 1 << (128 - n.leading_zeros()).div_ceil(2);
    loop {
        let next = (x + n / x) / 2;
        if next >= x {
            return x;
        }
        x = next;
    }
}

/// t + t³/3 + t⁵/5 + .. for t from 0 to 1/3.
fn atanh(t: i128) -> i128 {
    let square = mul(t, t);
    let (mut sum, mut power, mut n) = (0, t, 1);
    while power > 0 {
        sum += power / n;
        power = mul(power, square);
        n += 2;
    }
    sum
}

fn ln_2() -> i128 {
    2 * atanh(ONE / 3)
}

/// x is above 0: 2^e × f with f from 1 to below 2, and ln f = 2 atanh((f - 1) / (f + 1)).
pub fn ln(x: i128) -> i128 {
    let e = 127 - x.leading_zeros() as i32 - BITS as i32;
    let f = if e >= 0 { x >> e } else { x << -e };
    i128::from(e) * ln_2() + 2 * atanh(div(f - ONE, f + ONE))
}

/// 2^n × (1 + r + r²/2 + ..) with x = n ln 2 + r.
pub fn exp(x: i128) -> i128 {
    let ln_2 = ln_2();
    let (n, r) = (x.div_euclid(ln_2), x.rem_euclid(ln_2));
    let (mut sum, mut term, mut k) = (0, ONE, 1);
    while term > 0 {
        sum += term;
        term = mul(term, r) / k;
        k += 1;
    }
    match n {
        0.. => sum << n as u32,
        -126..=-1 => sum >> (-n) as u32,
        _ => 0,
    }
}

/// The lower incomplete gamma function: x^a e^-x e^-c (1 + x/(a+1) + x²/((a+1)(a+2)) + ..). With c = ln Γ(a + 1) it is the part of
/// Γ(a) below x, with c = ln a that part times Γ(a).
pub fn lower_gamma(a: i128, c: i128, x: i128) -> i128 {
    if x <= 0 {
        return 0;
    }
    let mut term = exp(mul(a, ln(x)) - x - c);
    let (mut sum, mut next) = (0, a);
    while term > 0 {
        sum += term;
        next += ONE;
        term = mul(term, div(x, next));
    }
    sum
}

/// Γ(a) for a from 1 to 5: the part above 24 is left out.
pub fn gamma(a: i128) -> i128 {
    lower_gamma(a, ln(a), 24 * ONE)
}

/// The part of a standard normal distribution below z, for z from -6 to 6.
pub fn normal_below(z: i128) -> i128 {
    let within = lower_gamma(ONE / 2, LN_GAMMA_3_2, mul(z, z) / 2);
    if z < 0 {
        (ONE - within) / 2
    } else {
        (ONE + within) / 2
    }
}

/// Its density at z.
pub fn normal_density(z: i128) -> i128 {
    exp(-(mul(z, z) / 2) - LN_ROOT_2_PI)
}

/// Where a rising function reaches u, between two numbers: halved sixty times.
pub fn reaches(u: i128, mut low: i128, mut high: i128, f: impl Fn(i128) -> i128) -> i128 {
    for _ in 0..60 {
        let middle = (low + high).div_euclid(2);
        if f(middle) < u {
            low = middle;
        } else {
            high = middle;
        }
    }
    high
}
