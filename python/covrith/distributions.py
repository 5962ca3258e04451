"""Distributions by name, each turned into the curve of at most 24 points that the engine draws from.

    covrith.make_tape(3, [(covrith.exponential(20), 500), (covrith.lognormal(12, 6), 500)])

Whole numbers only, so that the curve is the same on every machine and the one that `covrith tape` takes for the same name
(`text/src/shape.rs`; docs/DISTRIBUTIONS.md has the algorithm). A parameter outside its rules is a ValueError.
"""

from __future__ import annotations

import functools
import math
import numbers
from decimal import Decimal
from fractions import Fraction
from typing import Callable, Iterable, List, Mapping, Optional, Sequence, Tuple, Union

from .models import Curve

Real = Union[int, float, Decimal, Fraction]

# ---------------------------------------------------------------------------------------------------------------------------
# Whole-number arithmetic: numbers are multiples of 2^-56, every operation rounds down

BITS = 56
ONE = 1 << BITS

# ln gamma(3/2) and ln sqrt(2 pi), rounded down
_LN_GAMMA_3_2 = -8_703_277_446_513_042
_LN_ROOT_2_PI = 66_216_499_771_471_269


def mul(a: int, b: int) -> int:
    return a * b >> BITS


def div(a: int, b: int) -> int:
    return (a << BITS) // b


def _atanh(t: int) -> int:
    square, total, power, n = mul(t, t), 0, t, 1
    while power > 0:
        total += power // n
        power = mul(power, square)
        n += 2
    return total


_LN_2 = 2 * _atanh(ONE // 3)


def ln(x: int) -> int:
    """x is 2^e times f from 1 to below 2, and ln f = 2 atanh((f - 1) / (f + 1))."""
    e = x.bit_length() - 1 - BITS
    f = x >> e if e >= 0 else x << -e
    return e * _LN_2 + 2 * _atanh(div(f - ONE, f + ONE))


def exp(x: int) -> int:
    """2^n (1 + r + r^2/2 + ..) with x = n ln 2 + r."""
    n, r = divmod(x, _LN_2)
    total, term, k = 0, ONE, 1
    while term > 0:
        total += term
        term = mul(term, r) // k
        k += 1
    return total << n if n >= 0 else total >> -n


def lower_gamma(a: int, c: int, x: int) -> int:
    """x^a e^-x e^-c (1 + x/(a+1) + x^2/((a+1)(a+2)) + ..): with c = ln gamma(a + 1) the part of gamma(a) below x."""
    if x <= 0:
        return 0
    term, total, following = exp(mul(a, ln(x)) - x - c), 0, a
    while term > 0:
        total += term
        following += ONE
        term = mul(term, div(x, following))
    return total


def gamma(a: int) -> int:
    """gamma(a) for a from 1 to 5: the part above 24 is left out."""
    return lower_gamma(a, ln(a), 24 * ONE)


def normal_below(z: int) -> int:
    """The part of a standard normal distribution below z, for z from -6 to 6."""
    within = lower_gamma(ONE // 2, _LN_GAMMA_3_2, mul(z, z) // 2)
    return (ONE - within) // 2 if z < 0 else (ONE + within) // 2


def normal_density(z: int) -> int:
    return exp(-(mul(z, z) // 2) - _LN_ROOT_2_PI)


def reaches(u: int, low: int, high: int, f: Callable[[int], int]) -> int:
    """Where a rising function reaches u, between two numbers: halved sixty times."""
    for _ in range(60):
        middle = (low + high) // 2
        if f(middle) < u:
            low = middle
        else:
            high = middle
    return high


# ---------------------------------------------------------------------------------------------------------------------------
# Curves: u counts in 65,536ths, a time in 64ths

U_PARTS = 65_536
TIME_PARTS = 64
LONGEST = 1_000_000
MOST_VALUES = 12
MOST_PHASES = 100

KNOTS = (
    0, 16, 128, 512, 1536, 3584, 6656, 10752, 15872, 21504, 27136, 32768, 38400, 43520, 48128, 52224, 56064, 59392, 61952, 63744, 64896, 65408,
    65524, 65536,
)  # fmt: skip

_PLACES = 32
_UNIT = 1 << _PLACES
_EIGHTEEN = 10**18

Points = List[Tuple[int, int]]


def fitted(
    quantiles: Sequence[int], sums: Sequence[int], least: int, most: int, knots: Sequence[int] = KNOTS, zeros: Optional[int] = None
) -> List[int]:
    """Times at the knots so that each segment has its mean over the u that are drawn.

    `quantiles` are those at the knots, `sums` 65,536 times the mean of all times below them. Where a line fits best to begin with,
    the quantile is taken; from there each segment gives the next time, to the right and to the left.
    """
    segments = len(knots) - 1
    width = [right - left for left, right in zip(knots, knots[1:])]
    area = [2 * (right - left) for left, right in zip(sums, sums[1:])]
    rising = [i for i in range(segments - 1) if quantiles[i + 1] > quantiles[i]]
    off = lambda i: abs(quantiles[i] + quantiles[i + 1] - area[i] // width[i])
    start = min(rising, key=off) if rising else segments // 2
    times = [0] * (segments + 1)
    times[start] = quantiles[start]
    left_over = 0
    for i in range(start, segments):
        wanted = area[i] + left_over - (width[i] + 1) * times[i]
        highest = quantiles[i + 2] if i + 2 < segments else most
        times[i + 1] = max(min(wanted // (width[i] - 1), highest), times[i])
        left_over = wanted - (width[i] - 1) * times[i + 1]
    left_over = 0
    for i in reversed(range(start)):
        wanted = area[i] + left_over - (width[i] - 1) * times[i + 1]
        lowest = quantiles[i - 1] if i > 0 else least
        times[i] = min(max(wanted // (width[i] + 1), lowest), times[i + 1])
        left_over = wanted - (width[i] + 1) * times[i]
    if zeros is not None:
        times[: zeros + 1] = [0] * (zeros + 1)
    return times


def _points(times: Sequence[int], unit: int, bits: int, knots: Sequence[int] = KNOTS) -> Points:
    """The curve in units of so many ticks, half a tick added."""
    half = (TIME_PARTS + 1 << bits) // 2
    return [(u, max(0, time * unit * TIME_PARTS + half >> bits)) for u, time in zip(knots, times)]


def _inner(first: int, of: Callable[[int], int], last: int, knots: Sequence[int] = KNOTS) -> List[int]:
    return [first, *(of(u * (ONE // U_PARTS)) for u in knots[1:-1]), last]


_NO_END = 1_000_000 * ONE


def _standard(quantiles: Sequence[int], below: Sequence[int], knots: Sequence[int] = KNOTS, zeros: Optional[int] = None) -> List[int]:
    return fitted(quantiles, [part * U_PARTS for part in below], -ONE, _NO_END, knots, zeros)


@functools.lru_cache(maxsize=64)
def _erlang(phases: int) -> List[int]:
    """Times of mean 1."""
    own = sum(ln(k * ONE) for k in range(1, phases + 1))
    more = own + ln((phases + 1) * ONE)
    end = phases * ONE + math.isqrt(36 * phases << 2 * BITS - 8) * 16 + 12 * ONE
    if phases == 1:
        x = _inner(0, lambda u: -ln(ONE - u), end)
    else:
        x = _inner(0, lambda u: reaches(u, 0, end, lambda x: lower_gamma(phases * ONE, own, x)), end)
    means = [lower_gamma((phases + 1) * ONE, more, one) for one in x[:-1]]
    return _standard([one // phases for one in x], [*means, ONE])


@functools.lru_cache(maxsize=64)
def _weibull(shape: int) -> List[int]:
    """Times of scale 1."""
    a = ONE + div(_UNIT, shape)
    y = _inner(0, lambda u: -ln(ONE - u), ONE)
    quantiles = [exp((ln(one) << _PLACES) // shape) if one else 0 for one in y]
    return _standard(quantiles, [*(lower_gamma(a, ln(a), one) for one in y[:-1]), gamma(a)])


@functools.lru_cache(maxsize=None)
def _normal_at(u: int) -> int:
    return reaches(u, -6 * ONE, 6 * ONE, normal_below)


@functools.lru_cache(maxsize=64)
def _lognormal(ratio: int) -> List[int]:
    """Times of mean 1."""
    variance = ln(ONE + mul(ratio, ratio))
    sigma = math.isqrt(variance << BITS)
    z = _inner(0, _normal_at, 0)
    quantiles = [0, *(exp(mul(sigma, one) - variance // 2) for one in z[1:])]
    return _standard(quantiles, [0, *(normal_below(one - sigma) for one in z[1:-1]), ONE])


def _normal(ratio: int) -> Tuple[List[int], List[int]]:
    """Knots, and times of mean 1 before those below 0 become 0; where many are, a knot stands at their end."""
    zero = max(-div(ONE, ratio), -6 * ONE)
    negative = normal_below(zero)
    edge = negative * U_PARTS + ONE // 2 >> BITS
    knots, zeros = list(KNOTS), None
    if edge >= 2:
        zeros = min(range(1, 11), key=lambda i: abs(knots[i] - edge))
        knots[zeros] = edge
    z = _inner(zero, _normal_at, 0, knots)
    least = normal_density(zero)
    means = [
        0 if one <= zero else u * (ONE // U_PARTS) - negative + mul(ratio, least - normal_density(one)) for one, u in zip(z[:-1], knots)
    ]
    quantiles = [max(0, ONE + mul(ratio, one)) for one in z]
    if zeros is not None:
        means[zeros] = quantiles[zeros] = 0
    return knots, _standard(quantiles, [*means, ONE - negative + mul(ratio, least)], knots, zeros)


def _steps(values: Iterable[Tuple[int, int]], everything: int) -> Points:
    """A curve that jumps: each time has the whole 65,536ths of its part of all, the sums rounded."""
    points: Points = []
    total = start = 0
    for time, part in values:
        total += part
        to = (2 * total * U_PARTS + everything) // (2 * everything)
        if to > start:
            points.append((start, time * TIME_PARTS))
            end = to if to == U_PARTS else to - 1
            if end > start:
                points.append((end, time * TIME_PARTS))
        start = to
    return points


# ---------------------------------------------------------------------------------------------------------------------------
# Parameters


def _decimal(name: str, given: Real) -> int:
    """A number of 0 or more as a multiple of 10^-18, as its decimal digits have it."""
    if isinstance(given, bool) or not isinstance(given, (numbers.Real, Decimal)):
        raise TypeError(f"{name}: expected a number, got {type(given).__name__}")
    try:
        exact = Fraction(str(given)) if isinstance(given, (float, Decimal)) else Fraction(given)
    except (ValueError, OverflowError):
        raise ValueError(f"{name}: {given!r} is no number") from None
    if not 0 <= exact <= 10**9:
        raise ValueError(f"{name}: expected a number from 0 to 1000000, got {given!r}")
    return exact.numerator * _EIGHTEEN // exact.denominator


def _number(name: str, given: Real) -> int:
    """A parameter as the nearest multiple of 2^-32, halves up."""
    return (2 * _decimal(name, given) * _UNIT + _EIGHTEEN) // (2 * _EIGHTEEN)


def _above_0(name: str, given: Real) -> int:
    number = _number(name, given)
    if not 0 < number <= LONGEST * _UNIT:
        raise ValueError(f"{name}: expected more than 0 and at most {LONGEST}, got {given!r}")
    return number


def _whole(name: str, given: int, low: int, high: int) -> int:
    if isinstance(given, bool) or not isinstance(given, numbers.Integral):
        raise TypeError(f"{name}: expected a whole number, got {type(given).__name__}")
    if not low <= given <= high:
        raise ValueError(f"{name}: expected {low}..{high}, got {given}")
    return int(given)


def _curve(points: Points) -> Curve:
    longest = points[-1][1]
    if longest > LONGEST * TIME_PARTS:
        raise ValueError(f"the longest time of the curve would be {-(-longest // TIME_PARTS)}, and a time is at most {LONGEST}: count in larger ticks")
    return Curve(tuple((u / U_PARTS, time / TIME_PARTS) for u, time in points))


# ---------------------------------------------------------------------------------------------------------------------------
# The names


def exponential(mean: Real) -> Curve:
    """Exponential times."""
    return _curve(_points(_erlang(1), _above_0("mean", mean), BITS + _PLACES))


def erlang(phases: int, mean: Real) -> Curve:
    """Erlang times of 1 to 100 phases, which together have this mean."""
    phases = _whole("phases", phases, 1, MOST_PHASES)
    return _curve(_points(_erlang(phases), _above_0("mean", mean), BITS + _PLACES))


def normal(mean: Real, sd: Real) -> Curve:
    """Normal times, those below 0 become 0; sd is at most half the mean."""
    unit, deviation = _above_0("mean", mean), _number("sd", sd)
    if deviation > unit // 2 + 2:  # both are rounded
        raise ValueError(f"sd: expected at most half the mean {mean!r}, got {sd!r}")
    knots, times = _normal(max(div(deviation, unit), 1))
    return _curve(_points(times, unit, BITS + _PLACES, knots))


def lognormal(mean: Real, sd: Real) -> Curve:
    """Lognormal times; sd is at most three times the mean."""
    unit, deviation = _above_0("mean", mean), _number("sd", sd)
    if deviation > 3 * unit + 2:
        raise ValueError(f"sd: expected at most three times the mean {mean!r}, got {sd!r}")
    return _curve(_points(_lognormal(div(deviation, unit)), unit, BITS + _PLACES))


def weibull(shape: Real, scale: Real) -> Curve:
    """Weibull times; shape is at least 0.5."""
    power = _number("shape", shape)
    if power < _UNIT // 2:
        raise ValueError(f"shape: expected at least 0.5, got {shape!r}")
    return _curve(_points(_weibull(power), _above_0("scale", scale), BITS + _PLACES))


def triangular(least: Real, frequent: Real, most: Real) -> Curve:
    """Triangular times between least and most."""
    a, c, b = _number("least", least), _number("frequent", frequent), _number("most", most)
    if not a <= c <= b <= LONGEST * _UNIT:
        raise ValueError(f"expected least, most frequent and most, rising to {LONGEST}, got {least!r}, {frequent!r}, {most!r}")
    low = lambda u: math.isqrt((b - a) * (c - a) // U_PARTS * u)
    high = lambda u: math.isqrt((b - a) * (b - c) // U_PARTS * (U_PARTS - u))
    rising = lambda u: u * (b - a) <= U_PARTS * (c - a)
    quantiles = [a + low(u) if rising(u) else b - high(u) for u in KNOTS]
    sums = [
        u * (3 * a + 2 * low(u)) // 3 if rising(u) else (U_PARTS * (a + b + c) - (U_PARTS - u) * (3 * b - 2 * high(u))) // 3 for u in KNOTS
    ]
    return _curve(_points(fitted(quantiles, sums, a, b), 1, _PLACES))


def uniform(first: int, last: int) -> Curve:
    """Whole ticks from the first to the last, each as often as the others."""
    first = _whole("first", first, 0, LONGEST - 1)
    last = _whole("last", last, first, LONGEST - 1)
    return _curve([(0, first * TIME_PARTS), (U_PARTS, (last + 1) * TIME_PARTS)])


def discrete(values: Union[Mapping[int, Real], Sequence[Tuple[int, Real]]]) -> Curve:
    """At most twelve whole times with their probabilities: `discrete({0: 0.7, 1: 0.3})`, times rising."""
    pairs = list(values.items()) if isinstance(values, Mapping) else list(values)
    if not 1 <= len(pairs) <= MOST_VALUES:
        raise ValueError(f"expected 1 to {MOST_VALUES} values, got {len(pairs)}")
    given = [(_whole("time", time, 0, LONGEST), _decimal("probability", part)) for time, part in pairs]
    if any(right[0] <= left[0] for left, right in zip(given, given[1:])):
        raise ValueError("times of a discrete distribution rise, each once")
    if any(part * U_PARTS < _EIGHTEEN for _, part in given):
        raise ValueError(f"a probability is at least 1/{U_PARTS}")
    if sum(part for _, part in given) != _EIGHTEEN:
        raise ValueError(f"the probabilities sum to 1, and here to {float(Fraction(sum(part for _, part in given), _EIGHTEEN))}")
    return _curve(_steps(given, _EIGHTEEN))


def empirical(times: Iterable[Real]) -> Curve:
    """As measured times have it: up to twelve different whole ticks as they are, more through a fitted curve."""
    rising = sorted(_number("time", time) for time in times)
    if not rising:
        raise ValueError("expected measured times, got none")
    if rising[-1] > LONGEST * _UNIT:
        raise ValueError(f"a time is at most {LONGEST}")
    counts: dict = {}
    for time in rising:
        ticks = time + _UNIT // 2 >> _PLACES
        counts[ticks] = counts.get(ticks, 0) + 1
    count = len(rising)
    if len(counts) <= MOST_VALUES:
        return _curve(_steps(counts.items(), count))
    before = [0]
    for time in rising:
        before.append(before[-1] + time)

    def below(u: int) -> int:
        k, rest = divmod(u * count, U_PARTS)
        return (U_PARTS * before[k] + (rest * rising[k] if rest else 0)) // count

    quantiles = [rising[min(u * count // U_PARTS, count - 1)] for u in KNOTS]
    return _curve(_points(fitted(quantiles, [below(u) for u in KNOTS], rising[0], rising[-1]), 1, _PLACES))
