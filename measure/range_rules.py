# Document 01's "Rules for ranges", with M-103's rule for powi of 2 and 4, in whole numbers: written from the text, with no float and nothing of the crates.
# measure/ranges.py compares.
#
# A double is its bit pattern. A finite double is a whole number of units of 2^-1074, so sums, products, quotients and roots
# are worked exactly and rounded once, by `nearest` and `root`. A range is a pair of doubles, (lower, upper).
# A rule that fails raises Fails. Where document 01 leaves something open, docs/DECISIONS.md says what is followed here.
from math import factorial, isqrt

SIGN = 1 << 63
INFINITY = 0x7FF << 52
NAN = 0xFFF << 51
LARGEST = INFINITY - 1
ONE = 1 << 1074  # the units of 1
TOO_LARGE = ONE << 1024


class Fails(Exception):
    pass


# ---- doubles


def is_finite(double):
    return double & (SIGN - 1) < INFINITY


def units(double):
    magnitude = double & (SIGN - 1)
    exponent = magnitude >> 52
    if exponent > 0:
        magnitude = (magnitude & ((1 << 52) - 1) | 1 << 52) << (exponent - 1)
    return -magnitude if double & SIGN else magnitude


def double_of(n):
    """The double of n units, where there is one."""
    shift = max(0, abs(n).bit_length() - 53)
    return (shift << 52) + (abs(n) >> shift) | (SIGN if n < 0 else 0)


def to_finite(n):
    if abs(n) >= TOO_LARGE:
        raise Fails
    return n


def nearest(n, d=1):
    """The units of the double nearest to n / d units, ties to even."""
    if d < 0:
        n, d = -n, -d
    shift = max(0, (abs(n) // d).bit_length() - 53)
    unit = d << shift
    q, rest = divmod(abs(n), unit)
    if 2 * rest > unit or 2 * rest == unit and q % 2 == 1:
        q += 1
    return to_finite((-q if n < 0 else q) << shift)


def root(n):
    """The units of the double nearest to the root of n units."""
    if n <= 0:
        if n < 0:
            raise Fails
        return 0
    square = n * ONE  # of the root's units
    exact = isqrt(square)
    shift = exact.bit_length() - 53
    q = exact >> shift
    half_way = (2 * q + 1) << (shift - 1)
    if square > half_way**2 or square == half_way**2 and q % 2 == 1:
        q += 1
    return q << shift


def next_up(double):
    if double in (0, SIGN):
        return 1
    return double - 1 if double & SIGN else double + 1


def next_down(double):
    return next_up(double ^ SIGN) ^ SIGN


# ---- ends


def ends(lower, upper):
    """An end that is zero is +0; an end that is not finite fails."""
    if not (is_finite(lower) and is_finite(upper)):
        raise Fails
    return (0 if lower == SIGN else lower, 0 if upper == SIGN else upper)


def outwards(lower, upper):
    """Each end, given in units, moves to the next double outwards."""
    return ends(next_down(double_of(lower)), next_up(double_of(upper)))


def given(r):
    """Both ends in units. A rule of a failed range fails."""
    if not (is_finite(r[0]) and is_finite(r[1])):
        raise Fails
    return units(r[0]), units(r[1])


def point(n):
    """The point of a double of n units."""
    return (double_of(n), double_of(n))


def one(case, r):
    """One case for the whole range: the same at both ends."""
    lower, upper = given(r)
    found = case(lower)
    if case(upper) != found:
        raise Fails
    return found


# ---- the rules


ZERO = point(0)


def neg(r):
    given(r)
    return ends(r[1] ^ SIGN, r[0] ^ SIGN)


def add(r, s):
    (a, b), (c, d) = given(r), given(s)
    if a == b == 0:
        return s
    if c == d == 0:
        return r
    return outwards(nearest(a + c), nearest(b + d))


def sub(r, s):
    return add(r, neg(s))


def mul(r, s):
    first, second = given(r), given(s)
    if first == (0, 0) or second == (0, 0):
        return ZERO
    products = [nearest(x * y, ONE) for x in first for y in second]
    return outwards(min(products), max(products))


def div(r, s):
    first, second = given(r), given(s)
    if second[0] <= 0 <= second[1]:
        raise Fails
    if first == (0, 0):
        return ZERO
    if 0 in second:  # ends reversed, one of them 0
        raise Fails
    quotients = [nearest(x * ONE, y) for x in first for y in second]
    return outwards(min(quotients), max(quotients))


def even_power(r, k):
    """M-103's rule for powi of 2 and 4: from the ends with signs dropped, by products that move outwards, but not below 0."""
    lower, upper = given(r)
    if (lower, upper) == (0, 0):
        return ZERO
    lesser, greater = sorted((abs(lower), abs(upper)))
    low, high = lesser, greater
    for _ in range(1, k):
        low = max(0, units(next_down(double_of(nearest(low * lesser, ONE)))))
        high = to_finite(units(next_up(double_of(nearest(high * greater, ONE)))))
    return ends(0 if lower <= 0 <= upper else double_of(low), double_of(high))


def powi(r, k):
    if k in (2, 4):
        return even_power(r, k)
    if k == 0:
        return point(ONE)
    power = r
    for _ in range(k - 1):
        power = mul(power, r)
    return power


def sqrt(r):
    lower, upper = given(r)
    if lower == upper == 0:
        return ZERO
    return outwards(root(lower), root(upper))


def scaled(r, k):
    """Times 2^k, which is exact: no end loses a bit."""
    shifted = []
    for n in given(r):
        q, rest = (n << k, 0) if k >= 0 else divmod(n, 1 << -k)
        assert rest == 0, "an end lost bits"
        shifted.append(double_of(to_finite(q)))
    return tuple(shifted)


# ---- the recipes, in ranges


def decimal(digits):
    """The units of the double of a number written 0.123."""
    whole, places = digits.split(".")
    return nearest(int(whole + places) * ONE, 10 ** len(places))


L = point(decimal("0.693147180559945309417232121458176568"))
E = point(decimal("1.442695040888963407359924681001892137"))
H = point(decimal("0.693147180369123816490"))
G = point(decimal("0.000000000190821492927058770002"))
HALF = point(ONE // 2)
UNIT = point(ONE)
TWO = point(2 * ONE)
ODDS = [point(nearest(ONE, 2 * k + 1)) for k in range(13)]
FACTORIALS = [point(nearest(ONE, factorial(j))) for j in range(14)]
QUARTER = ONE // 4


def horner(x, coefficients):
    p = coefficients[-1]
    for c in reversed(coefficients[:-1]):
        p = add(mul(p, x), c)
    return p


def series(s):
    return mul(mul(TWO, s), horner(mul(s, s), ODDS))


def exponent(n):
    """e of n units, m * 2^e with 0.75 <= m < 1.5."""
    if n <= 0:
        raise Fails
    top = n.bit_length() - 1
    return top - 1074 if 2 * n < 3 << top else top - 1073


def ln(v):
    e = one(exponent, v)
    m = scaled(v, -e)
    s = div(sub(m, UNIT), add(m, UNIT))
    return add(series(s), mul(point(e * ONE), L))


def ln_1p(v):
    if one(lambda n: n < -QUARTER, v):
        if not one(lambda n: n > -ONE, v):
            raise Fails
        return ln(add(UNIT, v))
    if one(lambda n: n > QUARTER, v):
        return ln(add(UNIT, v))
    return series(div(v, add(TWO, v)))


def exp(v):
    if one(lambda n: n < -700 * ONE, v):
        return ZERO
    if one(lambda n: n > 700 * ONE, v):
        raise Fails
    k = one(lambda n: n // ONE, add(mul(v, E), HALF))
    w = point(k * ONE)
    return scaled(horner(sub(sub(v, mul(w, H)), mul(w, G)), FACTORIALS), k)


def powf(v, b):
    if one(lambda n: n > 0, v):
        return exp(mul(b, ln(v)))
    if one(lambda n: n < 0, v):
        raise Fails
    if not one(lambda n: n > 0, b):
        raise Fails
    return ZERO


def tanh(v):
    if one(lambda n: n > 20 * ONE, v):
        return UNIT
    if one(lambda n: n < -20 * ONE, v):
        return point(-ONE)
    return sub(UNIT, div(TWO, add(exp(mul(TWO, v)), UNIT)))


# ---- the cases by a limit t: the first range where r is wholly below or above it, the second where none of r is


def if_below(r, t, first, second):
    limit, _ = given((t, t))
    return first if one(lambda n: n < limit, r) else second


def if_above(r, t, first, second):
    limit, _ = given((t, t))
    return first if one(lambda n: n > limit, r) else second
