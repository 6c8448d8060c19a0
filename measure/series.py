#!/usr/bin/env python3
"""How much of the proved 2^-50 the polynomials of exp and ln use, and how near their arguments come to the limits (docs/ACCURACY.md, part 6).

The proof is in crates/arithmetic (specs/Series.antt, specs/Reduction.antt); this measures. The arguments are the same in each run.
Python's floats are IEEE 754 doubles, so the recipes are worked here operation by operation; partial sums are exact fractions.
"""
import math
import random
from fractions import Fraction

E = 1.442695040888963407359924681001
H, G = 6.93147180369123816490e-01, 1.90821492927058770002e-10
FACTORIALS = [float(Fraction(1, math.factorial(j))) for j in range(14)]
ODDS = [float(Fraction(1, 2 * k + 1)) for k in range(13)]


def horner(z, coefficients):
    p = coefficients[-1]
    for c in reversed(coefficients[:-1]):
        p = p * z + c
    return p


def series(s):
    return (2.0 * s) * horner(s * s, ODDS)


def exp_sum(r, terms):
    return sum(Fraction(r) ** j / math.factorial(j) for j in range(terms))


def ln_sum(s, terms):
    return sum(2 * Fraction(s) ** (2 * k + 1) / (2 * k + 1) for k in range(terms))


def exp_argument(v):
    k = float(math.floor(v * E + 0.5))
    return (v - k * H) - k * G


def ln_argument(v):
    m, e = math.frexp(v)
    m = m if m >= 0.75 else 2.0 * m
    return (m - 1.0) / (m + 1.0)


def arguments(limit, count):
    yield from (limit, -limit, 0.0, 5e-324, -5e-324)
    for _ in range(count):
        yield random.uniform(-limit, limit)
        yield random.choice((-1, 1)) * limit * 2.0 ** -random.uniform(0, 60)


def largest_error(value, partial_sum, limit, terms):
    return max((abs(Fraction(value(x)) - partial_sum(x, n)), x) for x in arguments(limit, 4000) for n in (terms, terms + 1, terms + 8))


def near(x, count):
    """x and the doubles around it."""
    low = high = x
    for _ in range(count):
        yield low
        yield high
        low, high = math.nextafter(low, -math.inf), math.nextafter(high, math.inf)


def main():
    random.seed(112)
    for name, found in (
        ("exp, |r| up to 0.35, 14 terms and more", largest_error(lambda r: horner(r, FACTORIALS), exp_sum, 0.35, 14)),
        ("ln, |s| up to 0.2, 13 terms and more", largest_error(series, ln_sum, 0.2, 13)),
    ):
        print(f"{name}: {float(found[0] * 2**53):.2f} x 2^-53 at {found[1].hex()}, of 8 x 2^-53 allowed")
    steps = [v for k in range(-1011, 1011) for v in near((k + 0.5) / E, 20) if -700.0 <= v <= 700.0]
    print(f"r of exp: up to {max(abs(exp_argument(v)) for v in steps):.17g}")
    ends = [v for e in range(-1074, 1023) for m in (0.75, 1.5) for v in near(math.ldexp(m, e), 20) if 0.0 < v < math.inf]
    print(f"s of ln: up to {max(abs(ln_argument(v)) for v in ends):.17g}, below the double of 0.2 by {0.2 - max(abs(ln_argument(v)) for v in ends):.2g}")
    print(f"s of ln_1p: up to {max(abs(v / (2.0 + v)) for x in (-0.25, 0.25) for v in near(x, 20) if -0.25 <= v <= 0.25):.17g}")


main()
