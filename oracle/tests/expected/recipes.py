#!/usr/bin/env python3
"""Document 01's recipes in Python's fractions, written from its text: the table EXPECTED of tests/readings.rs."""
import math
from fractions import Fraction

L, E = Fraction(math.log(2)), Fraction(math.log2(math.e))
H, G = Fraction(6.93147180369123816490e-01), Fraction(1.90821492927058770002e-10)
ODD = [Fraction(1.0 / (2 * k + 1)) for k in range(13)]
FACTORIAL = [Fraction(1.0 / math.factorial(j)) for j in range(14)]
assert float(L).hex() == "0x1.62e42fefa39efp-1" and float(E).hex() == "0x1.71547652b82fep+0"


def horner(x, coefficients):
    p = coefficients[-1]
    for c in reversed(coefficients[:-1]):
        p = p * x + c
    return p


def series(s):
    return 2 * s * horner(s * s, ODD)


def ln(v):
    m, e = v, 0
    while m >= Fraction(3, 2):
        m, e = m / 2, e + 1
    while m < Fraction(3, 4):
        m, e = m * 2, e - 1
    return series((m - 1) / (m + 1)) + e * L


def ln_1p(v):
    return series(v / (2 + v)) if abs(v) <= Fraction(1, 4) else ln(1 + v)


def exp(v):
    k = math.floor(v * E + Fraction(1, 2))
    return horner((v - k * H) - k * G, FACTORIAL) * Fraction(2) ** k


def power(v):
    return exp(Fraction(-2.5) * ln(v))


def tanh(v):
    return 1 - 2 / (exp(2 * v) + 1)


def row(name, f, v):
    """The sign, the 256 highest bits and their exponent."""
    x = f(Fraction(v))
    e = abs(x.numerator).bit_length() - x.denominator.bit_length() - 257
    bits = math.floor(abs(x) / Fraction(2) ** e)
    while bits.bit_length() > 256:
        bits, e = bits // 2, e + 1
    print(f'    ({name}, {v}, {math.copysign(1, x)}, "{bits:064x}", {e}),')


for name, f, arguments in (
    ("Reading::ln", ln, (3.0, 0.7)),
    ("Reading::ln_1p", ln_1p, (0.2, 3.0)),
    ("Reading::exp", exp, (0.3, -12.5)),
    ("Reading::tanh", tanh, (0.7,)),
    ("|v| v.powf(point(-2.5))", power, (1.7, 0.01)),
):
    for v in arguments:
        row(name, f, v)
