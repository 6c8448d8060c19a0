# M-100's rules for values with slopes, written from document 02, with nothing of the crates. measure/duals.py compares.
#
# A value with a slope is a pair of floats, which are doubles; each operation on them rounds once. What is not finite has failed, a slope alone (11)
# or a value with its slope (9), and is NaN from there on. Where document 02 leaves something open, docs/DECISIONS.md says what is followed here.
from math import isfinite, nan, sqrt as root

FAILED = (nan, nan)
ln_of = ln_1p_of = exp_of = None  # the functions on doubles, NaN where there is no rule: duals.py gives them


def made(value, slope):
    if not isfinite(value):
        return FAILED
    return value, slope if isfinite(slope) else nan


def constant(k):
    return made(k, 0.0)


def over(x, y):
    """A quotient of doubles; by 0 it is not finite."""
    return x / y if y != 0.0 else nan


def case(v, x):
    """x in a case of v: the case leaves no failure of v behind."""
    return x if isfinite(v[1]) else (x[0], nan)


# ---- the rules


def neg(a):
    return made(-a[0], -a[1])


def add(a, b):
    return made(a[0] + b[0], a[1] + b[1])


def sub(a, b):
    return made(a[0] - b[0], a[1] - b[1])


def mul(a, b):
    return made(a[0] * b[0], a[1] * b[0] + a[0] * b[1])


def div(a, b):
    return made(over(a[0], b[0]), over(a[1] * b[0] - a[0] * b[1], b[0] * b[0]))


def powi(v, k):
    if k == 0:
        return constant(1.0)
    r = v
    for _ in range(k - 1):
        r = mul(r, v)
    return r


def sqrt(v):
    if not v[0] >= 0.0:
        return FAILED
    return made(root(v[0]), over(v[1], 2.0 * root(v[0])))


def ln(v):
    return made(ln_of(v[0]), over(v[1], v[0]))


def ln_1p(v):
    return made(ln_1p_of(v[0]), over(v[1], 1.0 + v[0]))


def exp(v):
    if v[0] < -700.0:
        return case(v, constant(0.0))
    return made(exp_of(v[0]), v[1] * exp_of(v[0]))


# ---- by their recipes


def powf(v, b):
    if v[0] > 0.0:
        return exp(mul(b, ln(v)))
    if v[0] == 0.0 and b[0] > 0.0:
        return case(v, case(b, constant(0.0)))
    return FAILED


def tanh(v):
    if v[0] > 20.0:
        return case(v, constant(1.0))
    if v[0] < -20.0:
        return case(v, constant(-1.0))
    return sub(constant(1.0), div(constant(2.0), add(exp(mul(constant(2.0), v)), constant(1.0))))


def if_below(v, limit, a, b):
    if not isfinite(v[0]) or not isfinite(limit):
        return FAILED
    return case(v, a if v[0] < limit else b)
