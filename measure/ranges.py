#!/usr/bin/env python3
"""Compares every compiled operation of ranges, bit for bit, with document 01's rules in whole numbers (range_rules.py).

measure/ranges.py          345,160 operand pairs for each basic operation (2,278 more for powi), 50,760 for each elementary function (772 more for powf)
measure/ranges.py --quick  12,000 and 2,500
measure/ranges.py --slips  makes the slips of range_slips.txt in the rules, one at a time; the quick comparison must see each

The operands are the same in each run. Ends with a status other than 0 where anything differs.
Needs x86-64 Linux, rt and a C compiler (CC, or cc); writes below target/ only.
"""
import ctypes
import random
import struct
import sys
from itertools import combinations_with_replacement

sys.dont_write_bytecode = True
import comparison
import range_rules as rules
from comparison import build, run
from range_rules import INFINITY, LARGEST, NAN, ONE, SIGN, double_of, is_finite, nearest, next_down, next_up, units

OPERATIONS = comparison.OPERATIONS | {"if_above": lambda r, k, t, a, b: r.if_above(a, t, a, b)}
ELEMENTARY = {"ln", "ln_1p", "exp", "powf", "tanh"}
OF_TWO = {"add", "sub", "mul", "div", "powf"}
FAILED = (NAN, NAN)


# ---- the compiled operations


def compiled_operations(shared):
    library = ctypes.CDLL(str(shared))
    functions = (library.noddyfir_range_lower, library.noddyfir_range_upper)
    for f in functions:
        f.argtypes = [ctypes.c_uint64] * 2 + [ctypes.c_double] * 5
        f.restype = ctypes.c_double

    def call(op, k, t, a, b):
        numbers = struct.unpack("<5d", struct.pack("<5Q", t, *a, *b))
        return struct.unpack("<2Q", struct.pack("<2d", *[f(op, k, *numbers) for f in functions]))

    return call


# ---- operands


def limits():
    """The doubles at which a rule changes, and the least and largest doubles. Each stands for its negative too."""
    found = [0, 1, 1 << 52, LARGEST]
    found += [double_of(n * ONE // 4) for n in (1, 2, 3, 4, 6, 8, 80, 700, 2800)]
    for e in (-1073, -1023, -1022, -500, -30, -2, -1, 1, 2, 3, 30, 500, 1022, 1023):
        for m in (3 * ONE // 4, 3 * ONE // 2):  # another e of ln, and the same of ln_1p
            n = m << e if e >= 0 else m >> -e
            if n < rules.TOO_LARGE:
                found += [double_of(n), double_of(nearest(n - ONE))]
    log2_e = units(rules.E[0])
    for k in (-1010, -1009, -58, -57, -20, -2, -1, 0, 1, 2, 20, 57, 58, 1008, 1009):
        for half in (-1, 1):  # another k of exp, and the same of tanh
            n = (2 * k + half) * ONE * ONE
            found += [double_of(nearest(n, 2 * log2_e)), double_of(nearest(n, 4 * log2_e))]
    return sorted({double & (SIGN - 1) for double in found})


LIMITS = [sign | double for double in limits() for sign in (0, SIGN)]
# .. with one double to each side
EDGES = sorted({edge for x in LIMITS for edge in (next_down(x), x, next_up(x)) if is_finite(edge)})


def small_and_large_powers():
    """0, and the doubles at which a product of two to four of them comes to the least double, the least normal one or beyond the largest, in order."""
    found = {0}
    for e in (-538, -537, -511, -359, -358, -269, -268, -256, 256, 342, 512):
        x = double_of(ONE << e if e >= 0 else ONE >> -e)
        found |= {sign | near for near in (next_down(x), x, next_up(x)) for sign in (0, SIGN)}
    return sorted(found, key=units)


def moved(double, steps):
    """The double so many doubles above it, or below it where steps is negative; the largest is the last."""
    for _ in range(abs(steps)):
        beside = next_up(double) if steps > 0 else next_down(double)
        double = beside if is_finite(beside) else double
    return double


class Operands:
    def __init__(self, seed):
        self.random = random.Random(seed)

    def end(self):
        """An edge, any double, or a double of common size."""
        r = self.random
        which = r.randrange(4)
        if which == 0:
            return r.choice(EDGES)
        exponent = r.randrange(0x7FF) if which == 1 else r.randrange(1013, 1033)
        return r.getrandbits(1) << 63 | exponent << 52 | r.getrandbits(52)

    def range(self):
        """A point, a narrow range, one at or across a limit, one of any ends in either order, [0,0], or a failed one."""
        r = self.random
        which = r.randrange(20)
        if which < 6:
            return (self.end(),) * 2
        if which < 11:
            lower = self.end()
            return (lower, moved(lower, r.randrange(1, 5)))
        if which < 14:
            limit = r.choice(LIMITS)
            return (moved(limit, -r.randrange(4)), moved(limit, r.randrange(4)))
        if which < 18:
            pair = sorted((self.end(), self.end()), key=units)
            return tuple(pair if which < 17 else reversed(pair))
        if which == 18:
            return (r.choice((0, SIGN)), r.choice((0, SIGN)))
        x = self.end()
        return r.choice((FAILED, (NAN, x), (x, NAN), (INFINITY | SIGN, x), (x, INFINITY)))

    def limit(self, a):
        """The limit t of a case: an end of the range, a double beside one, or any; at times one that is not finite."""
        r = self.random
        which = r.randrange(8)
        if which < 4 and is_finite(a[which % 2]):
            return moved(a[which % 2], r.randrange(-1, 2))
        return r.choice((NAN, INFINITY, INFINITY | SIGN)) if which == 7 else self.end()

    def exponent(self, name):
        """Of powi half are 2 and 4, which have a rule of their own."""
        r = self.random
        return r.choice((2, 4)) if name == "powi" and r.getrandbits(1) else r.randrange(13)

    def of(self, name, crossed, count):
        """Each edge as a point, and with the double above it; edges with edges, as two points or as the two ends of a range; powers of small and large ranges
        and of [1,1]; then by chance."""
        pairs = [(x, y) for x in EDGES for y in EDGES]
        if crossed < len(pairs):
            pairs = self.random.sample(pairs, crossed)
        first = [((x, moved(x, step)), self.range()) for x in EDGES for step in (0, 1)]
        first += [((x, x), (y, y)) if name in OF_TWO else ((x, y), self.range()) for x, y in pairs]
        if name == "powi":
            first += [(pair, self.range()) for pair in combinations_with_replacement(small_and_large_powers(), 2)]
        if name == "powf":  # powers of [1,1] have a shorter way, for exponents up to 1000
            one, thousand = double_of(ONE), double_of(1000 * ONE)
            ends = EDGES + [sign | moved(thousand, step) for sign in (0, SIGN) for step in (-1, 0, 1)]
            first += [((one, one), (x, moved(x, step))) for x in ends for step in (0, 1)]
        for a, b in first + [(self.range(), self.range()) for _ in range(count)]:
            yield self.exponent(name), self.limit(a), a, b


# ---- the comparison


def shown(r):
    return "[%s]" % ", ".join(struct.unpack("<d", struct.pack("<Q", end))[0].hex() for end in r)


def is_nan(double):
    return double & (SIGN - 1) > INFINITY


def same(one, other):
    """By bits. There is one NaN: no contract tells two apart."""
    return all(x == y or is_nan(x) and is_nan(y) for x, y in zip(one, other))


def compare(call, rules, op, name, crossed, count):
    total = with_ends = differ = 0
    results = set()
    for k, t, a, b in Operands(op).of(name, crossed, count):
        try:
            expected = OPERATIONS[name](rules, k, t, a, b)
        except rules.Fails:
            expected = FAILED
        total += 1
        if all(map(is_finite, expected)):
            with_ends += 1
            results.add(expected)
        found = call(op, k, t, a, b)
        if not same(found, expected):
            differ += 1
            if differ <= 3:
                print(f"{name}(k {k}, t {shown((t,))}, {shown(a)}, {shown(b)}): compiled {shown(found)}, by the rules {shown(expected)}")
    print(f"{name:9} {total} operand pairs: {with_ends} have ends ({len(results)} different), {total - with_ends} fail; {differ} differ", flush=True)
    return differ


def differences(call, rules, quick):
    """Of each operation in turn."""
    for op, name in enumerate(OPERATIONS):
        if name in ELEMENTARY:
            yield compare(call, rules, op, name, *((240, 1500) if quick else (10000, 40000)))
        else:
            yield compare(call, rules, op, name, *((3240, 8000) if quick else (len(EDGES) ** 2, 200000)))


if __name__ == "__main__":
    call = compiled_operations(build())
    run("range", rules, lambda given, quick: differences(call, given, quick))
