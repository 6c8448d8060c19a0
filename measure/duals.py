#!/usr/bin/env python3
"""Compares every compiled operation of values with slopes, bit for bit, with document 02's rules (dual_rules.py), and its value half with the functions on doubles.

measure/duals.py          200,000 operand pairs for each operation
measure/duals.py --quick  9,000
measure/duals.py --slips  makes the slips of dual_slips.txt in the rules, one at a time; the quick comparison must see each

The code does not test what every rule keeps, so a compiled result is tested here: what is not finite is NaN, and a slope with its value.
The operands are the same in each run. Ends with a status other than 0 where anything differs.
Needs x86-64 Linux, rt and a C compiler (CC, or cc); writes below target/ only.
"""
import ctypes
import random
import struct
import sys
from math import inf, isfinite, nan, nextafter

sys.dont_write_bytecode = True
import dual_rules as rules
from comparison import OPERATIONS, build, run
from dual_rules import made
from ranges import EDGES

# The functions on doubles, of the values.
DOUBLES = {
    "div": lambda f, k, a, b: f(a, b),
    "powi": lambda f, k, a, b: f(a, k),
    "sqrt": lambda f, k, a, b: f(a),
    "ln": lambda f, k, a, b: f(a),
    "ln_1p": lambda f, k, a, b: f(a),
    "exp": lambda f, k, a, b: f(a),
    "powf": lambda f, k, a, b: f(a, b),
    "tanh": lambda f, k, a, b: f(a),
}


# ---- the compiled operations


class Compiled:
    def __init__(self, shared):
        library = ctypes.CDLL(str(shared))
        double, whole = ctypes.c_double, ctypes.c_uint64

        def function(name, *arguments):
            f = library["noddyfir_" + name]
            f.argtypes, f.restype = arguments, double
            return f

        self.value = function("dual_value", whole, whole, *[double] * 5)
        self.slope = function("dual_slope", whole, whole, *[double] * 5)
        self.doubles = {name: function(name, double) for name in ("sqrt", "ln", "ln_1p", "exp", "tanh")}
        self.doubles.update({name: function(name, double, double) for name in ("div", "powf")}, powi=function("powi", double, whole))

    def call(self, op, k, t, a, b):
        return made(self.value(op, k, t, *a, *b), self.slope(op, k, t, *a, *b))

    def give(self, module):
        """The functions that the rules take as they are."""
        module.ln_of, module.ln_1p_of, module.exp_of = (self.doubles[name] for name in ("ln", "ln_1p", "exp"))


# ---- operands


def double_of(bits):
    return struct.unpack("<d", struct.pack("<Q", bits))[0]


# zeros, limits, and what is not finite
FEW = [0.0, -0.0, 0.25, -0.25, 1.0, -1.0, 20.0, -20.0, 700.0, -700.0, -701.0, inf, -inf, nan]
# the doubles at which a rule changes, with their neighbours: the ends of the subnormals and of all doubles too
SPECIAL = [double_of(edge) for edge in EDGES]


class Operands:
    def __init__(self, seed):
        self.random = random.Random(seed)

    def double(self):
        """A special one, one of any size, a subnormal, or one of common size."""
        r = self.random
        which = r.randrange(16)
        if which < 2:
            return r.choice(FEW)
        if which < 5:
            return r.choice(SPECIAL)
        if which < 7:
            return double_of(r.getrandbits(64))
        if which == 7:
            return double_of(r.getrandbits(1) << 63 | r.getrandbits(52))
        return r.uniform(-1.0, 1.0) * 2.0 ** r.randrange(-10, 11)

    def slope(self):
        """Half of them of common size, so that values of all sizes have finite slopes."""
        return self.double() if self.random.getrandbits(1) else self.random.uniform(-4.0, 4.0)

    def limit(self, v):
        """The limit t of a case: the value, a double beside it, or any."""
        which = self.random.randrange(4)
        return self.double() if which == 3 else (v, nextafter(v, inf), nextafter(v, -inf))[which]

    def of(self, count):
        """Each special value, and each of the few with each, with any slopes; then by chance."""
        values = [(x, self.double()) for x in SPECIAL] + [(x, y) for x in FEW for y in FEW]
        for i in range(count):
            x, y = values[i] if i < len(values) else (self.double(), self.double())
            yield self.random.randrange(13), self.limit(x), (x, self.slope()), (y, self.slope())


# ---- the comparison


def bits(double):
    return struct.pack("<d", double)


def same(x, y):
    """By bits. There is one NaN: no contract tells two apart."""
    return x == y != 0.0 or bits(x) == bits(y) or x != x and y != y


def shown(*doubles):
    return ", ".join(double.hex() for double in doubles)


def compare(compiled, rules, op, name, count):
    total = sloped = valued = differ = 0
    for k, t, a, b in Operands(op).of(count):
        expected = OPERATIONS[name](rules, k, t, made(*a), made(*b))
        found = compiled.call(op, k, t, a, b)
        value = expected[0]
        if name in DOUBLES:
            value = made(DOUBLES[name](compiled.doubles[name], k, a[0], b[0]), 0.0)[0]
        total += 1
        valued += isfinite(expected[0])
        sloped += isfinite(expected[1])
        if not (same(found[0], expected[0]) and same(found[1], expected[1]) and same(found[0], value)):
            differ += 1
            if differ <= 3:
                print(f"{name}(k {k}, t {shown(t)}, {shown(*a)}; {shown(*b)}): compiled {shown(*found)}, by the rules {shown(*expected)}, value in doubles {shown(value)}")
    print(f"{name:9} {total} operand pairs: {sloped} have a slope, {valued - sloped} a value alone, {total - valued} fail; {differ} differ", flush=True)
    return differ


def differences(compiled, rules, quick):
    """Of each operation in turn."""
    compiled.give(rules)
    for op, name in enumerate(OPERATIONS):
        yield compare(compiled, rules, op, name, 9000 if quick else 200000)


if __name__ == "__main__":
    compiled = Compiled(build())
    run("dual", rules, lambda given, quick: differences(compiled, given, quick))
