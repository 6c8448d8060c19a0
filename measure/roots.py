#!/usr/bin/env python3
"""Compares the compiled root and its rounds (M-102) with a text in whole numbers.

measure/roots.py          1,000,000 arguments
measure/roots.py --quick  20,000

The arguments are the same in each run. Ends with a status other than 0 where anything differs.
Needs x86-64 Linux, rt and a C compiler (CC, or cc); writes below target/ only.
"""
import ctypes
import random
import struct
import sys
from math import isqrt

sys.dont_write_bytecode = True
from range_rules import INFINITY, NAN, SIGN, double_of, is_finite, root, units
from comparison import build
from ranges import is_nan

FULL = 54


def worked(double):
    """The root, and the rounds that find its binary digits from the leading 1 up to the last that is not 0; all 54 where none is the last."""
    if not is_finite(double) or double > SIGN:
        return NAN, 0
    n = units(double)
    if n == 0:
        return double, 0
    odd = n // (n & -n)
    digits = isqrt(odd)
    # A unit is 2^-1074, a square. So n is one where an even number of twos is divided out and an odd square is left, whose root is odd.
    exact = (n & -n).bit_length() % 2 == 1 and digits * digits == odd
    return double_of(root(n)), digits.bit_length() if exact else FULL


def compiled(shared):
    library = ctypes.CDLL(str(shared))
    library.noddyfir_sqrt.argtypes = library.noddyfir_sqrt_rounds.argtypes = [ctypes.c_double]
    library.noddyfir_sqrt.restype, library.noddyfir_sqrt_rounds.restype = ctypes.c_double, ctypes.c_uint64

    def call(double):
        v = struct.unpack("<d", struct.pack("<Q", double))[0]
        return struct.unpack("<Q", struct.pack("<d", library.noddyfir_sqrt(v)))[0], library.noddyfir_sqrt_rounds(v)

    return call


def square(r):
    """The square of an odd number of 1 to 27 digits, more than which no double's exact root has, times any power of 2, an odd one too: down to the smallest double."""
    n = (r.randrange(isqrt(1 << 53)) >> r.randrange(27) | 1) ** 2
    return double_of(n << r.randrange(2099 - n.bit_length()))


def argument(r):
    """A square, a double beside one, a subnormal, a product of two numbers of common size, or any pattern: below zero, infinite and NaN too."""
    which = r.randrange(8)
    if which < 3:
        return square(r)
    if which < 5:
        return square(r) + r.choice((-1, 1))
    if which == 5:
        return r.getrandbits(r.randrange(1, 53))
    if which == 6:
        return struct.unpack("<Q", struct.pack("<d", r.randrange(1, 1000) * 0.25 * r.uniform(1, 500)))[0]
    return r.choice((r.getrandbits(64), r.getrandbits(63), INFINITY, INFINITY | SIGN, NAN, SIGN, 0))


def main():
    count = 20000 if sys.argv[1:] == ["--quick"] else 1000000
    call, r = compiled(build()), random.Random(102)
    early = full = differ = 0
    for _ in range(count):
        double = argument(r)
        expected, found = worked(double), call(double)
        early += 0 < expected[1] < FULL
        full += expected[1] == FULL
        if found[1] != expected[1] or found[0] != expected[0] and not (is_nan(found[0]) and is_nan(expected[0])):
            differ += 1
            if differ <= 3:
                print("root of %#x: compiled %#x in %d, in whole numbers %#x in %d" % (double, *found, *expected))
    print(f"roots: {count} arguments, {early} leave early, {full} take all rounds, {differ} differ")
    sys.exit(differ > 0)


if __name__ == "__main__":
    main()
