// Random doubles by xorshift, and the limits of document 01's recipes.
#include "arguments.h"
#include <math.h>
#include <string.h>

static double from_bits(uint64_t b)
{
    double v;
    memcpy(&v, &b, 8);
    return v;
}

uint64_t to_bits(double v)
{
    uint64_t b;
    memcpy(&b, &v, 8);
    return b;
}

uint64_t random_bits(void)
{
    static uint64_t s = 0x9e3779b97f4a7c15;
    s ^= s << 13;
    s ^= s >> 7;
    s ^= s << 17;
    return s;
}

double uniform(double low, double high) { return low + (high - low) * (random_bits() >> 11) * 0x1p-53; }

double any_double(void)
{
    const uint64_t infinity = 0x7ff0000000000000, sign = 0x8000000000000000;
    uint64_t b = random_bits();
    switch (random_bits() % 16) {
    case 0: return from_bits(b & sign);
    case 1: return from_bits((b & sign) | infinity);
    case 2: return from_bits(b | infinity); // NaN, almost always
    case 3: return from_bits((b & sign) | (b >> (12 + random_bits() % 52))); // subnormal
    default: return from_bits(b);
    }
}

double close_to(double v)
{
    uint64_t steps = random_bits() >> (24 + random_bits() % 40);
    uint64_t b = to_bits(v);
    return from_bits(random_bits() % 2 ? b + steps : b - steps);
}

double near_limit(void)
{
    static const double limits[] = {0.0, -0.25, 0.25, -1, 1, -20, 20, -700, 700, 0x1p-1022, 0x1.fffffffffffffp1023};
    const double log2_e = 1.4426950408889634;
    double mantissa = random_bits() % 2 ? 0.75 : 1.5;
    double k = (double)(random_bits() % 2023) - 1011;
    switch (random_bits() % 5) {
    case 0: return close_to(ldexp(mantissa, (int)(random_bits() % 2100) - 1075)); // another e of ln
    case 1: return close_to(ldexp(mantissa, (int)(random_bits() % 100) - 50) - 1); // the same of ln_1p
    case 2: return close_to((k - 0.5) / log2_e); // another k of exp
    case 3: return close_to((k - 0.5) / log2_e / 2); // the same of tanh
    default: return close_to(limits[random_bits() % (sizeof limits / sizeof *limits)]);
    }
}
