/* Whether the arithmetic of the calling thread is as the proof assumes it. Results are compared by their bits. */
#include "noddyfir.h"
#include "known_case.h"
#include <string.h>
#include <xmmintrin.h>

/* The control word MXCSR: the six masks of traps, the two bits of rounding, and the two kinds of flush-to-zero. */
enum { MASKS = 0x1f80, ROUNDING = 0x6000, RESULTS_TO_ZERO = 0x8000, OPERANDS_TO_ZERO = 0x0040 };

static int mode_fault(void)
{
    unsigned word = _mm_getcsr();
    if ((word & MASKS) != MASKS)
        return NODDYFIR_FAULT_TRAPS;
    if (word & ROUNDING)
        return NODDYFIR_FAULT_ROUNDING;
    if (word & (RESULTS_TO_ZERO | OPERANDS_TO_ZERO))
        return NODDYFIR_FAULT_SUBNORMALS;
    return NODDYFIR_FIT;
}

static double double_of(uint64_t bits)
{
    double v;
    memcpy(&v, &bits, sizeof v);
    return v;
}

/* Whether the volatile `v` has these bits. */
static int has_bits(volatile double v, uint64_t bits)
{
    double kept = v;
    uint64_t found;
    memcpy(&found, &kept, sizeof found);
    return found == bits;
}

/* The operands are volatile, so that the processor adds and not the compiler. */
static int sum_is(uint64_t a, uint64_t b, uint64_t sum)
{
    volatile double x = double_of(a), y = double_of(b);
    volatile double z = x + y;
    return has_bits(z, sum);
}

static int product_is(uint64_t a, uint64_t b, uint64_t product)
{
    volatile double x = double_of(a), y = double_of(b);
    volatile double z = x * y;
    return has_bits(z, product);
}

#define ONE 0x3ff0000000000000u
#define MINUS_ONE 0xbff0000000000000u
#define HALF 0x3fe0000000000000u
#define LEAST_NORMAL 0x0010000000000000u

static int rounds_to_nearest(void)
{
    return sum_is(ONE, 0x3c90000000000000u, ONE)              /* 1 + 2^-54 is 1 */
           && sum_is(ONE, 0x3ca8000000000000u, ONE + 1)       /* 1 + 3 * 2^-54 is the next double */
           && sum_is(MINUS_ONE, 0xbc90000000000000u, MINUS_ONE)
           && sum_is(MINUS_ONE, 0xbca8000000000000u, MINUS_ONE + 1)
           && sum_is(ONE, 0x3ca0000000000000u, ONE)           /* halfway: to the even one, below */
           && sum_is(ONE + 1, 0x3ca0000000000000u, ONE + 2);  /* and above */
}

static int keeps_subnormals(void)
{
    return product_is(LEAST_NORMAL, HALF, LEAST_NORMAL / 2)       /* as a result */
           && product_is(1, 0x7fd0000000000000u, 0x3cb0000000000000u) /* as an operand: 2^-1074 * 2^1022 is 2^-52 */
           && sum_is(1, 2, 3);
}

/* 1 + (2^-53 + 2^-70): rounded once it is the next double; by way of more digits it would first be halfway, then 1. */
static int has_no_excess_precision(void)
{
    return sum_is(ONE, 0x3ca0000080000000u, ONE + 1);
}

static int known_case_holds(void)
{
    uint8_t record[KNOWN_SIZE];
    uint8_t energies[NODDYFIR_ENERGIES_SIZE], ends[NODDYFIR_ENDS_SIZE], slopes[NODDYFIR_SLOPES_SIZE];
    memcpy(record, KNOWN_RECORD, KNOWN_SIZE);
    for (uint8_t perturbation = 0; perturbation < 3; perturbation++) {
        record[3] = perturbation;
        noddyfir_energies(record, KNOWN_SIZE, energies, sizeof energies);
        noddyfir_ends(record, KNOWN_SIZE, ends, sizeof ends);
        noddyfir_slopes(record, KNOWN_SIZE, slopes, sizeof slopes);
        if (memcmp(energies, KNOWN_ENERGIES[perturbation], sizeof energies) != 0
            || memcmp(ends, KNOWN_ENDS[perturbation], sizeof ends) != 0
            || memcmp(slopes, KNOWN_SLOPES[perturbation], sizeof slopes) != 0)
            return 0;
    }
    return 1;
}

int noddyfir_self_check(void)
{
    int fault = mode_fault();
    if (fault != NODDYFIR_FIT)
        return fault;
    if (!rounds_to_nearest())
        return NODDYFIR_FAULT_ROUNDING;
    if (!keeps_subnormals())
        return NODDYFIR_FAULT_SUBNORMALS;
    if (!has_no_excess_precision())
        return NODDYFIR_FAULT_PRECISION;
    return known_case_holds() ? NODDYFIR_FIT : NODDYFIR_FAULT_KNOWN_CASE;
}
