/*
 * Noddyfir: residual Helmholtz energies of Mie mixtures by uv-theory, ends that enclose them, and their slopes.
 *
 * For x86-64 with the System V calling convention (Linux). `./library` writes target/lib/libnoddyfir.a; link with
 *
 *     cc -Iinclude program.c target/lib/libnoddyfir.a
 *
 * The calls above the line "not proved" are proved; docs/TRUST.md says on what the proof rests. They keep no state,
 * allocate nothing and may be called from any thread. They read the record bytes, write at most the answer bytes or the
 * moved record, and touch nothing else. No pointer may be NULL, even where its length is 0, and the two regions of a call
 * must not overlap.
 *
 * A case record, all numbers with the most significant byte first, doubles as IEEE 754 binary64:
 *
 *     2 bytes   length of what follows: 59 for n = 1; for n = 2 115 in version 1, 123 in version 2
 *     1 byte    version, 1 or 2
 *     1 byte    perturbation: 0 Barker-Henderson (BH), 1 Weeks-Chandler-Andersen (WCA), 2 WCA-B3
 *     1 byte    n, the number of substances, 1 to 8
 *     4n        doubles: for each substance rep, att, sigma (angstrom), epsilon_k (kelvin)
 *     n(n-1)/2  doubles: k_ij for i below j, row by row
 *     n(n-1)/2  doubles: l_ij likewise, in version 2 only
 *     1         double: temperature (kelvin)
 *     n         doubles: partial densities (molecules per cubic angstrom)
 *     n         doubles: mole fractions
 *
 * The length is 3 + 8 * (4n + n(n-1)/2 + 1 + 2n) in version 1, and 8 more for each pair in version 2. The sigma of a pair
 * is the mean of the two sigmas; with an l_ij other than 0, (1 - l_ij) times that.
 *
 * An answer, to records of both versions: 2 bytes of length, 1 byte of version (1), 1 byte of code. Code 0 is followed by
 * three doubles (energies), three pairs lower, upper (ends) or three pairs value, slope (slopes): hard sphere, reference,
 * attractive, each divided by kT, per cubic angstrom. A slope is an energy's change for that of the total density: divided
 * by kT, per molecule. Any other code is a refusal of four bytes, also one that is not listed below: a later library may
 * have more of them.
 */
#ifndef NODDYFIR_H
#define NODDYFIR_H

#include <stddef.h>
#include <stdint.h>

#ifdef __cplusplus
extern "C" {
#endif

/* The bytes of an answer with code 0, which an answer buffer must have room for; of a refusal; of the longest record. */
#define NODDYFIR_ENERGIES_SIZE 28
#define NODDYFIR_ENDS_SIZE 52
#define NODDYFIR_SLOPES_SIZE 52
#define NODDYFIR_REFUSAL_SIZE 4
#define NODDYFIR_RECORD_SIZE_MAX 845
#define NODDYFIR_SUBSTANCES_MAX 8

/*
 * The codes of an answer; the first that applies counts, and NODDYFIR_CODE_MAX is the last of them.
 * `noddyfir_code_sentence` has a sentence for each.
 */
/* written by tools/codes from docs/codes.txt */
enum noddyfir_code {
    /* the only success */
    NODDYFIR_ACCEPTED = 0,
    /* answer buffer, or buffer of a moved record, too short; nothing is written */
    NODDYFIR_ANSWER_BUFFER = 1,
    /* record under 5 bytes, or its length field is wrong */
    NODDYFIR_ENVELOPE = 2,
    /* version neither 1 nor 2, or not the one that a move starts from */
    NODDYFIR_VERSION = 3,
    /* perturbation above 2 */
    NODDYFIR_PERTURBATION = 4,
    /* number of substances n not 1 to 8 */
    NODDYFIR_COMPONENTS = 5,
    /* length is not that of n substances in the version */
    NODDYFIR_SIZE = 6,
    /* rep not in 8..48, att 5..7, sigma 0.5..10, epsilon_k 0.1..5000, k_ij -0.9..0.9, or l_ij -0.5..0.5 */
    NODDYFIR_SUBSTANCES = 7,
    /* temperature not in 1..5000, a density 0..2, a fraction 0..1, or the sum of the fractions not 1 within 2^-40 */
    NODDYFIR_STATE = 8,
    /* a value is not finite, or a function has no rule for its argument */
    NODDYFIR_ARITHMETIC = 9,
    /* a range rule fails, so there are energies and no ends; from the calls for ends only */
    NODDYFIR_ENDS = 10,
    /* a slope is not finite, so there are energies and no slopes; from the calls for slopes only */
    NODDYFIR_SLOPES = 11,
    /* perturbation 0 (BH) and an att other than 6; tested between 7 and 8 */
    NODDYFIR_ATTRACTION = 12,
    /* an l_ij that is not +0, which version 1 cannot hold; from the move to version 1 only; tested after 8 and 12 */
    NODDYFIR_PAIR_CONSTANT = 13
};
#define NODDYFIR_CODE_MAX 13
/* end of the codes */

/*
 * Writes the answer of energies to one record at the start of `answer` and returns its code.
 * Under 28 bytes of answer it returns 1 and writes nothing. Bytes past the answer are untouched.
 */
uint8_t noddyfir_energies(const uint8_t *record, size_t record_size, uint8_t *answer, size_t answer_size);

/*
 * Writes the answer of ends to one record at the start of `answer` and returns its code.
 * Under 52 bytes of answer it returns 1 and writes nothing. Bytes past the answer are untouched.
 * Proved: where the code is 0, the energies call has code 0 too, each of its values lies between its lower and upper
 * end, and so does what the same formulas give in fractions without any rounding, whichever fraction between its own
 * ends each root takes.
 */
uint8_t noddyfir_ends(const uint8_t *record, size_t record_size, uint8_t *answer, size_t answer_size);

/*
 * Writes the answer of slopes to one record at the start of `answer` and returns its code.
 * Under 52 bytes of answer it returns 1 and writes nothing. Bytes past the answer are untouched.
 * Proved: each value is that of the energies call, bit for bit, and each slope is what the rules of differentiation
 * give in doubles, every operation rounded once. Slopes have no ends: how far rounding has moved them is not proved.
 *
 * The slope is along the total density, at fixed temperature and fractions: each partial density moves by its own
 * fraction. So the pressure is k * T * (d + d * s - v), with the temperature T, the sum d of the densities, s of the
 * slopes and v of the values, and k = 138.0649 bar cubic angstrom per kelvin; k * T * d is the part of the ideal gas.
 * examples/pressure.c works it. This takes densities that are the fractions times d. Others are answered as sent, by
 * the slope of densities that move along the fractions; it gives no pressure.
 */
uint8_t noddyfir_slopes(const uint8_t *record, size_t record_size, uint8_t *answer, size_t answer_size);

/* Why a run stopped. */
enum noddyfir_reason {
    NODDYFIR_USED_UP = 0, /* all records are answered */
    NODDYFIR_NO_ROOM = 1, /* under 28 (energies) or 52 (ends, slopes) bytes are left for answers; call again from here */
    NODDYFIR_BROKEN = 2   /* under 2 bytes are left of the records, or a length reaches past their end */
};

/* What a run did. */
typedef struct noddyfir_run {
    size_t records; /* records answered */
    size_t read;    /* bytes of the records read */
    size_t written; /* bytes of the answers written */
    uint8_t reason; /* an enum noddyfir_reason */
} noddyfir_run;

/*
 * Answer records that stand one after the other; each answer is written where the one before it ended. A refused
 * record takes four bytes and the run goes on. An answer depends on its own record alone.
 */
noddyfir_run noddyfir_run_energies(const uint8_t *records, size_t records_size, uint8_t *answers, size_t answers_size);
noddyfir_run noddyfir_run_ends(const uint8_t *records, size_t records_size, uint8_t *answers, size_t answers_size);
noddyfir_run noddyfir_run_slopes(const uint8_t *records, size_t records_size, uint8_t *answers, size_t answers_size);

/*
 * Write the record in version 2, with every l_ij +0, or in version 1, at the start of `out` and return the code. All else
 * keeps its bytes, but for the length; at n = 1 only the version byte changes.
 * A record that is not of the version that the move starts from is 3. A buffer shorter than the moved record is 1, tested
 * after 6; one of NODDYFIR_RECORD_SIZE_MAX bytes is long enough for all. On the way back an l_ij other than +0 is 13, also
 * -0. The codes 9, 10 and 11 do not occur. A refused move writes nothing. Bytes past the moved record are untouched.
 * Proved: for every record of version 1 that passes the codes 2 to 8 and 12, and buffers that are long enough, there and
 * back gives the same bytes; and the moved record passes these codes too and has the same answers of every call.
 */
uint8_t noddyfir_to_version_2(const uint8_t *record, size_t record_size, uint8_t *out, size_t out_size);
uint8_t noddyfir_to_version_1(const uint8_t *record, size_t record_size, uint8_t *out, size_t out_size);

/* ---- not proved: c/self_check.c and c/sentences.c */

/* What may be wrong with the processor's arithmetic in the calling thread. */
enum noddyfir_fault {
    NODDYFIR_FIT = 0,
    NODDYFIR_FAULT_TRAPS = 1,      /* an inexact or invalid operation would stop the program */
    NODDYFIR_FAULT_ROUNDING = 2,   /* results are not rounded to the nearest double */
    NODDYFIR_FAULT_SUBNORMALS = 3, /* numbers below the normal range are taken as zero (flush-to-zero) */
    NODDYFIR_FAULT_PRECISION = 4,  /* results carry more digits than a double has */
    NODDYFIR_FAULT_KNOWN_CASE = 5  /* a known case has other bits than it should */
};

/*
 * Looks at the mode of the processor's arithmetic, does a few operations whose results are known, and calls energies,
 * ends and slopes for a known case of each perturbation; it takes under a millisecond. The proof assumes the default
 * mode: rounding to nearest, subnormal numbers kept, no traps. A library that is linked with fast-math changes it for the
 * whole program. The mode belongs to a thread and can change: call this once in each thread before the first use, and
 * again after loading a library. On any other answer than 0, do not use the values.
 */
int noddyfir_self_check(void);

/* A plain English sentence for a fault, for a code. Never NULL. */
const char *noddyfir_fault_sentence(int fault);
const char *noddyfir_code_sentence(int code);

#ifdef __cplusplus
}
#endif

#endif
