/* A sentence for each code and each fault. */
#include "noddyfir.h"

/* written by tools/codes from docs/codes.txt */
static const char *const CODES[] = {
    "Accepted.",
    "The buffer is too short: energies need 28 bytes, ends and slopes 52, a moved record its own length.",
    "The record has under 5 bytes, or its length field is not the number of bytes that follow it.",
    "The version of the record is neither 1 nor 2, or not the one that a move starts from.",
    "The perturbation is none of 0 (BH), 1 (WCA) and 2 (WCA-B3).",
    "The number of substances is not from 1 to 8.",
    "The length of the record is not that of its version and number of substances.",
    "A value of the substances is outside its interval: rep 8 to 48, att 5 to 7, sigma 0.5 to 10 angstrom, epsilon_k "
    "0.1 to 5000 kelvin, k_ij -0.9 to 0.9, l_ij -0.5 to 0.5.",
    "A value of the state is outside its interval: temperature 1 to 5000 kelvin, densities 0 to 2 per cubic angstrom, "
    "fractions 0 to 1 that add up to 1 within 2^-40.",
    "A value on the way is not a finite number, or a function has no rule for its argument.",
    "The energies have no ends: on the way, a range holds numbers that take different cases of one rule, or a rule has "
    "no result for it.",
    "The energies have no slopes: on the way, a slope is not a finite number.",
    "Under BH the att of each substance must be 6.",
    "The record does not go back to version 1: an l_ij of it is not +0.",
};
/* end of the codes */

static const char *const FAULTS[] = {
    "The arithmetic is fit for use.",
    "Floating-point traps are on: an inexact or invalid operation would stop the program.",
    "Results are not rounded to the nearest double: the rounding mode was changed.",
    "Numbers below the normal range are taken as zero: flush-to-zero is on, as a library linked with fast-math sets it.",
    "Results carry more digits than a double has.",
    "A known case has other bits than it should.",
};

const char *noddyfir_code_sentence(int code)
{
    int known = code >= 0 && code < (int)(sizeof CODES / sizeof CODES[0]);
    return known ? CODES[code] : "No such code.";
}

const char *noddyfir_fault_sentence(int fault)
{
    int known = fault >= 0 && fault < (int)(sizeof FAULTS / sizeof FAULTS[0]);
    return known ? FAULTS[fault] : "No such fault.";
}
