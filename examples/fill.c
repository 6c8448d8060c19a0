/*
 * A fill of argon and methane: builds a case record, asks for its energies and their ends, and prints them.
 *
 *     ./library && cc -Iinclude examples/fill.c target/lib/libnoddyfir.a -o target/fill && target/fill
 */
#include "record.h"
#include <stdio.h>

static int refused(int code)
{
    fprintf(stderr, "fill: refused with code %d. %s\n", code, noddyfir_code_sentence(code));
    return 1;
}

/* Asks for the energies and the ends of a record, and prints them with 17 figures, which tell one double from another. */
static int answer(const struct record *record)
{
    static const char *const NAMES[3] = {"hard sphere", "reference", "attractive"};
    uint8_t energies[NODDYFIR_ENERGIES_SIZE], ends[NODDYFIR_ENDS_SIZE];
    int code = noddyfir_energies(record->bytes, record->size, energies, sizeof energies);
    if (code != NODDYFIR_ACCEPTED)
        return refused(code);
    code = noddyfir_ends(record->bytes, record->size, ends, sizeof ends);
    if (code != NODDYFIR_ACCEPTED)
        return refused(code);
    printf("%-12s %24s %24s %24s\n", "energy", "lower end", "value", "upper end");
    for (int i = 0; i < 3; i++)
        printf("%-12s %24.16e %24.16e %24.16e\n", NAMES[i], get_double(ends + 4 + 16 * i),
               get_double(energies + 4 + 8 * i), get_double(ends + 12 + 16 * i));
    return 0;
}

int main(void)
{
    static const struct substance SUBSTANCES[2] = {
        {12.26, 6.0, 3.404, 117.84},   /* argon */
        {12.65, 6.0, 3.7412, 153.36},  /* methane */
    };
    static const double K_IJ[1] = {0.01}, FRACTIONS[2] = {0.8, 0.2};
    struct record record;
    int fault = noddyfir_self_check();
    if (fault != NODDYFIR_FIT) {
        fprintf(stderr, "fill: %s\n", noddyfir_fault_sentence(fault));
        return 3;
    }
    build(&record, 1, 2, SUBSTANCES, K_IJ, 293.15, 0.005, FRACTIONS);
    return answer(&record);
}
