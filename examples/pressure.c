/*
 * The pressure of a fill of argon and methane: builds a case record, asks for its energies with their slopes along total
 * density, and works the pressure from them.
 *
 *     ./library && cc -Iinclude examples/pressure.c target/lib/libnoddyfir.a -o target/pressure && target/pressure
 */
#include "record.h"
#include <stdio.h>

/* Boltzmann's constant, 1.380649e-23 joule per kelvin, in bar cubic angstrom per kelvin. */
#define BOLTZMANN 138.0649

/* Prints the three pairs with 17 figures, which tell one double from another, and the parts of the pressure. */
static void print(const uint8_t *slopes, double temperature, double density)
{
    static const char *const NAMES[3] = {"hard sphere", "reference", "attractive"};
    double values = 0.0, sum = 0.0;
    printf("%-12s %24s %24s\n", "energy", "value", "slope");
    for (int i = 0; i < 3; i++) {
        double value = get_double(slopes + 4 + 16 * i), slope = get_double(slopes + 12 + 16 * i);
        printf("%-12s %24.16e %24.16e\n", NAMES[i], value, slope);
        values += value;
        sum += slope;
    }
    double ideal = BOLTZMANN * temperature * density;
    double residual = BOLTZMANN * temperature * (density * sum - values);
    printf("\npressure in bar: %.6f, of which the ideal gas %.6f\n", ideal + residual, ideal);
}

int main(void)
{
    static const struct substance SUBSTANCES[2] = {
        {12.26, 6.0, 3.404, 117.84},   /* argon */
        {12.65, 6.0, 3.7412, 153.36},  /* methane */
    };
    static const double K_IJ[1] = {0.01}, FRACTIONS[2] = {0.8, 0.2};
    const double temperature = 293.15, density = 0.005;
    struct record record;
    uint8_t slopes[NODDYFIR_SLOPES_SIZE];
    int fault = noddyfir_self_check(), code;
    if (fault != NODDYFIR_FIT) {
        fprintf(stderr, "pressure: %s\n", noddyfir_fault_sentence(fault));
        return 3;
    }
    build(&record, 1, 2, SUBSTANCES, K_IJ, temperature, density, FRACTIONS);
    code = noddyfir_slopes(record.bytes, record.size, slopes, sizeof slopes);
    if (code != NODDYFIR_ACCEPTED) {
        fprintf(stderr, "pressure: refused with code %d. %s\n", code, noddyfir_code_sentence(code));
        return 1;
    }
    print(slopes, temperature, density);
    return 0;
}
