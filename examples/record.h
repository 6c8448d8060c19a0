/* For the examples: builds a case record, and reads doubles from an answer. */
#ifndef RECORD_H
#define RECORD_H

#include "noddyfir.h"
#include <string.h>

/* A substance's Mie potential. */
struct substance {
    double rep, att, sigma, epsilon_k;
};

/* A record that is being built. */
struct record {
    uint8_t bytes[NODDYFIR_RECORD_SIZE_MAX];
    size_t size;
};

/* The most significant byte first, whatever the machine's own order. */
static void put_double(struct record *record, double v)
{
    uint64_t bits;
    memcpy(&bits, &v, sizeof bits);
    for (int shift = 56; shift >= 0; shift -= 8)
        record->bytes[record->size++] = (uint8_t)(bits >> shift);
}

static double get_double(const uint8_t *bytes)
{
    uint64_t bits = 0;
    double v;
    for (int i = 0; i < 8; i++)
        bits = bits << 8 | bytes[i];
    memcpy(&v, &bits, sizeof v);
    return v;
}

/* `n` is 1 to 8. `k_ij` has the constants of the pairs i below j, row by row: n * (n - 1) / 2 of them. */
static void build(struct record *record, uint8_t perturbation, uint8_t n, const struct substance *substances,
                  const double *k_ij, double temperature, double density, const double *fractions)
{
    record->size = 2;
    record->bytes[record->size++] = 1; /* version */
    record->bytes[record->size++] = perturbation;
    record->bytes[record->size++] = n;
    for (int i = 0; i < n; i++) {
        put_double(record, substances[i].rep);
        put_double(record, substances[i].att);
        put_double(record, substances[i].sigma);
        put_double(record, substances[i].epsilon_k);
    }
    for (int pair = 0; pair < n * (n - 1) / 2; pair++)
        put_double(record, k_ij[pair]);
    put_double(record, temperature);
    for (int i = 0; i < n; i++)
        put_double(record, fractions[i] * density);
    for (int i = 0; i < n; i++)
        put_double(record, fractions[i]);
    record->bytes[0] = (uint8_t)((record->size - 2) >> 8);
    record->bytes[1] = (uint8_t)(record->size - 2);
}

#endif
