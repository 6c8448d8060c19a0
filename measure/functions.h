// The functions of crates operations and elementary under their C names (crates/measured/src/functions.rt), and document 01's functions in plain C (recipes.c)
// under the same names with another prefix.
#include <stdint.h>

#define FUNCTIONS(prefix)                        \
    double prefix##_div(double a, double b);     \
    double prefix##_powi(double v, uint64_t k);  \
    double prefix##_sqrt(double v);              \
    double prefix##_ln(double v);                \
    double prefix##_ln_1p(double v);             \
    double prefix##_exp(double v);               \
    double prefix##_powf(double v, double b);    \
    double prefix##_tanh(double v);              \
    double prefix##_next_up(double v);           \
    double prefix##_next_down(double v);

FUNCTIONS(noddyfir)
FUNCTIONS(recipe)
