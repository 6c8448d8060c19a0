// Written from document 01, "Functions the files only call", and not from the Rattle text: what the compiled functions are compared with.
// An argument that is not finite or has no rule gives NaN. Compile with -ffp-contract=off: each operation rounds once.
#include "functions.h"
#include <math.h>

// c[0] + z * (c[1] + z * ..)
static double horner(double z, const double *c, int last)
{
    double p = c[last];
    for (int i = last - 1; i >= 0; i--)
        p = p * z + c[i];
    return p;
}

// (2s) * p, with p in s * s over the doubles of 1/(2k+1), k 0..12
static double series(double s)
{
    double c[13];
    for (int k = 0; k <= 12; k++)
        c[k] = 1.0 / (2 * k + 1);
    return (2 * s) * horner(s * s, c, 12);
}

double recipe_ln(double v)
{
    if (!isfinite(v) || v <= 0)
        return NAN;
    int e;
    double m = frexp(v, &e); // 0.5 <= m < 1
    if (m < 0.75) {
        m = 2 * m;
        e = e - 1;
    }
    return series((m - 1) / (m + 1)) + e * 0.69314718055994530942;
}

double recipe_ln_1p(double v)
{
    if (!isfinite(v) || v <= -1)
        return NAN;
    if (-0.25 <= v && v <= 0.25)
        return series(v / (2 + v));
    return recipe_ln(1 + v);
}

double recipe_exp(double v)
{
    if (!isfinite(v) || v > 700)
        return NAN;
    if (v < -700)
        return 0;
    double k = floor(v * 1.44269504088896340736 + 0.5);
    double r = (v - k * 6.93147180369123816490e-01) - k * 1.90821492927058770002e-10;
    double c[14], factorial = 1; // up to 13!, which is a double
    for (int j = 0; j <= 13; j++) {
        factorial *= j ? j : 1;
        c[j] = 1 / factorial;
    }
    return ldexp(horner(r, c, 13), (int)k);
}

double recipe_powf(double v, double b)
{
    if (!isfinite(v) || !isfinite(b) || v < 0 || (v == 0 && b <= 0))
        return NAN;
    return v == 0 ? 0 : recipe_exp(b * recipe_ln(v));
}

double recipe_tanh(double v)
{
    if (!isfinite(v))
        return NAN;
    if (v > 20)
        return 1;
    if (v < -20)
        return -1;
    return 1 - 2 / (recipe_exp(2 * v) + 1);
}

double recipe_powi(double v, uint64_t k)
{
    double product = k ? v : 1;
    for (uint64_t factors = 1; factors < k; factors++)
        product = product * v;
    return product;
}

// What is not finite makes the whole energy NaN, so a quotient must not lose it: a / infinity would be 0.
double recipe_div(double a, double b) { return isfinite(b) ? a / b : NAN; }

double recipe_sqrt(double v) { return isfinite(v) ? sqrt(v) : NAN; }

double recipe_next_up(double v) { return isfinite(v) ? nextafter(v, INFINITY) : NAN; }

double recipe_next_down(double v) { return isfinite(v) ? nextafter(v, -INFINITY) : NAN; }
