// accuracy COUNT: the largest relative error of each function, and of the C library's, against the C library's long double functions,
// on COUNT arguments of each interval: spread over it, close to its ends, and close to the limits of the recipes in it. Prints a Markdown table.
#include "arguments.h"
#include "functions.h"
#include <math.h>
#include <stdio.h>
#include <stdlib.h>

static long count;

struct Function {
    const char *name;
    double (*ours)(double), (*library)(double);
    long double (*exact)(long double);
};

static const struct Function ln = {"ln", noddyfir_ln, log, logl};
static const struct Function ln_1p = {"ln_1p", noddyfir_ln_1p, log1p, log1pl};
static const struct Function exp_ = {"exp", noddyfir_exp, exp, expl};
static const struct Function tanh_ = {"tanh", noddyfir_tanh, tanh, tanhl};
static const struct Function sqrt_ = {"sqrt", noddyfir_sqrt, sqrt, sqrtl};

// The largest error so far, relative unless `absolute` is set, and where it was found.
struct Worst {
    double error, v, b;
};

static int absolute;

static void note(struct Worst *w, double got, long double exact, double v, double b)
{
    double error = (double)fabsl((got - exact) / (absolute ? 1 : exact));
    if (!(error <= w->error)) // so that a NaN shows
        *w = (struct Worst){error, v, b};
}

// Evenly in v, or evenly in ln v where the interval spans many powers of two.
static double spread(double low, double high)
{
    if (signbit(low) == signbit(high) && (high / low > 16 || low / high > 16))
        return copysign(exp(uniform(log(fabs(low)), log(fabs(high)))), low);
    return uniform(low, high);
}

static double within(double low, double high, long i)
{
    double v = i % 4 == 0 ? near_limit() : i % 4 == 1 ? close_to(i % 8 == 1 ? low : high) : spread(low, high);
    if (!(low <= v && v <= high))
        v = spread(low, high);
    return fmin(fmax(v, low), high);
}

static void interval(struct Function f, const char *where, double low, double high)
{
    struct Worst ours = {0}, library = {0};
    for (long i = 0; i < count; i++) {
        double v = within(low, high, i);
        long double exact = f.exact(v);
        note(&ours, f.ours(v), exact, v, 0);
        note(&library, f.library(v), exact, v, 0);
    }
    printf("| %s | %s | %.1e | %a | %.1e |\n", f.name, where, ours.error, ours.v, library.error);
}

// Bases over all positive doubles, or from 0.1 to 10, and exponents that put b * ln v between -high and -low or between low and high.
static void power(const char *where, int all, double low, double high)
{
    struct Worst ours = {0}, library = {0};
    for (long i = 0; i < count; i++) {
        double v = all ? spread(0x1p-1074, 0x1.fffffffffffffp1023) : spread(0.1, 10);
        double b = copysign(within(low, high, i), uniform(-1, 1)) / log(v);
        if (!isfinite(b)) // v is 1
            continue;
        long double exact = powl(v, b);
        note(&ours, noddyfir_powf(v, b), exact, v, b);
        note(&library, pow(v, b), exact, v, b);
    }
    printf("| powf | %s | %.1e | %a, %a | %.1e |\n", where, ours.error, ours.v, ours.b, library.error);
}

static void logarithms(void)
{
    const double largest = 0x1.fffffffffffffp1023, below_1 = nextafter(1, 0), above_1 = nextafter(1, 2);
    interval(ln, "subnormal", 0x1p-1074, nextafter(0x1p-1022, 0));
    interval(ln, "2^-1022 to 0.5", 0x1p-1022, 0.5);
    interval(ln, "0.5 to 0.75", 0.5, nextafter(0.75, 0));
    interval(ln, "0.75 to 1", 0.75, below_1);
    interval(ln, "1 to 1.5", above_1, nextafter(1.5, 0));
    interval(ln, "1.5 to 2", 1.5, 2);
    interval(ln, "2 to the largest", 2, largest);
    interval(ln_1p, "-1 to -0.25", -below_1, nextafter(-0.25, -1));
    interval(ln_1p, "-0.25 to -2^-1021", -0.25, -0x1p-1021);
    interval(ln_1p, "2^-1074 to 2^-1021", 0x1p-1074, 0x1p-1021);
    interval(ln_1p, "2^-1021 to 0.25", 0x1p-1021, 0.25);
    interval(ln_1p, "0.25 to 1", nextafter(0.25, 1), 1);
    interval(ln_1p, "1 to the largest", 1, largest);
}

static void exponentials(void)
{
    interval(exp_, "-700 to -600", -700, -600);
    interval(exp_, "-600 to 600", -600, 600);
    interval(exp_, "600 to 700", 600, 700);
    interval(tanh_, "-20 to -1", -20, -1);
    interval(tanh_, "-1 to -0.1", -1, -0.1);
    interval(tanh_, "-0.1 to -0.001", -0.1, -0.001);
    interval(tanh_, "2^-1022 to 10^-17", 0x1p-1022, 1e-17);
    interval(tanh_, "0.001 to 0.1", 0.001, 0.1);
    interval(tanh_, "0.1 to 1", 0.1, 1);
    interval(tanh_, "1 to 20", 1, 20);
    absolute = 1;
    interval(tanh_, "-20 to 20, absolute error", -20, 20);
    absolute = 0;
}

static void powers(void)
{
    power("v 0.1 to 10, b ln v to ±1", 0, 0x1p-20, 1);
    power("v 0.1 to 10, b ln v ±1 to ±10", 0, 1, 10);
    power("v 0.1 to 10, b ln v ±10 to ±100", 0, 10, 100);
    power("v 0.1 to 10, b ln v ±100 to ±699", 0, 100, 699);
    power("all v, b ln v ±100 to ±699", 1, 100, 699);
}

int main(int words, char **word)
{
    count = words > 1 ? atol(word[1]) : 1000000;
    puts("| function | arguments | largest relative error | found at | the C library's |\n|---|---|---|---|---|");
    interval(sqrt_, "subnormal", 0x1p-1074, nextafter(0x1p-1022, 0));
    interval(sqrt_, "2^-1022 to the largest", 0x1p-1022, 0x1.fffffffffffffp1023);
    logarithms();
    exponentials();
    powers();
    return 0;
}
