// equality COUNT: compares each compiled function with recipes.c by bits, on COUNT arguments. Any difference is a failure.
#include "arguments.h"
#include "functions.h"
#include <math.h>
#include <stdio.h>
#include <stdlib.h>

// Of one function: how many results were not NaN, and how many differ. There is one NaN: no contract tells two apart.
static long count, results, differ, failures;

static void compare(const char *name, double v, double b, double compiled, double recipe)
{
    results += !isnan(recipe);
    if (isnan(recipe) ? isnan(compiled) : to_bits(compiled) == to_bits(recipe))
        return;
    if (differ++ < 3)
        printf("%s(%a, %a): compiled %a, recipe %a\n", name, v, b, compiled, recipe);
}

static void report(const char *name)
{
    printf("%-9s %ld arguments, %ld results not NaN, %ld differ\n", name, count, results, differ);
    failures += differ;
    results = differ = 0;
}

static double argument(long i)
{
    switch (i % 4) {
    case 0: return any_double();
    case 1: return near_limit();
    case 2: return uniform(-3, 3);
    default: return uniform(-800, 800);
    }
}

// The second argument: any, a common exponent, or one with b * ln v close to a limit of exp.
static double second_argument(long i, double v)
{
    switch (i / 4 % 3) {
    case 0: return any_double();
    case 1: return uniform(-20, 20);
    default: return near_limit() / log(v);
    }
}

static void one(const char *name, double (*compiled)(double), double (*recipe)(double))
{
    for (long i = 0; i < count; i++) {
        double v = argument(i);
        compare(name, v, 0, compiled(v), recipe(v));
    }
    report(name);
}

static void two(const char *name, double (*compiled)(double, double), double (*recipe)(double, double))
{
    for (long i = 0; i < count; i++) {
        double v = argument(i), b = second_argument(i, v);
        compare(name, v, b, compiled(v, b), recipe(v, b));
    }
    report(name);
}

static void powi(void)
{
    for (long i = 0; i < count; i++) {
        double v = argument(i);
        uint64_t k = random_bits() % 33;
        compare("powi", v, (double)k, noddyfir_powi(v, k), recipe_powi(v, k));
    }
    report("powi");
}

int main(int words, char **word)
{
    count = words > 1 ? atol(word[1]) : 4000000;
    two("div", noddyfir_div, recipe_div);
    powi();
    one("sqrt", noddyfir_sqrt, recipe_sqrt);
    one("ln", noddyfir_ln, recipe_ln);
    one("ln_1p", noddyfir_ln_1p, recipe_ln_1p);
    one("exp", noddyfir_exp, recipe_exp);
    two("powf", noddyfir_powf, recipe_powf);
    one("tanh", noddyfir_tanh, recipe_tanh);
    one("next_up", noddyfir_next_up, recipe_next_up);
    one("next_down", noddyfir_next_down, recipe_next_down);
    return failures > 0;
}
