// Nanoseconds per call of each function and of the C library's, on the same arguments in turn: the least, the median and the largest of many rounds.
// A round times every function, so that another program's burst of work does not fall on one function alone.
#include "arguments.h"
#include "functions.h"
#include <math.h>
#include <stdio.h>
#include <stdlib.h>
#include <time.h>

enum { ARGUMENTS = 4096, CALLS = 50 * ARGUMENTS, ROUNDS = 51 };

// A function of one argument, from low to high, or of two, the second from -3 to 3.
struct Row {
    const char *name;
    double low, high;
    double (*ours)(double), (*library)(double);
    double (*ours2)(double, double), (*library2)(double, double);
    double ours_ns[ROUNDS], library_ns[ROUNDS];
};

static struct Row rows[] = {
    {.name = "sqrt, 0.1 to 100", .low = 0.1, .high = 100, .ours = noddyfir_sqrt, .library = sqrt},
    {.name = "sqrt of 2", .low = 2, .high = 2, .ours = noddyfir_sqrt, .library = sqrt},
    {.name = "sqrt of 6 x 6", .low = 36, .high = 36, .ours = noddyfir_sqrt, .library = sqrt},
    {.name = "sqrt of 9 x 16", .low = 144, .high = 144, .ours = noddyfir_sqrt, .library = sqrt},
    {.name = "sqrt of 100 x 400", .low = 40000, .high = 40000, .ours = noddyfir_sqrt, .library = sqrt},
    {.name = "ln, 0.1 to 100", .low = 0.1, .high = 100, .ours = noddyfir_ln, .library = log},
    {.name = "ln_1p, -0.25 to 0.25", .low = -0.25, .high = 0.25, .ours = noddyfir_ln_1p, .library = log1p},
    {.name = "ln_1p, 0.25 to 10", .low = 0.25, .high = 10, .ours = noddyfir_ln_1p, .library = log1p},
    {.name = "exp, -20 to 20", .low = -20, .high = 20, .ours = noddyfir_exp, .library = exp},
    {.name = "tanh, -5 to 5", .low = -5, .high = 5, .ours = noddyfir_tanh, .library = tanh},
    {.name = "powf, 0.1 to 10 to the -3 to 3", .low = 0.1, .high = 10, .ours2 = noddyfir_powf, .library2 = pow},
};

static double v[ARGUMENTS], b[ARGUMENTS];
static volatile double sink;

static double now(void)
{
    struct timespec t;
    clock_gettime(CLOCK_MONOTONIC, &t);
    return t.tv_sec * 1e9 + t.tv_nsec;
}

static double time_of(double (*f)(double), double (*f2)(double, double))
{
    double sum = 0, start = now();
    if (f)
        for (int i = 0; i < CALLS; i++)
            sum += f(v[i % ARGUMENTS]);
    else
        for (int i = 0; i < CALLS; i++)
            sum += f2(v[i % ARGUMENTS], b[i % ARGUMENTS]);
    sink = sum;
    return (now() - start) / CALLS;
}

static void time_row(struct Row *row, int round)
{
    for (int i = 0; i < ARGUMENTS; i++) {
        v[i] = uniform(row->low, row->high);
        b[i] = uniform(-3, 3);
    }
    row->ours_ns[round] = time_of(row->ours, row->ours2);
    row->library_ns[round] = time_of(row->library, row->library2);
}

static int by_size(const void *x, const void *y)
{
    double d = *(const double *)x - *(const double *)y;
    return (d > 0) - (d < 0);
}

static void print_row(struct Row *row)
{
    double *x = row->ours_ns, *y = row->library_ns;
    qsort(x, ROUNDS, sizeof *x, by_size);
    qsort(y, ROUNDS, sizeof *y, by_size);
    printf("| %s | %.1f | %.1f | %.1f | %.1f | %.1f | %.1f |\n", row->name, x[0], x[ROUNDS / 2], x[ROUNDS - 1], y[0], y[ROUNDS / 2], y[ROUNDS - 1]);
}

int main(void)
{
    const int count = sizeof rows / sizeof *rows;
    for (int round = 0; round < ROUNDS; round++)
        for (int i = 0; i < count; i++)
            time_row(&rows[i], round);
    puts("| function, arguments | least | median | largest | the C library's least | median | largest |\n|---|---|---|---|---|---|---|");
    for (int i = 0; i < count; i++)
        print_row(&rows[i]);
    return 0;
}
