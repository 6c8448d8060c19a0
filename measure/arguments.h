// Random arguments. The sequence is the same in every run.
#include <stdint.h>

uint64_t to_bits(double v);
uint64_t random_bits(void);
// evenly from low to high
double uniform(double low, double high);
// any bit pattern; zeros, subnormals, infinities and NaN come often
double any_double(void);
// a double next to v or some way off, on either side: patterns from 1 to 2^40 away, each magnitude of distance alike
double close_to(double v);
// close to a limit of a recipe, or to where one takes another e or k
double near_limit(void);
