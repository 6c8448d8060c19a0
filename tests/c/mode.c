/* A library that changes the mode of the arithmetic as it is loaded, as one that is linked with fast-math does. */
#include <xmmintrin.h>

__attribute__((constructor)) static void change(void)
{
    _mm_setcsr(MODE);
}
