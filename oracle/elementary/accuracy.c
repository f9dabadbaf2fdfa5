/* How far E and L are from the functions they stand in for: on every argument where they compute, against the C library's
   long double functions rounded to f32. A distance is in units in the last place. */
#include "reference.h"
#include <stdio.h>
#include <stdlib.h>

/* patterns of one sign are in the order of their values */
static void compare(const char *name, float (*f)(float), long double (*exact)(long double), uint32_t from, uint32_t to) {
    uint64_t count = 0, off = 0;
    int64_t most = 0;
    uint32_t at = from;
    for (uint64_t u = from; u <= to; u++) {
        float x = float_of((uint32_t)u);
        int64_t d = llabs((int64_t)bits_of(f(x)) - (int64_t)bits_of((float)exact((long double)x)));
        count++, off += d != 0;
        if (d > most) most = d, at = (uint32_t)u;
    }
    printf("%-28s %10llu arguments, %llu differ, by at most %lld", name, (unsigned long long)count, (unsigned long long)off, (long long)most);
    if (most) printf(" (first at bits %08x)", at);
    printf("\n");
}

int main(void) {
    compare("E, 0 up to 89", ref_exp, expl, 0x00000000u, 0x42b1ffffu);
    compare("E, -0 down to -104", ref_exp, expl, 0x80000000u, 0xc2d00000u);
    compare("L, 2^-126 up to 1", ref_ln, logl, 0x00800000u, 0x3f7fffffu);
    return 0;
}
