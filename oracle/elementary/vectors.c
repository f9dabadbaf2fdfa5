/* Writes the cases of crates/elementary_test to its first argument and the answers to its second. A case is a line: a letter
   for the function (a abs, m max0, w widen, n narrow, q sqrt, e exp, l ln), a space, and the argument's bits in hexadecimal, 16
   digits for narrow and 8 otherwise. An answer is the case's line with the result's bits after it, every NaN as 7fc00000 or
   7ff8000000000000. */
#include "reference.h"
#include <stdio.h>
#include <stdlib.h>

static FILE *cases, *answers;

static void put(char f, uint32_t u) {
    float x = float_of(u);
    fprintf(cases, "%c %08x\n", f, u);
    fprintf(answers, "%c %08x ", f, u);
    switch (f) {
    case 'a': fprintf(answers, "%08x\n", written(ref_abs(x))); break;
    case 'm': fprintf(answers, "%08x\n", written(ref_max0(x))); break;
    case 'w': fprintf(answers, "%016llx\n", (unsigned long long)written_double(ref_widen(x))); break;
    case 'q': fprintf(answers, "%08x\n", written(ref_sqrt(x))); break;
    case 'e': fprintf(answers, "%08x\n", written(ref_exp(x))); break;
    case 'l': fprintf(answers, "%08x\n", written(ref_ln(x))); break;
    default: abort();
    }
}

static void put_narrow(uint64_t u) {
    fprintf(cases, "n %016llx\n", (unsigned long long)u);
    fprintf(answers, "n %016llx %08x\n", (unsigned long long)u, written(ref_narrow(double_of(u))));
}

/* a 64-bit shift register: the same numbers on every machine */
static uint64_t state = 88172645463325252ull;
static uint64_t next(void) { state ^= state << 13; state ^= state >> 7; state ^= state << 17; return state; }

/* a point and its two neighbours, with both signs */
static void around(double x) {
    uint64_t u = bits_of_double(x);
    for (int d = -1; d <= 1; d++) {
        if (u + d > 0x7ff0000000000000ull) continue;
        put_narrow(u + d);
        put_narrow((u + d) | 0x8000000000000000ull);
    }
}

int main(int argc, char **argv) {
    if (argc != 3 || !(cases = fopen(argv[1], "w")) || !(answers = fopen(argv[2], "w"))) return 1;

    /* every exponent, both signs: the ends of its range, and a point within */
    for (uint32_t field = 0; field < 256; field++)
        for (uint32_t sign = 0; sign < 2; sign++) {
            uint32_t base = sign << 31 | field << 23;
            uint32_t digits[5] = {0, 1, 0x7fffff, (uint32_t)next() & 0x7fffff, 0x400000};
            for (int i = 0; i < (sign ? 2 : 5); i++) put('q', base | digits[i]);
            for (int i = 0; i < 3; i++) put('e', base | digits[i]);
            for (int i = 0; i < (sign ? 1 : 4); i++) put('l', base | digits[i]);
            put('a', base | digits[0]), put('a', base | digits[3]);
            put('m', base | digits[0]), put('m', base | digits[3]);
            put('w', base | digits[1]), put('w', base | digits[3]);
        }
    /* subnormals: every length, by leading zeros */
    for (int k = 0; k < 23; k++)
        for (int d = -1; d <= 1; d++) {
            uint32_t u = (1u << k) + d;
            put('q', u), put('w', u), put('a', 0x80000000u | u), put('l', u), put('e', u);
        }
    /* E: where its cases begin and end, and its range in steps */
    for (int d = -2; d <= 2; d++) put('e', 0xc2d00000u + d), put('e', 0x42b20000u + d), put('e', 0xc2aeac50u + d);
    for (float x = -104.0f; x < 89.0f; x += 0.375f) put('e', bits_of(x));
    /* L: where it begins and ends, and the hundred values that building a row takes */
    for (int d = -2; d <= 2; d++) put('l', 0x00800000u + d), put('l', 0x3f800000u + d), put('l', 0x3f000000u + d);
    for (int i = 0; i < 100; i++) put('l', bits_of(1.0f - ((float)i + 0.5f) / 100.0f));
    /* Q: squares and their neighbours, and random points */
    for (uint32_t n = 1; n < 4096; n = n * 3 / 2 + 1)
        for (int d = -1; d <= 1; d++) put('q', bits_of((float)n * (float)n) + d);
    for (int i = 0; i < 500; i++) put('q', (uint32_t)next() & 0x7fffffff);

    /* narrow: halfway between two neighbours, the lower one even and odd, at every exponent; the same below the normal range */
    for (uint32_t field = 0; field < 255; field++)
        for (int odd = 0; odd < 2; odd++) {
            uint32_t u = field << 23 | (((uint32_t)next() & 0x7ffffe) | (uint32_t)odd);
            around((double)float_of(u) + ((u >= 0x7f7fffff) ? ldexp(1, 103) : ((double)float_of(u + 1) - (double)float_of(u)) / 2));
        }
    for (int k = 0; k < 24; k++) around(((double)((1u << k) - 1) + 0.5) * ldexp(1, -149)), around(((double)(1u << k) + 0.5) * ldexp(1, -149));
    /* the smallest values that do not vanish, the largest that does not overflow, zeros, infinities, NaNs */
    around(ldexp(1, -150)), around(ldexp(1, -149)), around(ldexp(1, -126)), around((double)FLT_MAX), around((double)FLT_MAX + ldexp(1, 103)), around(ldexp(1, 128)), around(INFINITY);
    put_narrow(0), put_narrow(0x8000000000000000ull);
    put_narrow(0x7ff8000000000000ull), put_narrow(0xfff0000000000001ull), put_narrow(0x7fffffffffffffffull);
    /* every eighth exponent of an f64, its subnormals among them */
    for (uint64_t field = 0; field < 0x7ff; field += 8) put_narrow(field << 52 | (next() & 0x800fffffffffffffull));

    return fclose(cases) | fclose(answers);
}
