/* Compares the proved functions with the reference: on every one of the 2^32 patterns of an f32, and narrow on every halfway
   point and its neighbours, on random f64 near the range of f32, and on random patterns. The last line counts. */
#include "reference.h"
#include <pthread.h>
#include <stdio.h>

float elementary_abs(float), elementary_max0(float), elementary_narrow(double), elementary_sqrt(float), elementary_exp(float), elementary_ln(float);
double elementary_widen(float);
void elementary_sqrt_each(float *, size_t), elementary_exp_each(float *, size_t, double *, size_t);

enum { BLOCK = 128 };
enum { ABS, MAX0, WIDEN, SQRT, EXP, LN, SQRTS, EXPS, BACK, HALF, NEAR, ANY, KINDS };
static const char *const names[KINDS] = {"abs", "max0", "widen", "sqrt", "exp", "ln", "sqrt_each", "exp_each", "narrow(widen(x))", "narrow, at and beside halfway points", "narrow, exponents near those of f32", "narrow, any pattern"};

struct part { uint64_t from, to, random; uint64_t count[KINDS], bad[KINDS]; };

static void same(struct part *p, int kind, uint64_t at, uint64_t got, uint64_t expected) {
    p->count[kind]++;
    if (got == expected) return;
    if (p->bad[kind]++ < 5) printf("%s at %llx: %llx, expected %llx\n", names[kind], (unsigned long long)at, (unsigned long long)got, (unsigned long long)expected);
}

static void narrow(struct part *p, int kind, uint64_t u) {
    double x = double_of(u);
    same(p, kind, u, written(elementary_narrow(x)), written(ref_narrow(x)));
}

/* The functions of a list, on the next patterns. */
static void lists(struct part *p, uint64_t u) {
    float roots[BLOCK], powers[BLOCK];
    double room[BLOCK];
    for (uint32_t i = 0; i < BLOCK; i++) roots[i] = powers[i] = float_of((uint32_t)u + i);
    elementary_sqrt_each(roots, BLOCK);
    elementary_exp_each(powers, BLOCK, room, BLOCK);
    for (uint32_t i = 0; i < BLOCK; i++) {
        float x = float_of((uint32_t)u + i);
        same(p, SQRTS, u + i, written(roots[i]), written(ref_sqrt(x)));
        same(p, EXPS, u + i, written(powers[i]), written(ref_exp(x)));
    }
}

static uint64_t next(struct part *p) { p->random ^= p->random << 13; p->random ^= p->random >> 7; p->random ^= p->random << 17; return p->random; }

static void *run(void *arg) {
    struct part *p = arg;
    for (uint64_t u = p->from; u < p->to; u++) {
        float x = float_of((uint32_t)u);
        if (u % BLOCK == 0) lists(p, u);
        same(p, ABS, u, written(elementary_abs(x)), written(ref_abs(x)));
        same(p, MAX0, u, written(elementary_max0(x)), written(ref_max0(x)));
        same(p, WIDEN, u, written_double(elementary_widen(x)), written_double(ref_widen(x)));
        same(p, SQRT, u, written(elementary_sqrt(x)), written(ref_sqrt(x)));
        same(p, EXP, u, written(elementary_exp(x)), written(ref_exp(x)));
        same(p, LN, u, written(elementary_ln(x)), written(ref_ln(x)));
        same(p, BACK, u, written(elementary_narrow(elementary_widen(x))), written(x));
        /* halfway to the next pattern: of all subnormals, and of one in eight normals */
        uint32_t size = (uint32_t)u & 0x7fffffff;
        if (size < 0x7f800000 && (size < 0x800000 || u % 8 == 0)) {
            double next_up = size == 0x7f7fffff ? ldexp(1, 128) : (double)float_of(size + 1);
            uint64_t half = bits_of_double(((double)float_of(size) + next_up) / 2) | (u >> 31) << 63;
            for (int d = -1; d <= 1; d++) narrow(p, HALF, half + (uint64_t)(int64_t)d);
        }
        if (u % 32 == 0) {
            uint64_t r = next(p);
            narrow(p, NEAR, (r & 0x800fffffffffffffull) | (0x36a - 4 + next(p) % 0x11e) << 52);
            narrow(p, ANY, r);
        }
    }
    return NULL;
}

int main(void) {
    enum { PARTS = 2 };
    struct part parts[PARTS] = {0};
    pthread_t threads[PARTS];
    for (int i = 0; i < PARTS; i++) {
        parts[i].from = (1ull << 32) / PARTS * (uint64_t)i;
        parts[i].to = (1ull << 32) / PARTS * (uint64_t)(i + 1);
        parts[i].random = 88172645463325252ull + (uint64_t)i;
        if (pthread_create(&threads[i], NULL, run, &parts[i])) return 2;
    }
    uint64_t compared = 0, bad = 0;
    for (int i = 0; i < PARTS; i++) pthread_join(threads[i], NULL);
    for (int k = 0; k < KINDS; k++) {
        uint64_t c = 0, b = 0;
        for (int i = 0; i < PARTS; i++) c += parts[i].count[k], b += parts[i].bad[k];
        printf("%-40s %11llu compared, %llu different\n", names[k], (unsigned long long)c, (unsigned long long)b);
        compared += c, bad += b;
    }
    printf("%llu compared, %llu different\n", (unsigned long long)compared, (unsigned long long)bad);
    return bad != 0;
}
