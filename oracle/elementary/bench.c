/* ns per call of each proved function, beside the hardware's or the C library's: the functions take turns, and each time is
   the least of its turns, over an array of arguments whose calls do not depend on each other. */
#include "reference.h"
#include <stdio.h>
#include <time.h>

float elementary_abs(float), elementary_max0(float), elementary_narrow(double), elementary_sqrt(float), elementary_exp(float), elementary_ln(float);
double elementary_widen(float);
void elementary_sqrt_each(float *, size_t), elementary_exp_each(float *, size_t, double *, size_t);

#define OUTSIDE __attribute__((noinline)) static
OUTSIDE float call_alone(float x) { __asm__ volatile("" : "+x"(x)); return x; }
OUTSIDE float hardware_narrow(double x) { return (float)x; }
OUTSIDE double hardware_widen(float x) { return (double)x; }
OUTSIDE float hardware_sqrt(float x) { return sqrtf(x); }
OUTSIDE float hardware_abs(float x) { return fabsf(x); }
OUTSIDE float formula_exp(float x) { return ref_exp(x); }
OUTSIDE float formula_ln(float x) { return ref_ln(x); }

enum { N = 4096, ROUNDS = 50, RUNS = 100 };
static float any[N], power[N], unit[N];
static double wide[N];

static double now(void) { struct timespec t; clock_gettime(CLOCK_MONOTONIC, &t); return (double)t.tv_sec + 1e-9 * (double)t.tv_nsec; }
static uint64_t state = 88172645463325252ull;
static uint64_t next(void) { state ^= state << 13; state ^= state >> 7; state ^= state << 17; return state; }

static double least[32];

#define TIME(row, name, call, args) do { \
    double t = now(); \
    uint64_t sum = 0; \
    for (int r = 0; r < ROUNDS; r++) for (int i = 0; i < N; i++) sum += bits_of((float)call(args[i])); \
    __asm__ volatile("" : : "r"(sum)); \
    t = (now() - t) / ROUNDS / N * 1e9; \
    if (run == 0 || t < least[row]) least[row] = t; \
    if (run == RUNS - 1) printf("%-34s %6.2f ns\n", name, least[row]); \
} while (0)

/* A function of a list, on lists of a hundred. */
#define TIME_LIST(row, name, call, args) do { \
    double t = now(); \
    for (int r = 0; r < ROUNDS; r++) for (int i = 0; i + LENGTH <= N; i += LENGTH) { \
        for (int k = 0; k < LENGTH; k++) list[k] = args[i + k]; \
        call; \
        __asm__ volatile("" : : "r"(list) : "memory"); \
    } \
    t = (now() - t) / ROUNDS / (N / LENGTH * LENGTH) * 1e9; \
    if (run == 0 || t < least[row]) least[row] = t; \
    if (run == RUNS - 1) printf("%-34s %6.2f ns\n", name, least[row]); \
} while (0)

enum { LENGTH = 100 };
static float list[LENGTH];
static double room[LENGTH];

int main(void) {
    for (int i = 0; i < N; i++) {
        any[i] = float_of((uint32_t)next() & 0x7fffffff);
        if (!(any[i] < INFINITY)) any[i] = 3;
        power[i] = -80.0f + (float)(next() % 160000) / 1000.0f;
        unit[i] = (float)(next() % 999999 + 1) / 1000001.0f;
        wide[i] = double_of((next() & 0x800fffffffffffffull) | (1023 - 100 + next() % 200) << 52);
    }
    for (int run = 0; run < RUNS; run++) {
        TIME(0, "a call alone", call_alone, any);
        TIME(1, "sqrt", elementary_sqrt, any);
        TIME(2, "  the hardware's", hardware_sqrt, any);
        TIME(3, "exp", elementary_exp, power);
        TIME(4, "  the same formula in C", formula_exp, power);
        TIME(5, "  the C library's expf", expf, power);
        TIME(6, "ln", elementary_ln, unit);
        TIME(7, "  the same formula in C", formula_ln, unit);
        TIME(8, "  the C library's logf", logf, unit);
        TIME(9, "narrow", elementary_narrow, wide);
        TIME(10, "  the hardware's", hardware_narrow, wide);
        TIME(11, "widen", elementary_widen, any);
        TIME(12, "  the hardware's", hardware_widen, any);
        TIME(13, "abs", elementary_abs, any);
        TIME(14, "  the hardware's", hardware_abs, any);
        TIME(15, "max0", elementary_max0, any);
        TIME_LIST(16, "sqrt_each, for each of a hundred", elementary_sqrt_each(list, LENGTH), any);
        TIME_LIST(17, "exp_each, for each of a hundred", elementary_exp_each(list, LENGTH, room, LENGTH), power);
    }
    return 0;
}
