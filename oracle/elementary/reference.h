/* The elementary functions again (specification, section 7), independent of the Rattle code: the hardware's operations where
   IEEE 754 fixes the result, and the formulas of E and L operation by operation.
   Compile with -ffp-contract=off, so that no two operations are joined. */
#include <float.h>
#include <math.h>
#include <stdint.h>
#include <string.h>

static inline uint32_t bits_of(float x) { uint32_t u; memcpy(&u, &x, sizeof u); return u; }
static inline float float_of(uint32_t u) { float x; memcpy(&x, &u, sizeof x); return x; }
static inline uint64_t bits_of_double(double x) { uint64_t u; memcpy(&u, &x, sizeof u); return u; }
static inline double double_of(uint64_t u) { double x; memcpy(&x, &u, sizeof x); return x; }

/* every NaN is written the same */
static inline uint32_t written(float x) { return x != x ? 0x7fc00000u : bits_of(x); }
static inline uint64_t written_double(double x) { return x != x ? 0x7ff8000000000000ull : bits_of_double(x); }

static inline float ref_abs(float x) { return fabsf(x); }
static inline float ref_max0(float v) { return v > 0 ? v : 0.0f; }
static inline double ref_widen(float x) { return (double)x; }
static inline float ref_narrow(double x) { return (float)x; }
static inline float ref_sqrt(float x) { return sqrtf(x); }

/* E: NaN gives NaN; below -104 gives +0; 89 or more gives +infinity. Else in f64: y = x/256; p = 1; for k = 10 down to 1,
   p = 1 + (y/k) * p; square p eight times; round. */
static inline float ref_exp(float x) {
    if (isnan(x)) return x;
    if (x < -104.0f) return 0.0f;
    if (x >= 89.0f) return INFINITY;
    double y = (double)x / 256.0, p = 1.0;
    for (int k = 10; k >= 1; k--) p = 1.0 + (y / k) * p;
    for (int i = 0; i < 8; i++) p *= p;
    return (float)p;
}

/* L, for 0 < x < 1 in normal range: x = m * 2^e with 1 <= m < 2. In f64: s = (m - 1)/(m + 1); z = s * s; h = 1/31; for odd
   k = 29 down to 1, h = 1/k + z * h. e * C + (2 * s) * h, rounded. Elsewhere a NaN, which is this port's choice. */
static inline float ref_ln(float x) {
    if (!(isnormal(x) && x > 0 && x < 1)) return NAN;
    int e;
    double m = 2.0 * frexp((double)x, &e);
    e -= 1;
    double s = (m - 1.0) / (m + 1.0), z = s * s, h = 1.0 / 31.0;
    for (int k = 29; k >= 1; k -= 2) h = 1.0 / k + z * h;
    return (float)((double)e * double_of(0x3FE62E42FEFA39EFull) + (2.0 * s) * h);
}
