/*
 * Gauzespar: how light that enters tinted silicone leaves it again, for C.
 *
 * A table has one row for each of n albedos and one column for each of m radii. `gauzespar_start` makes one with no row built,
 * `gauzespar_build` builds a row, and three queries read it: `gauzespar_sr`, `gauzespar_pdf_sr` and `gauzespar_sample_sr`. A query
  * needs only some of the rows. If one of these is not built it is refused, with 11 unless an earlier check refuses it; if they are,
 * no other row has a part in what it answers. It never makes do with rows that merely stand close.
 *
 *     struct gauzespar_table t = {100, 64, 0.0f, 1.33f, rho, radii, profile, effective, cdf, marks};
 *     struct gauzespar_coefficients tint = {{0.032f, 0.17f, 0.48f}, {0.74f, 0.88f, 1.01f}};
 *     float rgb[3];
 *     uint32_t refused = gauzespar_table_start(&t);
 *     if (refused == 0)
 *         refused = gauzespar_table_ensure_rows(&t, &tint);
 *     if (refused == 0)
 *         refused = gauzespar_table_sr(&t, &tint, 1.0f, rgb);
 *     if (refused != 0)
 *         fprintf(stderr, "refused: %s\n", gauzespar_message(refused));
 *
 * Every function returns 0 if it gave a value, which is then in its outputs, or the number of a refusal, and then nothing was
 * written anywhere. Nothing is allocated, kept or shared between calls, so that threads may query one table at once; while one
 * thread starts or builds a table no other may use it.
 *
 * Any numbers, any contents of lists and any lengths may be passed: the calls check them. What C has to see to itself:
 *   - a pointer is not null and has as many elements as the length after it says, or the lengths that `struct gauzespar_table` names;
 *   - a list that a call writes overlaps no other list of that call;
 *   - the rounding mode is to nearest, and subnormal numbers are not flushed to zero: that is how every C program starts, if it is
 *     not built with -ffast-math or the like.
 *
 * Link with crates/gauzespar/out/libgauzespar.a, which `rt lib` in crates/gauzespar makes. It needs no other library.
 */
#ifndef GAUZESPAR_H
#define GAUZESPAR_H

#include <math.h>
#include <stddef.h>
#include <stdint.h>

#ifdef __cplusplus
extern "C" {
#endif

/* ---- what a call returns: 0, or the number of the first of these that applies ---- */

enum gauzespar_number {
    GAUZESPAR_DONE = 0,          /* the call gave its value, or did what it says */
    GAUZESPAR_ROWS = 1,          /* n, or the number of nodes of the only or the first node list, is below 2 or above 128 */
    GAUZESPAR_RADII = 2,         /* m, or the number of nodes of the second node list, is below 2 or above 64 */
    GAUZESPAR_G = 3,             /* g is NaN or not between -1 and 1 (neither of which it may be) */
    GAUZESPAR_ETA = 4,           /* eta is NaN or outside 1 to 2 */
    GAUZESPAR_LENGTH = 5,        /* a list has another length than n and m, the nodes or its value ask for */
    GAUZESPAR_NODES = 6,         /* nodes are not all finite, or not strictly increasing, or the last minus the first overflows */
    GAUZESPAR_ROW = 7,           /* the row number is n or more: rows count from 0 */
    GAUZESPAR_COEFFICIENTS = 8,  /* a coefficient is negative (-0 is not), NaN or infinite, or the sum of a channel's two is infinite */
    GAUZESPAR_ARGUMENT = 9,      /* u is NaN or outside 0 to 1; the cosine is NaN */
    GAUZESPAR_ALLOWANCE = 10,    /* the allowance is outside 1 to 1,000 */
    GAUZESPAR_ROW_MISSING = 11,  /* a row that the query needs is not built */
    GAUZESPAR_NOT_A_NUMBER = 12, /* a channel of the radiance is NaN, as where sigma_t squared overflows and meets 0 */
    GAUZESPAR_EXHAUSTED = 13,    /* the draw used up its allowance of rounds */
    GAUZESPAR_CHANNEL = 100      /* the channel is not 0, 1 or 2; this is looked at before all else */
};

enum gauzespar_channel { GAUZESPAR_RED = 0, GAUZESPAR_GREEN = 1, GAUZESPAR_BLUE = 2 };

enum gauzespar_limit {
    GAUZESPAR_MIN_NODES = 2,        /* the fewest rows, radii or nodes */
    GAUZESPAR_MAX_ROWS = 128,       /* the most rows, and the most nodes of a list on its own */
    GAUZESPAR_MAX_RADII = 64,       /* the most radii */
    GAUZESPAR_MAX_ALLOWANCE = 1000  /* the most rounds that a draw may be allowed */
};

/* What a number means, in English. */
static inline const char *gauzespar_message(uint32_t number)
{
    switch (number) {
    case GAUZESPAR_DONE: return "done";
    case GAUZESPAR_ROWS: return "the number of rows or nodes is outside 2 to 128";
    case GAUZESPAR_RADII: return "the number of radii is outside 2 to 64";
    case GAUZESPAR_G: return "g is not between -1 and 1";
    case GAUZESPAR_ETA: return "the index of refraction is outside 1 to 2";
    case GAUZESPAR_LENGTH: return "a list has the wrong length";
    case GAUZESPAR_NODES: return "nodes are not finite and strictly increasing";
    case GAUZESPAR_ROW: return "there is no such row";
    case GAUZESPAR_COEFFICIENTS: return "a coefficient, or the sum of a channel's two, is negative or not finite";
    case GAUZESPAR_ARGUMENT: return "u is outside 0 to 1, or the cosine is NaN";
    case GAUZESPAR_ALLOWANCE: return "the allowance is outside 1 to 1,000";
    case GAUZESPAR_ROW_MISSING: return "a needed row is not built";
    case GAUZESPAR_NOT_A_NUMBER: return "the radiance is NaN in a channel";
    case GAUZESPAR_EXHAUSTED: return "the draw used up its allowance of rounds";
    case GAUZESPAR_CHANNEL: return "the channel is not 0, 1 or 2";
    default: return "no number of Gauzespar's";
    }
}

/* ---- a table ----
 *
 * n albedos and m radii, the phase function's g (0 scatters evenly, above 0 forward) and the index of refraction eta; and six lists
 * that are the caller's own. Only gauzespar_start and gauzespar_build write them. A mark of 1 says that its row is built. */

/* Starts a table, whatever its lists hold: sets the nodes, and zeroes the rest, so that no row is built. Refusals: 1 to 5.
 * Where these calls alone have written its lists, no later build or query with the same n, m, g and eta, on lists and outputs of
 * their lengths, is refused with 1 to 6. */
uint32_t gauzespar_start(size_t n, size_t m, float g, float eta,
                         float *rho_samples, size_t rho_samples_length,       /* n albedo nodes */
                         float *radius_samples, size_t radius_samples_length, /* m radius nodes */
                         float *profile, size_t profile_length,               /* n rows of m */
                         float *rho_eff, size_t rho_eff_length,               /* n effective albedos */
                         float *profile_cdf, size_t profile_cdf_length,       /* n rows of m */
                         uint8_t *marks, size_t marks_length);                /* n marks */

/* Builds a row: its m places of the profile and of the CDF, its effective albedo, and its mark, which becomes 1. No other place
 * of any list changes. Refusals: 1 to 7. */
uint32_t gauzespar_build(size_t n, size_t m, float g, float eta, size_t row,
                         const float *rho_samples, size_t rho_samples_length,
                         const float *radius_samples, size_t radius_samples_length,
                         float *profile, size_t profile_length,
                         float *rho_eff, size_t rho_eff_length,
                         float *profile_cdf, size_t profile_cdf_length,
                         uint8_t *marks, size_t marks_length);

/* ---- queries ----
 *
 * The coefficients are absorption (sigma_a) and scattering (sigma_s) in red, green and blue, in 1 over the unit of the radius. */

/* The radiance that leaves at a radius from where light entered: radiance[0] to [2] are red, green and blue.
 * Refusals: 1 to 6, 8, 11, 12. */
uint32_t gauzespar_sr(size_t n, size_t m, float g, float eta,
                      const float *rho_samples, size_t rho_samples_length,
                      const float *radius_samples, size_t radius_samples_length,
                      const float *profile, size_t profile_length,
                      const float *rho_eff, size_t rho_eff_length,
                      const float *profile_cdf, size_t profile_cdf_length,
                      const uint8_t *marks, size_t marks_length,
                      float sigma_a_r, float sigma_a_g, float sigma_a_b,
                      float sigma_s_r, float sigma_s_g, float sigma_s_b,
                      float radius,
                      float *radiance, size_t radiance_length);               /* 3 */

/* The density, by area, with which gauzespar_sample_sr draws a radius in one channel: 2 pi times the radius times density[0] is that
 * of the radius itself. Refusals: 1 to 6, 8, 11, 100. */
uint32_t gauzespar_pdf_sr(size_t n, size_t m, float g, float eta,
                          const float *rho_samples, size_t rho_samples_length,
                          const float *radius_samples, size_t radius_samples_length,
                          const float *profile, size_t profile_length,
                          const float *rho_eff, size_t rho_eff_length,
                          const float *profile_cdf, size_t profile_cdf_length,
                          const uint8_t *marks, size_t marks_length,
                          uint32_t channel,
                          float sigma_a_r, float sigma_a_g, float sigma_a_b,
                          float sigma_s_r, float sigma_s_g, float sigma_s_b,
                          float radius,
                          float *density, size_t density_length);             /* 1 */

/* Draws a radius in one channel, by u from 0 to 1, in at most `allowance` rounds: drawn[0] is the radius, or -1 where the channel
 * neither absorbs nor scatters, and rounds[0] the rounds made. Refusals: 1 to 6, 8 to 11, 13, 100. */
uint32_t gauzespar_sample_sr(size_t n, size_t m, float g, float eta,
                             const float *rho_samples, size_t rho_samples_length,
                             const float *radius_samples, size_t radius_samples_length,
                             const float *profile, size_t profile_length,
                             const float *rho_eff, size_t rho_eff_length,
                             const float *profile_cdf, size_t profile_cdf_length,
                             const uint8_t *marks, size_t marks_length,
                             uint32_t channel,
                             float sigma_a_r, float sigma_a_g, float sigma_a_b,
                             float sigma_s_r, float sigma_s_g, float sigma_s_b,
                             float u, uint32_t allowance,
                             float *drawn, size_t drawn_length,               /* 1 */
                             uint32_t *rounds, size_t rounds_length);         /* 1 */

/* ---- the Fresnel term ---- */

/* The Fresnel term at the cosine of a direction: three equal values. Refusals: 4, 5, 9. */
uint32_t gauzespar_sw(float eta, float cosine, float *spectrum, size_t spectrum_length); /* 3 */

/* ---- splines over a caller's own lists ---- */

/* The weights of Catmull-Rom interpolation at x. inside[0] is 1 if x lies within the nodes: then a value at x is the sum of weights[k]
 * times the value at node offset[0] + k, for k from 0 to 3. A weight whose node does not exist is zero. inside[0] is 0 if x lies
 * outside or is NaN, and then offset and weights are left alone. Refusals: 1, 5, 6. */
uint32_t gauzespar_weights(const float *nodes, size_t nodes_length, float x,
                           uint8_t *inside, size_t inside_length,             /* 1 */
                           int32_t *offset, size_t offset_length,             /* 1 */
                           float *weights, size_t weights_length);            /* 4 */

/* The integral of the spline through the values at the nodes: sum[0], and its running sum up to each node in cdf, which is as long as
 * the nodes. Refusals: 1, 5, 6. */
uint32_t gauzespar_integrate(const float *nodes, size_t nodes_length,
                             const float *values, size_t values_length,
                             float *cdf, size_t cdf_length,
                             float *sum, size_t sum_length);                  /* 1 */

/* A draw from a table of values over two node lists, with the integrals of its rows in cdf: alpha picks the rows that are blended, u the
 * place. sample[0] is the position, sample[1] the value there, sample[2] the density; rounds[0] the rounds made, at least one. Where
 * alpha lies outside the first nodes or is NaN, sample[0] and rounds[0] are 0, and sample[1] and sample[2] are left alone.
 * Refusals: 1, 2, 5, 6, 9, 10, 13. */
uint32_t gauzespar_sample_2d(const float *nodes1, size_t nodes1_length,
                             const float *nodes2, size_t nodes2_length,
                             const float *values, size_t values_length,
                             const float *cdf, size_t cdf_length,
                             float alpha, float u, uint32_t allowance,
                             float *sample, size_t sample_length,             /* 3 */
                             uint32_t *rounds, size_t rounds_length);         /* 1 */

/* ---- the same on a struct, which is shorter to write ---- */

/* A table whose lists have the lengths that n and m ask for. The lists are the caller's; if they come from malloc, sizes out of
 * range are refused by every call before a list is touched. */
struct gauzespar_table {
    size_t n, m;
    float g, eta;
    float *rho_samples;    /* n */
    float *radius_samples; /* m */
    float *profile;        /* n * m */
    float *rho_eff;        /* n */
    float *profile_cdf;    /* n * m */
    uint8_t *marks;        /* n */
};

struct gauzespar_coefficients {
    float sigma_a[3], sigma_s[3];
};

static inline uint32_t gauzespar_table_start(struct gauzespar_table *t)
{
    return gauzespar_start(t->n, t->m, t->g, t->eta, t->rho_samples, t->n, t->radius_samples, t->m, t->profile, t->n * t->m,
                           t->rho_eff, t->n, t->profile_cdf, t->n * t->m, t->marks, t->n);
}

static inline uint32_t gauzespar_table_build(struct gauzespar_table *t, size_t row)
{
    return gauzespar_build(t->n, t->m, t->g, t->eta, row, t->rho_samples, t->n, t->radius_samples, t->m, t->profile, t->n * t->m,
                           t->rho_eff, t->n, t->profile_cdf, t->n * t->m, t->marks, t->n);
}

static inline uint32_t gauzespar_table_sr(const struct gauzespar_table *t, const struct gauzespar_coefficients *c, float radius,
                                          float radiance[3])
{
    return gauzespar_sr(t->n, t->m, t->g, t->eta, t->rho_samples, t->n, t->radius_samples, t->m, t->profile, t->n * t->m,
                        t->rho_eff, t->n, t->profile_cdf, t->n * t->m, t->marks, t->n, c->sigma_a[0], c->sigma_a[1],
                        c->sigma_a[2], c->sigma_s[0], c->sigma_s[1], c->sigma_s[2], radius, radiance, 3);
}

static inline uint32_t gauzespar_table_pdf_sr(const struct gauzespar_table *t, uint32_t channel,
                                              const struct gauzespar_coefficients *c, float radius, float *density)
{
    return gauzespar_pdf_sr(t->n, t->m, t->g, t->eta, t->rho_samples, t->n, t->radius_samples, t->m, t->profile, t->n * t->m,
                            t->rho_eff, t->n, t->profile_cdf, t->n * t->m, t->marks, t->n, channel, c->sigma_a[0],
                            c->sigma_a[1], c->sigma_a[2], c->sigma_s[0], c->sigma_s[1], c->sigma_s[2], radius, density, 1);
}

static inline uint32_t gauzespar_table_sample_sr(const struct gauzespar_table *t, uint32_t channel,
                                                 const struct gauzespar_coefficients *c, float u, uint32_t allowance,
                                                 float *drawn, uint32_t *rounds)
{
    return gauzespar_sample_sr(t->n, t->m, t->g, t->eta, t->rho_samples, t->n, t->radius_samples, t->m, t->profile, t->n * t->m,
                               t->rho_eff, t->n, t->profile_cdf, t->n * t->m, t->marks, t->n, channel, c->sigma_a[0],
                               c->sigma_a[1], c->sigma_a[2], c->sigma_s[0], c->sigma_s[1], c->sigma_s[2], u, allowance, drawn, 1,
                               rounds, 1);
}

/* Builds the rows of nonzero weight at one albedo that are not built yet. Refusals: 1, 6; those of gauzespar_build. */
static inline uint32_t gauzespar_table_ensure_albedo(struct gauzespar_table *t, float albedo)
{
    uint8_t inside = 0;
    int32_t offset = 0;
    float weights[4] = {0, 0, 0, 0};
    uint32_t refused = gauzespar_weights(t->rho_samples, t->n, albedo, &inside, 1, &offset, 1, weights, 4);
    for (int32_t k = 0; refused == 0 && inside == 1 && k < 4; k++)
        if (weights[k] != 0 && t->marks[offset + k] != 1)
            refused = gauzespar_table_build(t, (size_t)(offset + k));
    return refused;
}

/* Builds just the rows that queries with these coefficients need and that are not built yet: those of nonzero weight at the albedo of
 * each channel, which is sigma_s / (sigma_a + sigma_s), or 0 where both are 0. Refusals: 1 to 6, 8. */
static inline uint32_t gauzespar_table_ensure_rows(struct gauzespar_table *t, const struct gauzespar_coefficients *c)
{
    float density;
    /* At a radius that is NaN a query needs no row: it makes the checks alone. */
    uint32_t refused = gauzespar_table_pdf_sr(t, GAUZESPAR_RED, c, NAN, &density);
    for (int k = 0; refused == 0 && k < 3; k++) {
        float sigma_t = c->sigma_a[k] + c->sigma_s[k];
        refused = gauzespar_table_ensure_albedo(t, sigma_t == 0 ? 0 : c->sigma_s[k] / sigma_t);
    }
    return refused;
}

#ifdef __cplusplus
}
#endif

#endif
