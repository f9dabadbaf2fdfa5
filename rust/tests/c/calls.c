/* Calls every function of include/gauzespar.h, with known values and with every refusal. Says what failed, and ends with 1 if
 * anything did. */
#include "gauzespar.h"

#include <math.h>
#include <stdio.h>
#include <string.h>

static int failures;

static void require(int holds, const char *what, int line)
{
    if (!holds) {
        printf("line %d: %s\n", line, what);
        failures++;
    }
}

#define REQUIRE(condition) require((condition), #condition, __LINE__)

static int same(float a, float b)
{
    return memcmp(&a, &b, sizeof a) == 0;
}

/* ---- everything that the calls on a table are given ---- */

struct given {
    size_t n, m;
    float g, eta;
    size_t row;
    float rho_samples[4], radius_samples[4], profile[8], rho_eff[4], profile_cdf[8];
    uint8_t marks[4];
    size_t lengths[6];
    uint32_t channel;
    struct gauzespar_coefficients tint;
    float radius, u;
    uint32_t allowance;
    float values[4];
    uint32_t rounds[2];
    size_t longer[2]; /* by how much the first and the second output are too long */
};

#define LISTS(t)                                                                                                              \
    (t)->rho_samples, (t)->lengths[0], (t)->radius_samples, (t)->lengths[1], (t)->profile, (t)->lengths[2], (t)->rho_eff,     \
        (t)->lengths[3], (t)->profile_cdf, (t)->lengths[4], (t)->marks, (t)->lengths[5]
#define RECORD(t) (t)->n, (t)->m, (t)->g, (t)->eta
#define TINT(t)                                                                                                               \
    (t)->tint.sigma_a[0], (t)->tint.sigma_a[1], (t)->tint.sigma_a[2], (t)->tint.sigma_s[0], (t)->tint.sigma_s[1],             \
        (t)->tint.sigma_s[2]

/* Nothing is refused: two rows of three radii, with a profile of zeros under a CDF that rises, from which a draw takes 21 rounds. */
static const struct given ACCEPTED = {
    .n = 2,
    .m = 3,
    .eta = 1.5f,
    .row = 1,
    .rho_samples = {0, 1},
    .radius_samples = {0, 1, 2},
    .profile_cdf = {0, 1, 2, 0, 0, 0},
    .marks = {1, 1},
    .lengths = {2, 3, 6, 2, 6, 2},
    .tint = {{1, 1, 1}, {0, 0, 0}},
    .radius = 1,
    .u = 0.75f,
    .allowance = 21,
    .values = {7, 7, 7, 7},
    .rounds = {7, 7},
};

static uint32_t call_start(struct given *t)
{
    return gauzespar_start(RECORD(t), LISTS(t));
}

static uint32_t call_build(struct given *t)
{
    return gauzespar_build(RECORD(t), t->row, LISTS(t));
}

static uint32_t call_sr(struct given *t)
{
    return gauzespar_sr(RECORD(t), LISTS(t), TINT(t), t->radius, t->values, 3 + t->longer[0]);
}

static uint32_t call_pdf_sr(struct given *t)
{
    return gauzespar_pdf_sr(RECORD(t), LISTS(t), t->channel, TINT(t), t->radius, t->values, 1 + t->longer[0]);
}

static uint32_t call_sample_sr(struct given *t)
{
    return gauzespar_sample_sr(RECORD(t), LISTS(t), t->channel, TINT(t), t->u, t->allowance, t->values, 1 + t->longer[0],
                               t->rounds, 1 + t->longer[1]);
}

struct call {
    const char *name;
    uint32_t (*make)(struct given *);
    size_t outputs;
    uint32_t numbers[13]; /* what it can be refused with, and then 0 */
};

static const struct call CALLS[] = {
    {"start", call_start, 0, {1, 2, 3, 4, 5}},
    {"build", call_build, 0, {1, 2, 3, 4, 5, 6, 7}},
    {"sr", call_sr, 1, {1, 2, 3, 4, 5, 6, 8, 11, 12}},
    {"pdf_sr", call_pdf_sr, 1, {100, 1, 2, 3, 4, 5, 6, 8, 11}},
    {"sample_sr", call_sample_sr, 2, {100, 1, 2, 3, 4, 5, 6, 8, 9, 10, 11, 13}},
};

/* Makes one thing wrong, whatever is wrong beside it. */
static void spoil(struct given *t, uint32_t number)
{
    switch (number) {
    case GAUZESPAR_ROWS: t->n = 129; break;
    case GAUZESPAR_RADII: t->m = 1; break;
    case GAUZESPAR_G: t->g = -1; break;
    case GAUZESPAR_ETA: t->eta = 2.5f; break;
    case GAUZESPAR_LENGTH: t->lengths[4] = 7; break;
    case GAUZESPAR_NODES: t->radius_samples[2] = 1; break;
    case GAUZESPAR_ROW: t->row = 2; break;
    case GAUZESPAR_COEFFICIENTS: t->tint.sigma_s[2] = NAN; break;
    case GAUZESPAR_ARGUMENT: t->u = -1; break;
    case GAUZESPAR_ALLOWANCE: t->allowance = GAUZESPAR_MAX_ALLOWANCE + 1; break;
    case GAUZESPAR_ROW_MISSING: t->marks[0] = 255; break;
    case GAUZESPAR_NOT_A_NUMBER: t->tint.sigma_a[1] = 1e30f; break;
    case GAUZESPAR_EXHAUSTED: t->allowance = t->allowance == 21 ? 20 : t->allowance; break;
    case GAUZESPAR_CHANNEL: t->channel = 3; break;
    }
}

/* Requires this number, and of a refused call that it wrote nothing. */
static void expect(const struct call *call, const struct given *given, uint32_t number)
{
    struct given after;
    memcpy(&after, given, sizeof after);
    uint32_t answered = call->make(&after);
    if (answered != number) {
        printf("%s: %u (%s), and not %u (%s)\n", call->name, (unsigned)answered, gauzespar_message(answered), (unsigned)number,
               gauzespar_message(number));
        failures++;
    }
    if (number != 0 && memcmp(&after, given, sizeof after) != 0) {
        printf("%s: wrote though it was refused with %u\n", call->name, (unsigned)number);
        failures++;
    }
}

/* One thing wrong, or two, of which the first is told. */
static void refusals_of(const struct call *call)
{
    expect(call, &ACCEPTED, 0);
    for (const uint32_t *first = call->numbers; *first != 0; first++) {
        struct given one = ACCEPTED;
        spoil(&one, *first);
        expect(call, &one, *first);
        for (const uint32_t *second = first + 1; *second != 0; second++) {
            struct given two = ACCEPTED;
            spoil(&two, *second);
            spoil(&two, *first);
            expect(call, &two, *first);
        }
    }
}

/* Each list, and each output, one too long and one too short. */
static void lengths_of(const struct call *call)
{
    static const size_t BY[2] = {1, (size_t)-1};
    for (size_t k = 0; k < 2; k++) {
        for (size_t list = 0; list < 6; list++) {
            struct given t = ACCEPTED;
            t.lengths[list] += BY[k];
            expect(call, &t, GAUZESPAR_LENGTH);
        }
        for (size_t output = 0; output < call->outputs; output++) {
            struct given t = ACCEPTED;
            t.longer[output] = BY[k];
            expect(call, &t, GAUZESPAR_LENGTH);
            spoil(&t, GAUZESPAR_NODES);
            expect(call, &t, GAUZESPAR_LENGTH);
            spoil(&t, GAUZESPAR_ETA);
            expect(call, &t, GAUZESPAR_ETA);
        }
    }
}

/* ---- known values ---- */

static float rho[128], radii[64], profile[128 * 64], effective[128], cdf[128 * 64];
static uint8_t marks[128];

static struct gauzespar_table table_of(size_t n, size_t m)
{
    struct gauzespar_table t = {n, m, 0.0f, 1.33f, rho, radii, profile, effective, cdf, marks};
    return t;
}

/* A table of 100 albedos by 64 radii, and a tint that needs twelve rows. */
static void a_large_table(void)
{
    struct gauzespar_table t = table_of(100, 64);
    struct gauzespar_coefficients tint = {{0.032f, 0.17f, 0.48f}, {0.74f, 0.88f, 1.01f}};
    static const size_t NEEDED[12] = {13, 14, 15, 16, 21, 22, 23, 24, 38, 39, 40, 41};
    float rgb[3] = {7, 7, 7}, drawn = 7;
    uint32_t rounds = 7;
    REQUIRE(gauzespar_table_start(&t) == GAUZESPAR_DONE);
    REQUIRE(gauzespar_table_build(&t, 50) == GAUZESPAR_DONE);
    REQUIRE(gauzespar_table_build(&t, 100) == GAUZESPAR_ROW);
    REQUIRE(same(rho[50], 0.9827393f) && same(effective[50], 0.59250236f) && marks[50] == 1);
    for (size_t k = 0; k < 12; k++) {
        REQUIRE(gauzespar_table_sr(&t, &tint, 1.0f, rgb) == GAUZESPAR_ROW_MISSING);
        REQUIRE(gauzespar_table_build(&t, NEEDED[k]) == GAUZESPAR_DONE);
    }
    REQUIRE(same(rgb[0], 7) && same(rgb[1], 7) && same(rgb[2], 7));
    REQUIRE(gauzespar_table_sr(&t, &tint, 1.0f, rgb) == GAUZESPAR_DONE);
    REQUIRE(same(rgb[0], 0.015957786f) && same(rgb[1], 0.010558161f) && same(rgb[2], 0.004966334f));
    REQUIRE(gauzespar_table_sample_sr(&t, GAUZESPAR_RED, &tint, 0.5f, 2, &drawn, &rounds) == GAUZESPAR_DONE);
    REQUIRE(same(drawn, 1.9426361f) && rounds == 2);
    REQUIRE(gauzespar_table_sample_sr(&t, GAUZESPAR_RED, &tint, 0.5f, 1, &drawn, &rounds) == GAUZESPAR_EXHAUSTED);
    REQUIRE(gauzespar_table_sample_sr(&t, 3, &tint, 0.5f, 2, &drawn, &rounds) == GAUZESPAR_CHANNEL);
}

/* The same tint, with just the rows that it needs. */
static void just_the_needed_rows(void)
{
    struct gauzespar_table t = table_of(100, 64);
    struct gauzespar_coefficients tint = {{0.032f, 0.17f, 0.48f}, {0.74f, 0.88f, 1.01f}}, clear = {{0, 0, 0}, {0, 0, 0}};
    struct gauzespar_coefficients bad = {{0.032f, 0.17f, -0.48f}, {0.74f, 0.88f, 1.01f}};
    float rgb[3];
    REQUIRE(gauzespar_table_start(&t) == GAUZESPAR_DONE);
    REQUIRE(gauzespar_table_ensure_rows(&t, &bad) == GAUZESPAR_COEFFICIENTS);
    for (size_t row = 0; row < 100; row++)
        REQUIRE(marks[row] == 0);
    REQUIRE(gauzespar_table_ensure_rows(&t, &tint) == GAUZESPAR_DONE);
    for (size_t row = 0; row < 100; row++)
        REQUIRE(marks[row] == ((row >= 13 && row <= 16) || (row >= 21 && row <= 24) || (row >= 38 && row <= 41)));
    REQUIRE(gauzespar_table_sr(&t, &tint, 1.0f, rgb) == GAUZESPAR_DONE);
    REQUIRE(same(rgb[0], 0.015957786f) && same(rgb[1], 0.010558161f) && same(rgb[2], 0.004966334f));
    effective[13] = 7;
    REQUIRE(gauzespar_table_ensure_rows(&t, &tint) == GAUZESPAR_DONE && same(effective[13], 7));
    REQUIRE(gauzespar_table_ensure_rows(&t, &clear) == GAUZESPAR_DONE && marks[0] == 1 && marks[1] == 0);
    t.m = 65;
    REQUIRE(gauzespar_table_ensure_rows(&t, &tint) == GAUZESPAR_RADII);
}

/* Three rows, of which only row 2 is built: albedo 1 needs that alone, albedo 0.5 needs all. */
static void a_small_table(void)
{
    struct gauzespar_table t = table_of(3, 2);
    struct gauzespar_coefficients one = {{0, 0, 0}, {1, 1, 1}}, half = {{1, 1, 1}, {1, 1, 1}}, clear = {{0, 0, 0}, {0, 0, 0}};
    float density = 7, drawn = 7, expected;
    uint32_t rounds = 7, bits = 0x4746f195;
    memcpy(&expected, &bits, sizeof expected);
    REQUIRE(gauzespar_table_start(&t) == GAUZESPAR_DONE);
    REQUIRE(gauzespar_table_build(&t, 2) == GAUZESPAR_DONE);
    for (uint32_t channel = GAUZESPAR_RED; channel <= GAUZESPAR_BLUE; channel++) {
        density = 7;
        REQUIRE(gauzespar_table_pdf_sr(&t, channel, &half, 0.001f, &density) == GAUZESPAR_ROW_MISSING);
        REQUIRE(same(density, 7));
        REQUIRE(gauzespar_table_pdf_sr(&t, channel, &one, 0.001f, &density) == GAUZESPAR_DONE);
        REQUIRE(same(density, expected));
        REQUIRE(gauzespar_table_sample_sr(&t, channel, &clear, 0.5f, 1, &drawn, &rounds) == GAUZESPAR_DONE);
        REQUIRE(same(drawn, -1) && rounds == 0);
    }
    REQUIRE(gauzespar_table_pdf_sr(&t, 3, &one, 0.001f, &density) == GAUZESPAR_CHANNEL);
    t.n = (size_t)-1;
    REQUIRE(gauzespar_table_start(&t) == GAUZESPAR_ROWS);
}

static void the_fresnel_term(void)
{
    float s[4] = {7, 7, 7, 7};
    REQUIRE(gauzespar_sw(0.9f, 1.0f, s, 3) == GAUZESPAR_ETA);
    REQUIRE(gauzespar_sw(0.9f, NAN, s, 4) == GAUZESPAR_ETA);
    REQUIRE(gauzespar_sw(1.33f, NAN, s, 4) == GAUZESPAR_LENGTH);
    REQUIRE(gauzespar_sw(1.33f, 1.0f, s, 2) == GAUZESPAR_LENGTH);
    REQUIRE(gauzespar_sw(1.33f, NAN, s, 3) == GAUZESPAR_ARGUMENT);
    REQUIRE(same(s[0], 7) && same(s[1], 7) && same(s[2], 7));
    REQUIRE(gauzespar_sw(1.33f, 1.0f, s, 3) == GAUZESPAR_DONE);
    REQUIRE(same(s[0], 0.33393589f) && same(s[1], 0.33393589f) && same(s[2], 0.33393589f) && same(s[3], 7));
}

/* ---- splines ---- */

static const float NODES[3] = {0, 1, 2}, FALLING[3] = {2, 1, 0};

static void weights(void)
{
    uint8_t inside[2] = {7, 7};
    int32_t offset[2] = {7, 7};
    float w[5] = {7, 7, 7, 7, 7};
    REQUIRE(gauzespar_weights(NODES, 1, 0.5f, inside, 2, offset, 1, w, 4) == GAUZESPAR_ROWS);
    REQUIRE(gauzespar_weights(FALLING, 3, 0.5f, inside, 2, offset, 1, w, 4) == GAUZESPAR_LENGTH);
    REQUIRE(gauzespar_weights(NODES, 3, 0.5f, inside, 1, offset, 0, w, 4) == GAUZESPAR_LENGTH);
    REQUIRE(gauzespar_weights(NODES, 3, 0.5f, inside, 1, offset, 1, w, 5) == GAUZESPAR_LENGTH);
    REQUIRE(gauzespar_weights(FALLING, 3, 0.5f, inside, 1, offset, 1, w, 4) == GAUZESPAR_NODES);
    REQUIRE(inside[0] == 7 && offset[0] == 7 && same(w[0], 7) && same(w[3], 7));
    REQUIRE(gauzespar_weights(NODES, 3, 2.5f, inside, 1, offset, 1, w, 4) == GAUZESPAR_DONE);
    REQUIRE(inside[0] == 0 && offset[0] == 7 && same(w[0], 7) && same(w[1], 7) && same(w[2], 7) && same(w[3], 7));
    REQUIRE(gauzespar_weights(NODES, 3, 0.5f, inside, 1, offset, 1, w, 4) == GAUZESPAR_DONE);
    REQUIRE(inside[0] == 1 && offset[0] == -1);
    REQUIRE(same(w[0], 0) && same(w[1], 0.4375f) && same(w[2], 0.625f) && same(w[3], -0.0625f));
    REQUIRE(gauzespar_weights(NODES, 3, 1.0f, inside, 1, offset, 1, w, 4) == GAUZESPAR_DONE);
    REQUIRE(offset[0] == 0 && same(w[0], -0.0f) && same(w[1], 1) && same(w[2], 0) && same(w[3], 0));
    REQUIRE(inside[1] == 7 && offset[1] == 7 && same(w[4], 7));
}

static void integrals(void)
{
    static const float VALUES[3] = {0, 2, 4};
    float running[4] = {7, 7, 7, 7}, sum[2] = {7, 7};
    REQUIRE(gauzespar_integrate(NODES, 0, VALUES, 3, running, 3, sum, 2) == GAUZESPAR_ROWS);
    REQUIRE(gauzespar_integrate(FALLING, 3, VALUES, 3, running, 3, sum, 2) == GAUZESPAR_LENGTH);
    REQUIRE(gauzespar_integrate(NODES, 3, VALUES, 2, running, 3, sum, 1) == GAUZESPAR_LENGTH);
    REQUIRE(gauzespar_integrate(NODES, 3, VALUES, 3, running, 4, sum, 1) == GAUZESPAR_LENGTH);
    REQUIRE(gauzespar_integrate(FALLING, 3, VALUES, 3, running, 3, sum, 1) == GAUZESPAR_NODES);
    REQUIRE(same(running[0], 7) && same(running[1], 7) && same(running[2], 7) && same(sum[0], 7));
    REQUIRE(gauzespar_integrate(NODES, 3, VALUES, 3, running, 3, sum, 1) == GAUZESPAR_DONE);
    REQUIRE(same(running[0], 0) && same(running[1], 1) && same(running[2], 4) && same(sum[0], 4));
    REQUIRE(same(running[3], 7) && same(sum[1], 7));
}

static const float ROWS[2] = {0, 1}, ONES[6] = {1, 1, 1, 0, 0, 0}, ZEROS[6], CDF[6] = {0, 1, 2, 0, 0, 0};

static void refused_samples(void)
{
    float s[4] = {7, 7, 7, 7};
    uint32_t r[2] = {7, 7};
    REQUIRE(gauzespar_sample_2d(ROWS, 1, NODES, 3, ONES, 6, CDF, 6, 0, 0.75f, 1, s, 4, r, 1) == GAUZESPAR_ROWS);
    REQUIRE(gauzespar_sample_2d(ROWS, 2, NODES, 1, ONES, 6, CDF, 6, 0, 0.75f, 1, s, 4, r, 1) == GAUZESPAR_RADII);
    REQUIRE(gauzespar_sample_2d(ROWS, 2, FALLING, 3, ONES, 6, CDF, 6, 0, 0.75f, 1, s, 4, r, 1) == GAUZESPAR_LENGTH);
    REQUIRE(gauzespar_sample_2d(ROWS, 2, NODES, 3, ONES, 6, CDF, 6, 0, 0.75f, 1, s, 3, r, 2) == GAUZESPAR_LENGTH);
    REQUIRE(gauzespar_sample_2d(ROWS, 2, NODES, 3, ONES, 5, CDF, 6, 0, 0.75f, 1, s, 3, r, 1) == GAUZESPAR_LENGTH);
    REQUIRE(gauzespar_sample_2d(ROWS, 2, NODES, 3, ONES, 6, CDF, 5, 0, 0.75f, 1, s, 3, r, 1) == GAUZESPAR_LENGTH);
    REQUIRE(gauzespar_sample_2d(ROWS, 2, FALLING, 3, ONES, 6, CDF, 6, 0, 2, 1, s, 3, r, 1) == GAUZESPAR_NODES);
    REQUIRE(gauzespar_sample_2d(ROWS, 2, NODES, 3, ONES, 6, CDF, 6, 0, 2, 0, s, 3, r, 1) == GAUZESPAR_ARGUMENT);
    REQUIRE(gauzespar_sample_2d(ROWS, 2, NODES, 3, ONES, 6, CDF, 6, 0, 0.75f, 0, s, 3, r, 1) == GAUZESPAR_ALLOWANCE);
    REQUIRE(gauzespar_sample_2d(ROWS, 2, NODES, 3, ZEROS, 6, CDF, 6, 0, 0.75f, 20, s, 3, r, 1) == GAUZESPAR_EXHAUSTED);
    REQUIRE(same(s[0], 7) && same(s[1], 7) && same(s[2], 7) && r[0] == 7);
}

static void samples(void)
{
    float s[4] = {7, 7, 7, 7};
    uint32_t r[2] = {7, 7};
    REQUIRE(gauzespar_sample_2d(ROWS, 2, NODES, 3, ONES, 6, CDF, 6, 1.5f, 0.75f, 1, s, 3, r, 1) == GAUZESPAR_DONE);
    REQUIRE(same(s[0], 0) && same(s[1], 7) && same(s[2], 7) && r[0] == 0);
    REQUIRE(gauzespar_sample_2d(ROWS, 2, NODES, 3, ONES, 6, CDF, 6, 0, 0.75f, 1, s, 3, r, 1) == GAUZESPAR_DONE);
    REQUIRE(same(s[0], 1.5f) && same(s[1], 1) && same(s[2], 0.5f) && r[0] == 1);
    REQUIRE(gauzespar_sample_2d(ROWS, 2, NODES, 3, ZEROS, 6, CDF, 6, 0, 0.75f, 21, s, 3, r, 1) == GAUZESPAR_DONE);
    REQUIRE(same(s[0], 2 - 1.0f / 2097152) && r[0] == 21);
    REQUIRE(same(s[3], 7) && r[1] == 7);
}

int main(void)
{
    for (size_t k = 0; k < sizeof CALLS / sizeof CALLS[0]; k++) {
        refusals_of(&CALLS[k]);
        lengths_of(&CALLS[k]);
    }
    a_large_table();
    just_the_needed_rows();
    a_small_table();
    the_fresnel_term();
    weights();
    integrals();
    refused_samples();
    samples();
    REQUIRE(strcmp(gauzespar_message(GAUZESPAR_ROW_MISSING), "a needed row is not built") == 0);
    REQUIRE(strcmp(gauzespar_message(14), gauzespar_message(99)) == 0);
    if (failures > 0)
        printf("%d failed\n", failures);
    return failures > 0;
}
