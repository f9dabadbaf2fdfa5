/* What it changes that the book's program is in double precision at two places where the Rust is in binary32: the divisor of the
   albedo nodes, 1 - std::exp(-8) of a whole number, and the first Fresnel moment below 1, from the term on whose coefficient has no
   suffix f; of the calls only `sw` takes it there, at 1 / eta. All else is as the Rust has it (specification, sections 5, 8.2, 8.4
   and 8.9). A distance is in units in the last place, the relative one is to the Rust's value, and an argument is the first with as
   great a distance. */
#include "../elementary/reference.h"
#include <stdio.h>
#include <stdlib.h>

_Static_assert(FLT_EVAL_METHOD == 0, "each operation on floats has to be rounded to binary32");

struct found { unsigned long long pairs, differ; long long most; double relative; float most_at, relative_at; };

/* values that differ are above zero, so that their patterns are in their order */
static void pair(struct found *f, float at, float rust, float book) {
    f->pairs++;
    if (bits_of(rust) == bits_of(book)) return;
    if (!(rust > 0 && book > 0)) printf("not above zero at %.9g: %.9g and %.9g\n", at, rust, book), exit(1);
    long long units = llabs((long long)bits_of(rust) - (long long)bits_of(book));
    double relative = fabs((double)book - (double)rust) / (double)rust;
    f->differ++;
    if (units > f->most) f->most = units, f->most_at = at;
    if (relative > f->relative) f->relative = relative, f->relative_at = at;
}

static void print(const char *name, struct found f) {
    printf("%-32s %10llu values, %llu differ", name, f.pairs, f.differ);
    if (f.differ) printf(", by at most %lld (at %.9g) and relatively %.2g (at %.9g)", f.most, f.most_at, f.relative, f.relative_at);
    printf("\n");
}

/* the albedo nodes of all N from 2 to 128, by an exponential of binary32; that of the book's divisor is the C library's */
static struct found nodes(float (*e)(float)) {
    struct found f = {0};
    for (int n = 2; n <= 128; n++)
        for (int i = 0; i < n; i++) {
            float x = -8.0f * (float)i / ((float)n - 1.0f), above = 1.0f - e(x);
            pair(&f, x, above / (1.0f - e(-8.0f)), (float)((double)above / (1.0 - exp(-8.0))));
        }
    return f;
}

enum whose { RUST, BOOK };

static float moment1(float eta, enum whose whose) {
    float eta2 = eta * eta, eta3 = eta2 * eta, eta4 = eta3 * eta, eta5 = eta4 * eta;
    if (!(eta < 1.0f))
        return -4.61686f + 11.1136f * eta - 10.4646f * eta2 + 5.11455f * eta3 - 1.27198f * eta4 + 0.12746f * eta5;
    float up_to_eta2 = 0.45966f - 1.73965f * eta + 3.37668f * eta2, of_eta4 = 2.49277f * eta4, of_eta5 = 0.68441f * eta5;
    if (whose == RUST) return up_to_eta2 - 3.904945f * eta3 + of_eta4 - of_eta5;
    return (float)((double)up_to_eta2 - 3.904945 * (double)eta3 + (double)of_eta4 - (double)of_eta5);
}

static float fresnel(float cosine, float eta_i, float eta_t) {
    float c = cosine < -1.0f ? -1.0f : cosine > 1.0f ? 1.0f : cosine;
    if (!(c > 0.0f)) {
        float other = eta_i;
        eta_i = eta_t, eta_t = other, c = ref_abs(c);
    }
    float sin_t = eta_i / eta_t * ref_sqrt(ref_max0(1.0f - c * c));
    if (sin_t >= 1.0f) return 1.0f;
    float cos_t = ref_sqrt(ref_max0(1.0f - sin_t * sin_t));
    float parallel = (eta_t * c - eta_i * cos_t) / (eta_t * c + eta_i * cos_t);
    float perpendicular = (eta_i * c - eta_t * cos_t) / (eta_i * c + eta_t * cos_t);
    return (parallel * parallel + perpendicular * perpendicular) / 2.0f;
}

static float sw(float eta, float cosine, enum whose whose) {
    float c = 1.0f - 2.0f * moment1(1.0f / eta, whose);
    return (1.0f - fresnel(cosine, 1.0f, eta)) / (c * float_of(0x40490fdb));
}

/* patterns of one sign are in the order of their values */
static struct found moments(uint32_t from, uint32_t below) {
    struct found f = {0};
    for (uint32_t u = from; u < below; u++) pair(&f, float_of(u), moment1(float_of(u), RUST), moment1(float_of(u), BOOK));
    return f;
}

static struct found terms(float cosine) {
    struct found f = {0};
    for (uint32_t u = 0x3f800000; u <= 0x40000000; u++) pair(&f, float_of(u), sw(float_of(u), cosine, RUST), sw(float_of(u), cosine, BOOK));
    return f;
}

int main(void) {
    print("albedo nodes, by E", nodes(ref_exp));
    print("albedo nodes, by expf", nodes(expf));
    print("fresnel_moment1, 0 up to 1/2", moments(0x00000000, 0x3f000000));
    print("fresnel_moment1, 1/2 up to 1", moments(0x3f000000, 0x3f800000));
    print("sw, eta 1 to 2, cosine 1", terms(1.0f));
    print("sw, eta 1 to 2, cosine 1/2", terms(0.5f));
    return 0;
}
