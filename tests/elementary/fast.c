/* Holds the elementary functions against the C library's in x87 long double, whose 64 binary digits
   leave their own errors far below a double's last place: the promised bounds, errors in units in the
   last place, and the answers that are fixed bit for bit. Usage: fast N SEED */
#include <float.h>
#include <inttypes.h>
#include <math.h>
#include <stdint.h>
#include <stdio.h>
#include <stdlib.h>
#include <string.h>

#if LDBL_MANT_DIG != 64
#error "long double is not that of the x87"
#endif

double elementary_sine(double);
double elementary_cosine(double);
double elementary_log10(double);
double elementary_arctangent(double);

enum { RANGES = 4, NEIGHBOURS = 20, SHOWN = 10, LEAST_BINADE = -1074, LAST_BINADE = 1023 };

/* In units in the last place, for each of the four: measured, not promised. */
#define MOST_UNITS 1.1L
#define HALF_PI 1.57079632679489661923132169163975144L
#define TINY 0x1p-27

/* Arguments from..to with exact values below a size; an argument counts in the first that has it. */
struct range {
    const char *name;
    double from, to;
    long double size;
    uint64_t count;
    long double most_units, most_error;
    double worst;
};

struct function {
    const char *name;
    double (*ours)(double);
    long double (*exact)(long double);
    long double promise;
    int by_argument; /* whether the promise has x as a factor below 1 */
    double last;     /* the greatest finite argument; what is above it or below 0 gives a NaN */
    double (*tiny)(double); /* the answer below 2^-27, where it is fixed */
    struct range ranges[RANGES];
    uint64_t differences;
};

static double itself(double x) { return x; }

static double one(double x) {
    (void)x;
    return 1;
}

#define RANGE(name, from, to, size) {name, from, to, size, 0, 0, 0, 0}
#define CIRCLE_RANGES                                        \
    {RANGE("below 2^-27", 0, TINY, INFINITY),                \
     RANGE("2^-27 to 1", TINY, 1, INFINITY),                 \
     RANGE("1 to 200, result below 2^-10", 1, 201, 0x1p-10L), \
     RANGE("1 to 200, others", 1, 201, INFINITY)}

static struct function sine = {
    "sine", elementary_sine, sinl, 0x1p-40L, 1, 200, itself, CIRCLE_RANGES, 0};
static struct function cosine = {
    "cosine", elementary_cosine, cosl, 0x1p-40L, 0, 200, one, CIRCLE_RANGES, 0};
static struct function log_ten = {
    "log10", elementary_log10, log10l, 0x1p-20L, 0, DBL_MAX, NULL,
    {RANGE("subnormals", 0, DBL_MIN, INFINITY),
     RANGE("2^-1022 to 1/2", DBL_MIN, 0.5, INFINITY),
     RANGE("1/2 to 2", 0.5, 2, INFINITY),
     RANGE("from 2 on", 2, INFINITY, INFINITY)},
    0};
static struct function arctangent = {
    "arctangent", elementary_arctangent, atanl, 0x1p-40L, 0, DBL_MAX, NULL,
    {RANGE("below 2^-27", 0, TINY, INFINITY),
     RANGE("2^-27 to 1", TINY, 1, INFINITY),
     RANGE("1 to 2^20", 1, 0x1p20, INFINITY),
     RANGE("from 2^20 on", 0x1p20, INFINITY, INFINITY)},
    0};
static struct function *const functions[] = {&sine, &cosine, &log_ten, &arctangent};
#define FUNCTIONS (sizeof functions / sizeof functions[0])

static uint64_t arguments;

static uint64_t to_bits(double x) {
    uint64_t bits;
    memcpy(&bits, &x, sizeof bits);
    return bits;
}

static double from_bits(uint64_t bits) {
    double x;
    memcpy(&x, &bits, sizeof x);
    return x;
}

/* splitmix64 */
static uint64_t state;

static uint64_t draw(void) {
    uint64_t z = state += 0x9e3779b97f4a7c15;
    z = (z ^ (z >> 30)) * 0xbf58476d1ce4e5b9;
    z = (z ^ (z >> 27)) * 0x94d049bb133111eb;
    return z ^ (z >> 31);
}

/* Uniform from 0 (included) to 1 (not). */
static double unit(void) { return (double)(draw() >> 11) * 0x1p-53; }

static double binade(int k) { return ldexp(1, k); }

/* A double from 2^k on and below 2^(k + 1), every pattern as likely. */
static double in_binade(int k) {
    uint64_t first = to_bits(binade(k));
    uint64_t patterns = k < -1022 ? first : (uint64_t)1 << 52;
    return from_bits(first + draw() % patterns);
}

static void differ(struct function *f, double x, double got, const char *why, long double exact) {
    if (f->differences++ >= SHOWN)
        return;
    printf("%s of %016" PRIx64 " (%.17g): %016" PRIx64 " (%.17g) %s", f->name, to_bits(x), x,
           to_bits(got), got, why);
    if (isnan(exact))
        printf("\n");
    else
        printf(" (exact about %.21Lg)\n", exact);
}

static void expect_nan(struct function *f, double x) {
    double got = f->ours(x);
    arguments++;
    if (!isnan(got))
        differ(f, x, got, "is not a NaN", NAN);
}

static void expect(struct function *f, double x, double answer) {
    double got = f->ours(x);
    arguments++;
    if (to_bits(got) != to_bits(answer))
        differ(f, x, got, "has other bits", answer);
}

/* The value of a double's last place beside an exact value. */
static long double last_place(long double exact) {
    if (fabsl(exact) < DBL_MIN)
        return 0x1p-1074L;
    return ldexpl(1, ilogbl(exact) - 52);
}

static long double promised(const struct function *f, double x) {
    return f->by_argument && x < 1 ? x * f->promise : f->promise;
}

static void note(struct range *range, double x, long double error, long double units) {
    range->count++;
    if (error > range->most_error)
        range->most_error = error;
    if (units > range->most_units || range->count == 1) {
        range->most_units = units;
        range->worst = x;
    }
}

static struct range *range_of(struct function *f, double x, long double exact) {
    struct range *range = f->ranges;
    while (!(range->from <= x && x < range->to && fabsl(exact) < range->size))
        range++;
    return range;
}

/* Any double but those of specials. */
static void check(struct function *f, double x) {
    if (x < 0 || x > f->last) {
        expect_nan(f, x);
        return;
    }
    double got = f->ours(x);
    long double exact = f->exact(x);
    long double error = fabsl(got - exact);
    long double units = error / last_place(exact);
    arguments++;
    note(range_of(f, x, exact), x, error, units);
    if (!(error <= promised(f, x)))
        differ(f, x, got, "breaks the promise", exact);
    else if (f->tiny != NULL && x < TINY && to_bits(got) != to_bits(f->tiny(x)))
        differ(f, x, got, "has other bits", f->tiny(x));
    else if (!(units <= MOST_UNITS))
        differ(f, x, got, "is off by more than 1.1 units in the last place", exact);
}

/* x, which is above zero, and the doubles next to it. */
static void around(struct function *f, double x) {
    for (int step = -NEIGHBOURS; step <= NEIGHBOURS; step++) {
        double y = from_bits(to_bits(x) + (uint64_t)step);
        if (0 < y && y <= DBL_MAX)
            check(f, y);
    }
}

/* At least one in each binade; what lies above the last argument is left out. */
static void binades(struct function *f, int least, int greatest, uint64_t count) {
    uint64_t width = (uint64_t)(greatest - least + 1);
    for (uint64_t i = 0; i < count || i < width; i++) {
        double x = in_binade(least + (int)(i % width));
        if (x <= f->last)
            check(f, x);
    }
}

/* On both sides of x, at distances of 1/2 to 2^-52 of it. */
static void approach(struct function *f, double x, uint64_t count) {
    for (uint64_t i = 0; i < count; i++) {
        double distance = ldexp(x * (1 + unit()), -2 - (int)(i / 2 % 51));
        check(f, i % 2 == 0 ? x + distance : x - distance);
    }
}

static void switches(struct function *f) {
    static const double points[] = {TINY, 0.1875, 0.375, 0.65625, 1,       1.5625,
                                    2.75, 8,     200,   DBL_MIN, DBL_MAX, 0x1p-1074};
    for (size_t i = 0; i < sizeof points / sizeof points[0]; i++)
        around(f, points[i]);
    for (int k = LEAST_BINADE; k <= LAST_BINADE; k++)
        if (binade(k) < f->last)
            around(f, binade(k));
}

static void outside(struct function *f) {
    static const double below[] = {-0x1p-1074, -DBL_MIN, -0x1p-28, -0x1p-27, -0.5,
                                   -1,         -2,       -200,     -DBL_MAX, -INFINITY};
    static const uint64_t nans[] = {0x7ff8000000000000, 0xfff8000000000000, 0x7ff0000000000001,
                                    0xffffffffffffffff};
    for (size_t i = 0; i < sizeof below / sizeof below[0]; i++)
        expect_nan(f, below[i]);
    for (size_t i = 0; i < sizeof nans / sizeof nans[0]; i++)
        expect_nan(f, from_bits(nans[i]));
    for (int k = LEAST_BINADE; k <= LAST_BINADE; k++) {
        double x = in_binade(k);
        expect_nan(f, -x);
        if (x > f->last)
            expect_nan(f, x);
    }
}

static void specials(void) {
    for (size_t i = 0; i < FUNCTIONS; i++)
        outside(functions[i]);
    expect(&sine, 0.0, 0.0);
    expect(&sine, -0.0, -0.0);
    expect_nan(&sine, INFINITY);
    expect(&cosine, 0.0, 1);
    expect(&cosine, -0.0, 1);
    expect_nan(&cosine, INFINITY);
    expect(&log_ten, 0.0, -INFINITY);
    expect(&log_ten, -0.0, -INFINITY);
    expect(&log_ten, INFINITY, INFINITY);
    expect(&arctangent, 0.0, 0.0);
    expect(&arctangent, -0.0, -0.0);
    expect(&arctangent, INFINITY, from_bits(0x3ff921fb54442d18));
}

static void check_circle(struct function *f, uint64_t count) {
    binades(f, LEAST_BINADE, -28, count / 8);
    binades(f, -27, -1, count / 4);
    binades(f, 0, 7, count / 8);
    for (uint64_t i = 0; i < count / 4; i++)
        check(f, 1 + 199 * unit());
    for (int k = 1; k <= 127; k++) {
        double x = (double)(k * HALF_PI);
        around(f, x);
        approach(f, x, count / 4 / 127);
    }
    switches(f);
}

static void check_log10(uint64_t count) {
    binades(&log_ten, LEAST_BINADE, LAST_BINADE, count / 2);
    binades(&log_ten, -1, 0, count / 4);
    approach(&log_ten, 1, count / 4);
    double power = 1;
    for (int k = 0; k <= 22; k++, power *= 10)
        expect(&log_ten, power, k);
    for (int k = -323; k <= 308; k++) {
        char word[8];
        snprintf(word, sizeof word, "1e%d", k);
        around(&log_ten, strtod(word, NULL));
    }
    switches(&log_ten);
}

static void check_arctangent(uint64_t count) {
    binades(&arctangent, LEAST_BINADE, -28, count / 8);
    binades(&arctangent, -27, -1, count / 4);
    binades(&arctangent, -5, 4, count / 4);
    binades(&arctangent, 0, 19, count / 4);
    binades(&arctangent, 20, LAST_BINADE, count / 8);
    switches(&arctangent);
}

static void print_ranges(const struct function *f) {
    for (const struct range *range = f->ranges; range < f->ranges + RANGES; range++) {
        printf("%-10s  %-28s  %9" PRIu64 "  %5.3Lf  %016" PRIx64 "  %-24.17g  ", f->name, range->name,
               range->count, range->most_units, to_bits(range->worst), range->worst);
        if (range->most_error > 0)
            printf("2^%.1Lf\n", log2l(range->most_error));
        else
            printf("0\n");
    }
}

static uint64_t number(const char *word) {
    char *end;
    uint64_t value = strtoull(word, &end, 10);
    if (*word == 0 || *end != 0) {
        fprintf(stderr, "fast: %s is not a whole number\n", word);
        exit(2);
    }
    return value;
}

int main(int count_of_words, char **words) {
    if (count_of_words != 3) {
        fprintf(stderr, "usage: fast N SEED\n");
        return 2;
    }
    uint64_t count = number(words[1]), differences = 0;
    state = number(words[2]);
    specials();
    check_circle(&sine, count);
    check_circle(&cosine, count);
    check_log10(count);
    check_arctangent(count);
    printf("%-10s  %-28s  %9s  %5s  %-16s  %-24s  %s\n", "", "arguments", "tried", "units", "worst at",
           "", "largest error");
    for (size_t i = 0; i < FUNCTIONS; i++) {
        print_ranges(functions[i]);
        differences += functions[i]->differences;
    }
    printf("fast: %" PRIu64 " differences in %" PRIu64 " arguments\n", differences, arguments);
    return differences > 0;
}
