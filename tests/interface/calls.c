/*
 * Calls every function of include/spheroidal.h, accepted and refused, and checks the answer's number,
 * the bits of each result and every place that is not to be written. One source for C99 and C++11.
 * The last line reads 'N passed, M failed'; status 1 where something failed.
 */
#include <stdio.h>
#include <string.h>

#include "spheroidal.h"

#define PROLATE 0
#define OBLATE 1

struct row_call {
    int kind;
    uint16_t m, n;
    uint32_t allowance;
    uint64_t c;
    uint8_t answer;
    size_t first_place; /* in row_places */
};

struct row_place {
    uint32_t steps;
    uint8_t substituted;
    uint64_t value, lower, upper, dlmf;
};

struct coefficient_call {
    int kind;
    uint16_t m, n;
    uint64_t c, cv;
    uint8_t answer;
    size_t first_place, used; /* in coefficient_places; those past the used ones are zero */
};

struct angular_call {
    int kind;
    uint16_t m, n;
    uint64_t c, cv, x;
    uint8_t answer;
    uint64_t value, derivative;
};

struct radial_call {
    uint16_t m, n;
    uint64_t c, cv, x;
    uint8_t answer;
    uint64_t value1, derivative1, value2, derivative2;
};

struct first_kind_call {
    uint16_t m, n;
    uint64_t c, cv, x;
    uint8_t answer;
    uint64_t value, derivative;
};

struct sheet_call {
    int kind;
    uint16_t m, n;
    uint32_t allowance;
    size_t first_c, cs, first_x, xs; /* in sheet_lists, and how many */
    uint8_t answer;                  /* where the block is long enough */
    size_t first_place;              /* in sheet_places */
};

#include "expected.h"

#define COUNT(array) (sizeof(array) / sizeof(array)[0])

/* A lent buffer stands inside a block, with places before and behind that nothing may touch. */
#define GUARD 8
#define ROW_BUFFERS 5
#define LONGEST (SPHEROIDAL_COEFFICIENTS + ROW_BUFFERS)
#define BLOCK (GUARD + LONGEST + GUARD)
#define SHOWN 10

static long passed, failed;

/* What the blocks hold beforehand: zeros, a number, a NaN. */
static const int fills[] = {0x00, 0xa5, 0xff};

typedef uint8_t (*row_function)(uint16_t, uint16_t, double, uint32_t, double *, size_t, uint32_t *,
                                size_t, double *, size_t, double *, size_t, uint8_t *, size_t);
typedef uint8_t (*dlmf_function)(uint16_t, uint16_t, double, uint32_t, double *, size_t);
typedef uint8_t (*coefficient_function)(uint16_t, uint16_t, double, double, double *, size_t);
typedef uint8_t (*angular_function)(uint16_t, uint16_t, double, double, double, double *, double *);
typedef uint8_t (*sheet_function)(uint16_t, uint16_t, uint32_t, const double *, size_t, const double *,
                                  size_t, double *, size_t);

static const row_function row_functions[] = {spheroidal_prolate_row, spheroidal_oblate_row};
static const dlmf_function dlmf_functions[] = {spheroidal_prolate_dlmf_row,
                                               spheroidal_oblate_dlmf_row};
static const coefficient_function coefficient_functions[] = {spheroidal_prolate_coefficients,
                                                             spheroidal_oblate_coefficients};
static const angular_function angular_functions[] = {spheroidal_prolate_angular,
                                                     spheroidal_oblate_angular};
static const sheet_function sheet_functions[] = {spheroidal_prolate_sheet, spheroidal_oblate_sheet};

static double double_of(uint64_t bits) {
    double x;
    memcpy(&x, &bits, sizeof x);
    return x;
}

static void check(int right, const char *function, size_t call, const char *what) {
    if (right) {
        passed++;
        return;
    }
    failed++;
    if (failed <= SHOWN) {
        printf("%s, call %lu: %s\n", function, (unsigned long)call, what);
    }
}

static int is_nan(uint64_t bits) { return (bits & 0x7fffffffffffffff) > 0x7ff0000000000000; }

/*
 * Whether a block holds so many expected doubles from the lent place on, any NaN where one is
 * expected, and its old bytes in every other place.
 */
static int doubles_right(const double *block, int fill, const uint64_t *expected, size_t count) {
    size_t at;
    for (at = 0; at < BLOCK; at++) {
        uint64_t held, old;
        memcpy(&held, &block[at], sizeof held);
        memset(&old, fill, sizeof old);
        if (at < GUARD || at >= GUARD + count) {
            if (held != old) {
                return 0;
            }
        } else if (held != expected[at - GUARD] && !(is_nan(held) && is_nan(expected[at - GUARD]))) {
            return 0;
        }
    }
    return 1;
}

static int steps_right(const uint32_t *block, int fill, const uint32_t *expected, size_t count) {
    size_t at;
    uint32_t old;
    memset(&old, fill, sizeof old);
    for (at = 0; at < BLOCK; at++) {
        int written = at >= GUARD && at < GUARD + count;
        if (block[at] != (written ? expected[at - GUARD] : old)) {
            return 0;
        }
    }
    return 1;
}

static int bytes_right(const uint8_t *block, int fill, const uint8_t *expected, size_t count) {
    size_t at;
    for (at = 0; at < BLOCK; at++) {
        int written = at >= GUARD && at < GUARD + count;
        if (block[at] != (written ? expected[at - GUARD] : fill)) {
            return 0;
        }
    }
    return 1;
}

/* The answer where a buffer is too short: 9, unless an earlier refusal applies. */
static uint8_t answer_if_short(uint8_t answer) {
    int earlier = answer != SPHEROIDAL_OK && answer < SPHEROIDAL_REFUSED_BUFFER;
    return earlier ? answer : (uint8_t)SPHEROIDAL_REFUSED_BUFFER;
}

/* A row's places, or as many as fit where its mode is refused. */
static size_t places_of(uint16_t m, uint16_t n) {
    size_t offset = n < m ? 0 : (size_t)(n - m);
    return (offset < SPHEROIDAL_LARGEST_OFFSET ? offset : SPHEROIDAL_LARGEST_OFFSET) + 1;
}

static void row_with(size_t number, const size_t lengths[ROW_BUFFERS], int is_short, int fill) {
    static double values[BLOCK], lowers[BLOCK], uppers[BLOCK];
    static uint32_t steps[BLOCK];
    static uint8_t substituted[BLOCK];
    uint64_t expected_values[LONGEST], expected_lowers[LONGEST], expected_uppers[LONGEST];
    uint32_t expected_steps[LONGEST];
    uint8_t expected_substituted[LONGEST];
    const struct row_call *call = &row_calls[number];
    uint8_t expected = is_short ? answer_if_short(call->answer) : call->answer;
    size_t count = expected == SPHEROIDAL_OK ? places_of(call->m, call->n) : 0;
    const char *name = call->kind == PROLATE ? "prolate row" : "oblate row";
    uint8_t answer;
    size_t at;
    for (at = 0; at < count; at++) {
        const struct row_place *place = &row_places[call->first_place + at];
        expected_values[at] = place->value;
        expected_steps[at] = place->steps;
        expected_lowers[at] = place->lower;
        expected_uppers[at] = place->upper;
        expected_substituted[at] = place->substituted;
    }
    memset(values, fill, sizeof values);
    memset(steps, fill, sizeof steps);
    memset(lowers, fill, sizeof lowers);
    memset(uppers, fill, sizeof uppers);
    memset(substituted, fill, sizeof substituted);
    answer = row_functions[call->kind](call->m, call->n, double_of(call->c), call->allowance,
                                       values + GUARD, lengths[0], steps + GUARD, lengths[1],
                                       lowers + GUARD, lengths[2], uppers + GUARD, lengths[3],
                                       substituted + GUARD, lengths[4]);
    check(answer == expected, name, number, "answer");
    check(doubles_right(values, fill, expected_values, count), name, number, "values");
    check(steps_right(steps, fill, expected_steps, count), name, number, "steps");
    check(doubles_right(lowers, fill, expected_lowers, count), name, number, "lowers");
    check(doubles_right(uppers, fill, expected_uppers, count), name, number, "uppers");
    check(bytes_right(substituted, fill, expected_substituted, count), name, number, "substituted");
}

/* Buffers just long enough, longer, of different lengths, each in turn too short by one, and empty.
 */
static void check_row(size_t number, int fill) {
    size_t needed = places_of(row_calls[number].m, row_calls[number].n);
    size_t lengths[ROW_BUFFERS];
    size_t at;
    for (at = 0; at < ROW_BUFFERS; at++) {
        lengths[at] = needed;
    }
    row_with(number, lengths, 0, fill);
    for (at = 0; at < ROW_BUFFERS; at++) {
        lengths[at] = needed - 1;
        row_with(number, lengths, 1, fill);
        lengths[at] = needed + 1 + at;
    }
    row_with(number, lengths, 0, fill);
    for (at = 0; at < ROW_BUFFERS; at++) {
        lengths[at] = 0;
    }
    row_with(number, lengths, 1, fill);
}

static void dlmf_with(size_t number, size_t length, int is_short, int fill) {
    static double values[BLOCK];
    uint64_t expected_values[LONGEST];
    const struct row_call *call = &row_calls[number];
    uint8_t expected = is_short ? answer_if_short(call->answer) : call->answer;
    size_t count = expected == SPHEROIDAL_OK ? places_of(call->m, call->n) : 0;
    const char *name = call->kind == PROLATE ? "prolate DLMF row" : "oblate DLMF row";
    uint8_t answer;
    size_t at;
    for (at = 0; at < count; at++) {
        expected_values[at] = row_places[call->first_place + at].dlmf;
    }
    memset(values, fill, sizeof values);
    answer = dlmf_functions[call->kind](call->m, call->n, double_of(call->c), call->allowance,
                                        values + GUARD, length);
    check(answer == expected, name, number, "answer");
    check(doubles_right(values, fill, expected_values, count), name, number, "values");
}

static void check_dlmf_row(size_t number, int fill) {
    size_t needed = places_of(row_calls[number].m, row_calls[number].n);
    dlmf_with(number, needed, 0, fill);
    dlmf_with(number, needed + 3, 0, fill);
    dlmf_with(number, needed - 1, 1, fill);
    dlmf_with(number, 0, 1, fill);
}

static void coefficients_with(size_t number, size_t length, int fill) {
    static double values[BLOCK];
    uint64_t expected_values[LONGEST];
    const struct coefficient_call *call = &coefficient_calls[number];
    int is_short = length < SPHEROIDAL_COEFFICIENTS;
    uint8_t expected = is_short ? answer_if_short(call->answer) : call->answer;
    size_t count = expected == SPHEROIDAL_OK ? SPHEROIDAL_COEFFICIENTS : 0;
    const char *name = call->kind == PROLATE ? "prolate coefficients" : "oblate coefficients";
    uint8_t answer;
    size_t at;
    for (at = 0; at < count; at++) {
        expected_values[at] = at < call->used ? coefficient_places[call->first_place + at] : 0;
    }
    memset(values, fill, sizeof values);
    answer = coefficient_functions[call->kind](call->m, call->n, double_of(call->c),
                                               double_of(call->cv), values + GUARD, length);
    check(answer == expected, name, number, "answer");
    check(doubles_right(values, fill, expected_values, count), name, number, "values");
}

static void check_coefficients(size_t number, int fill) {
    coefficients_with(number, SPHEROIDAL_COEFFICIENTS, fill);
    coefficients_with(number, SPHEROIDAL_COEFFICIENTS + 3, fill);
    coefficients_with(number, SPHEROIDAL_COEFFICIENTS - 1, fill);
    coefficients_with(number, 0, fill);
}

static void check_angular(size_t number, int fill) {
    static double value[BLOCK], derivative[BLOCK];
    const struct angular_call *call = &angular_calls[number];
    size_t count = call->answer == SPHEROIDAL_OK ? 1 : 0;
    const char *name = call->kind == PROLATE ? "prolate angular" : "oblate angular";
    uint8_t answer;
    memset(value, fill, sizeof value);
    memset(derivative, fill, sizeof derivative);
    answer = angular_functions[call->kind](call->m, call->n, double_of(call->c), double_of(call->cv),
                                           double_of(call->x), value + GUARD, derivative + GUARD);
    check(answer == call->answer, name, number, "answer");
    check(doubles_right(value, fill, &call->value, count), name, number, "value");
    check(doubles_right(derivative, fill, &call->derivative, count), name, number, "derivative");
}

static void check_radial(size_t number, int fill) {
    static double blocks[4][BLOCK];
    const struct radial_call *call = &radial_calls[number];
    size_t count = call->answer == SPHEROIDAL_OK ? 1 : 0;
    const char *name = "oblate radial";
    uint8_t answer;
    memset(blocks, fill, sizeof blocks);
    answer = spheroidal_oblate_radial(call->m, call->n, double_of(call->c), double_of(call->cv),
                                      double_of(call->x), blocks[0] + GUARD, blocks[1] + GUARD,
                                      blocks[2] + GUARD, blocks[3] + GUARD);
    check(answer == call->answer, name, number, "answer");
    check(doubles_right(blocks[0], fill, &call->value1, count), name, number, "value1");
    check(doubles_right(blocks[1], fill, &call->derivative1, count), name, number, "derivative1");
    check(doubles_right(blocks[2], fill, &call->value2, count), name, number, "value2");
    check(doubles_right(blocks[3], fill, &call->derivative2, count), name, number, "derivative2");
}

static void check_first_kind(size_t number, int fill) {
    static double value[BLOCK], derivative[BLOCK];
    const struct first_kind_call *call = &first_kind_calls[number];
    size_t count = call->answer == SPHEROIDAL_OK ? 1 : 0;
    const char *name = "oblate first kind";
    uint8_t answer;
    memset(value, fill, sizeof value);
    memset(derivative, fill, sizeof derivative);
    answer = spheroidal_oblate_first_kind(call->m, call->n, double_of(call->c), double_of(call->cv),
                                          double_of(call->x), value + GUARD, derivative + GUARD);
    check(answer == call->answer, name, number, "answer");
    check(doubles_right(value, fill, &call->value, count), name, number, "value");
    check(doubles_right(derivative, fill, &call->derivative, count), name, number, "derivative");
}

/* A sheet's list between places that hold NaN, which is refused where it is read. */
static void lend_list(double *list, const uint64_t *numbers, size_t count) {
    size_t at;
    memset(list, 0xff, BLOCK * sizeof *list);
    for (at = 0; at < count; at++) {
        list[GUARD + at] = double_of(numbers[at]);
    }
}

static void sheet_with(size_t number, size_t length, int is_short, int fill) {
    static double cs[BLOCK], xs[BLOCK], lists[2][BLOCK], block[BLOCK];
    const struct sheet_call *call = &sheet_calls[number];
    /* 10 comes after 13 */
    int earlier = call->answer != SPHEROIDAL_OK && call->answer != SPHEROIDAL_REFUSED_ALLOWANCE;
    uint8_t expected = is_short && !earlier ? (uint8_t)SPHEROIDAL_REFUSED_SHEET : call->answer;
    size_t count = expected == SPHEROIDAL_OK ? 2 * call->cs * call->xs : 0;
    const char *name = call->kind == PROLATE ? "prolate sheet" : "oblate sheet";
    uint8_t answer;
    lend_list(cs, sheet_lists + call->first_c, call->cs);
    lend_list(xs, sheet_lists + call->first_x, call->xs);
    memcpy(lists[0], cs, sizeof cs);
    memcpy(lists[1], xs, sizeof xs);
    memset(block, fill, sizeof block);
    answer = sheet_functions[call->kind](call->m, call->n, call->allowance, cs + GUARD, call->cs,
                                         xs + GUARD, call->xs, block + GUARD, length);
    check(answer == expected, name, number, "answer");
    check(doubles_right(block, fill, sheet_places + call->first_place, count), name, number, "block");
    check(memcmp(lists[0], cs, sizeof cs) == 0, name, number, "c");
    check(memcmp(lists[1], xs, sizeof xs) == 0, name, number, "x");
}

/* Blocks just long enough, longer, one place short and empty. */
static void check_sheet(size_t number, int fill) {
    size_t needed = 2 * sheet_calls[number].cs * sheet_calls[number].xs;
    sheet_with(number, needed, 0, fill);
    sheet_with(number, needed + 3, 0, fill);
    if (needed > 0) {
        sheet_with(number, needed - 1, 1, fill);
        sheet_with(number, 0, 1, fill);
    }
}

/* The largest sheet, whose pairs are those of single calls; lists and blocks one too long or short. */
static void check_largest_sheet(int kind) {
    static double cs[SPHEROIDAL_SHEET_PARAMETERS + 1], xs[SPHEROIDAL_SHEET_ARGUMENTS + 1];
    static double block[SPHEROIDAL_SHEET_PLACES + 1];
    static double values[LONGEST], lowers[LONGEST], uppers[LONGEST];
    static uint32_t steps[LONGEST];
    static uint8_t substituted[LONGEST];
    const uint32_t allowance = SPHEROIDAL_LARGEST_ALLOWANCE;
    const uint16_t m = 1, n = 4;
    const char *name = kind == PROLATE ? "largest prolate sheet" : "largest oblate sheet";
    const sheet_function sheet = sheet_functions[kind];
    const size_t parameters = SPHEROIDAL_SHEET_PARAMETERS, arguments = SPHEROIDAL_SHEET_ARGUMENTS;
    const size_t places = SPHEROIDAL_SHEET_PLACES;
    size_t i, j;
    for (i = 0; i <= parameters; i++) {
        cs[i] = 0.75 * (double)i;
    }
    for (j = 0; j <= arguments; j++) {
        xs[j] = (double)j / SPHEROIDAL_SHEET_ARGUMENTS;
    }
    block[places] = -7.5;
    check(sheet(m, n, allowance, cs, parameters, xs, arguments, block, places) == SPHEROIDAL_OK, name,
          0, "answer");
    check(block[places] == -7.5, name, 1, "the place behind");
    for (i = 0; i < parameters; i++) {
        row_functions[kind](m, n, cs[i], allowance, values, LONGEST, steps, LONGEST, lowers, LONGEST,
                            uppers, LONGEST, substituted, LONGEST);
        for (j = 0; j < arguments; j++) {
            double pair[2];
            angular_functions[kind](m, n, cs[i], values[n - m], xs[j], &pair[0], &pair[1]);
            check(memcmp(pair, block + 2 * (i * arguments + j), sizeof pair) == 0, name,
                  i * arguments + j, "pair");
        }
    }
    check(sheet(m, n, allowance, cs, parameters + 1, xs, 1, block, places) == SPHEROIDAL_REFUSED_SHEET,
          name, 2, "more c");
    check(sheet(m, n, allowance, cs, 1, xs, arguments + 1, block, places) == SPHEROIDAL_REFUSED_SHEET,
          name, 3, "more x");
    check(sheet(m, n, allowance, cs, parameters, xs, arguments, block, places - 1) ==
              SPHEROIDAL_REFUSED_SHEET,
          name, 4, "a place short");
}

/* One list as both, which may overlap. */
static void check_shared_list(int kind) {
    static const double list[] = {0.25, 0.5, 1.0};
    double copy[COUNT(list)], one[2 * 3 * 3], two[2 * 3 * 3];
    const char *name = kind == PROLATE ? "prolate sheet of one list" : "oblate sheet of one list";
    const uint32_t allowance = SPHEROIDAL_LARGEST_ALLOWANCE;
    uint8_t answer = sheet_functions[kind](0, 3, allowance, list, 3, list, 3, one, COUNT(one));
    memcpy(copy, list, sizeof copy);
    check(answer == SPHEROIDAL_OK, name, 0, "answer");
    answer = sheet_functions[kind](0, 3, allowance, list, 3, copy, 3, two, COUNT(two));
    check(answer == SPHEROIDAL_OK, name, 1, "answer");
    check(memcmp(one, two, sizeof one) == 0, name, 2, "block");
}

/* One row with buffers of one length, for the limits. */
static uint8_t plain_row(uint16_t m, uint16_t n, double c, size_t length) {
    static double values[LONGEST], lowers[LONGEST], uppers[LONGEST];
    static uint32_t steps[LONGEST];
    static uint8_t substituted[LONGEST];
    return spheroidal_oblate_row(m, n, c, SPHEROIDAL_LARGEST_ALLOWANCE, values, length, steps, length,
                                 lowers, length, uppers, length, substituted, length);
}

/* The header's limits are the library's: each is the last that passes or the first that does not. */
static void check_limits(void) {
    static double values[LONGEST];
    const uint16_t m = SPHEROIDAL_LARGEST_ORDER;
    const uint16_t n = SPHEROIDAL_LARGEST_ORDER + SPHEROIDAL_LARGEST_OFFSET;
    const uint16_t radial = SPHEROIDAL_RADIAL_PLACES - 25;
    const double bessel = (SPHEROIDAL_BESSEL_ORDER - 1) / 2 - 25; /* c, with m = n = 1 */
    const size_t places = SPHEROIDAL_ROW_PLACES;
    double a, b, c, d;
    const char *name = "limits";
    check(plain_row(m, n, 0.0, places) == SPHEROIDAL_OK, name, 0, "largest m and n - m");
    check(plain_row(m, n, 0.0, places - 1) == SPHEROIDAL_REFUSED_BUFFER, name, 1, "row places");
    check(plain_row((uint16_t)(m + 1), n, 0.0, places) == SPHEROIDAL_REFUSED_MODE_NUMBERS, name, 2,
          "m above the largest");
    check(plain_row(m, (uint16_t)(n + 1), 0.0, places) == SPHEROIDAL_REFUSED_MODE_NUMBERS, name, 3,
          "n - m above the largest");
    check(plain_row(0, 1, -1.0, places) == SPHEROIDAL_REFUSED_SIZE_PARAMETER, name, 4,
          "c below zero");
    check(plain_row(0, 0, SPHEROIDAL_ROW_LIMIT, places) == SPHEROIDAL_REFUSED_TOO_LARGE, name, 5,
          "row limit");
    check(plain_row(0, 0, SPHEROIDAL_ROW_LIMIT - 0.5, places) == SPHEROIDAL_OK, name, 6,
          "below the row limit");
    check(spheroidal_oblate_dlmf_row(0, 0, 1.0, 0, values, LONGEST) == SPHEROIDAL_REFUSED_ALLOWANCE,
          name, 7, "no steps allowed");
    check(spheroidal_oblate_coefficients(0, 0, SPHEROIDAL_LIMIT, 0.0, values, LONGEST) ==
              SPHEROIDAL_REFUSED_TOO_LARGE,
          name, 8, "limit");
    check(spheroidal_oblate_coefficients(0, 0, SPHEROIDAL_LIMIT - 0.5, 0.0, values, LONGEST) ==
              SPHEROIDAL_OK,
          name, 9, "below the limit");
    check(spheroidal_oblate_coefficients(0, 0, 1.0, double_of(0x7ff0000000000000), values, LONGEST) ==
              SPHEROIDAL_REFUSED_CHARACTERISTIC_VALUE,
          name, 10, "infinite cv");
    check(spheroidal_oblate_radial(radial, radial, 0.0, 0.0, 0.0, &a, &b, &c, &d) == SPHEROIDAL_OK,
          name, 11, "radial places");
    check(spheroidal_oblate_radial((uint16_t)(radial + 1), (uint16_t)(radial + 1), 0.0, 0.0, 0.0, &a,
                                   &b, &c, &d) == SPHEROIDAL_REFUSED_TOO_LARGE,
          name, 12, "more radial places");
    check(spheroidal_oblate_angular(0, 0, 1.0, 0.0, 1.5, &a, &b) == SPHEROIDAL_REFUSED_ARGUMENT, name,
          13, "x above 1");
    check(spheroidal_oblate_first_kind(1, 1, bessel, 0.0, 1.0, &a, &b) == SPHEROIDAL_OK, name, 14,
          "largest Bessel order");
    check(spheroidal_oblate_first_kind(1, 1, bessel + 1, 0.0, 1.0, &a, &b) ==
              SPHEROIDAL_REFUSED_OFF_THE_DISC,
          name, 15, "a higher Bessel order");
    check(spheroidal_oblate_first_kind(1, 1, bessel + 1, 0.0, 0.0, &a, &b) == SPHEROIDAL_OK, name, 16,
          "the same on the disc");
    check(spheroidal_oblate_first_kind(0, 0, 1.0, 0.0, SPHEROIDAL_BESSEL_ARGUMENT, &a, &b) ==
              SPHEROIDAL_OK,
          name, 17, "largest Bessel argument");
    check(spheroidal_oblate_first_kind(0, 0, 1.0, 0.0, SPHEROIDAL_BESSEL_ARGUMENT + 0.5, &a, &b) ==
              SPHEROIDAL_REFUSED_OFF_THE_DISC,
          name, 18, "a larger Bessel argument");
    check(spheroidal_oblate_first_kind(0, 0, 1.0, 0.0, -0.5, &a, &b) == SPHEROIDAL_REFUSED_ARGUMENT,
          name, 19, "x below zero");
    check(spheroidal_oblate_radial(1, 1, bessel, 0.0, 1.0, &a, &b, &c, &d) == SPHEROIDAL_OK, name, 20,
          "largest Bessel order, both kinds");
    check(spheroidal_oblate_radial(1, 1, bessel + 1, 0.0, 1.0, &a, &b, &c, &d) ==
              SPHEROIDAL_REFUSED_OFF_THE_DISC,
          name, 21, "a higher Bessel order, both kinds");
    check(spheroidal_oblate_radial(1, 1, bessel + 1, 0.0, 0.0, &a, &b, &c, &d) == SPHEROIDAL_OK, name,
          22, "the same on the disc");
    check(spheroidal_oblate_radial(0, 0, 1.0, 0.0, SPHEROIDAL_BESSEL_ARGUMENT, &a, &b, &c, &d) ==
              SPHEROIDAL_OK,
          name, 23, "largest Bessel argument, both kinds");
    check(spheroidal_oblate_radial(0, 0, 1.0, 0.0, SPHEROIDAL_BESSEL_ARGUMENT + 0.5, &a, &b, &c, &d) ==
              SPHEROIDAL_REFUSED_OFF_THE_DISC,
          name, 24, "a larger Bessel argument, both kinds");
    check(spheroidal_oblate_radial(0, 0, 1.0, 0.0, -0.5, &a, &b, &c, &d) ==
              SPHEROIDAL_REFUSED_ARGUMENT,
          name, 25, "x below zero, both kinds");
    check((uint32_t)(SPHEROIDAL_LARGEST_ALLOWANCE + 1) == 0, name, 26, "a larger allowance");
}

/* The version's string and its numbers, and a sentence for each number, its own for each answer. */
static void check_words(void) {
    char version[32];
    unsigned number, other;
    const char *name = "words";
    const char *unknown = spheroidal_refusal_sentence(255);
    snprintf(version, sizeof version, "%d.%d.%d", SPHEROIDAL_VERSION_MAJOR, SPHEROIDAL_VERSION_MINOR,
             SPHEROIDAL_VERSION_PATCH);
    check(strcmp(version, SPHEROIDAL_VERSION) == 0, name, 0, "the version's string");
    for (number = 0; number < 256; number++) {
        const char *sentence = spheroidal_refusal_sentence((uint8_t)number);
        int known = number == SPHEROIDAL_OK || (number >= SPHEROIDAL_REFUSED_MODE_NUMBERS &&
                                                number <= SPHEROIDAL_REFUSED_SHEET);
        int right = (strcmp(sentence, unknown) != 0) == known;
        for (other = 0; known && other < number; other++) {
            right = right && strcmp(sentence, spheroidal_refusal_sentence((uint8_t)other)) != 0;
        }
        check(right, name, number, "the sentence");
    }
}

int main(void) {
    size_t at, fill;
    for (fill = 0; fill < COUNT(fills); fill++) {
        for (at = 0; at < COUNT(row_calls); at++) {
            check_row(at, fills[fill]);
            check_dlmf_row(at, fills[fill]);
        }
        for (at = 0; at < COUNT(coefficient_calls); at++) {
            check_coefficients(at, fills[fill]);
        }
        for (at = 0; at < COUNT(angular_calls); at++) {
            check_angular(at, fills[fill]);
        }
        for (at = 0; at < COUNT(radial_calls); at++) {
            check_radial(at, fills[fill]);
        }
        for (at = 0; at < COUNT(first_kind_calls); at++) {
            check_first_kind(at, fills[fill]);
        }
        for (at = 0; at < COUNT(sheet_calls); at++) {
            check_sheet(at, fills[fill]);
        }
    }
    check_largest_sheet(PROLATE);
    check_largest_sheet(OBLATE);
    check_shared_list(PROLATE);
    check_shared_list(OBLATE);
    check_limits();
    check_words();
    printf("%ld passed, %ld failed\n", passed, failed);
    return failed == 0 ? 0 : 1;
}
