/*
 * Measures how much stack each exported function uses: a thread runs each call on a stack that was
 * filled with one word, and what no longer holds that word below the caller's frame was used.
 * Usage: stack ROWS DLMF_ROWS SHEETS RADIAL OTHERS, limits in bytes
 * Prints the most that each function used. The last line reads 'N passed, M failed'.
 */
#define _POSIX_C_SOURCE 200112L
#include <pthread.h>
#include <stdint.h>
#include <stdio.h>
#include <stdlib.h>
#include "spheroidal.h"

#define COUNT(array) (sizeof(array) / sizeof((array)[0]))
#define WORDS 32768
#define FILL UINT64_C(0x9d3b7f51c2e8a64b)
#define PLACES SPHEROIDAL_COEFFICIENTS

static uint64_t stack[WORDS] __attribute__((aligned(4096)));

static double values[PLACES], lowers[PLACES], uppers[PLACES];
static uint32_t steps[PLACES];
static uint8_t substituted[PLACES];
static double value1, derivative1, value2, derivative2;
static double cs[2], xs[2], block[SPHEROIDAL_SHEET_PLACES];

/* Where the frame of the last call's caller begins; the call's arguments count as used. */
static uint64_t *top;

struct mode {
    uint16_t m, n;
    double c;
};

/*
 * c of 0 and of 1e-10, which the row treats apart; rows in which a pivot was substituted; small and
 * middle modes; the largest that rows, angular pairs and radial functions on the disc and off it take;
 * a refused one.
 */
static const struct mode modes[] = {
    {0, 0, 0.0},     {0, 5, 1e-10},    {0, 4, 1e-8},    {4, 4, 1e-4},    {132, 133, 0.5},
    {0, 0, 2.0},     {0, 5, 5.0},      {3, 8, 4.0},     {10, 30, 40.0},  {1, 1, 100.0},
    {60, 100, 20.0}, {100, 130, 10.0}, {0, 199, 75.0},  {199, 398, 75.0}, {0, 199, 190.0},
    {5, 5, 289.0},   {199, 199, 0.5},  {0, 199, 1000.0},
};
static const double arguments[] = {0.0, 1e-200, 1e-8, 0.3, 1.0, 1.5, 40.0};

struct call {
    const struct function *function;
    struct mode mode;
    double cv, x;
    uint8_t answer;
    size_t used;
};

struct function {
    const char *name;
    int limit; /* which of the limits, from 0 */
    uint8_t (*call)(const struct call *);
};

#define CALL(name, ...)                                                                            \
    static uint8_t call_##name(const struct call *a) {                                             \
        top = __builtin_frame_address(0);                                                          \
        return spheroidal_##name(a->mode.m, a->mode.n, a->mode.c, __VA_ARGS__);                    \
    }
#define ROW                                                                                        \
    SPHEROIDAL_LARGEST_ALLOWANCE, values, PLACES, steps, PLACES, lowers, PLACES, uppers, PLACES,   \
        substituted, PLACES
/* A sheet of two c, the mode's and a smaller one, and two x. */
#define SHEET_CALL(name)                                                                           \
    static uint8_t call_##name(const struct call *a) {                                             \
        cs[0] = a->mode.c / 2;                                                                     \
        cs[1] = a->mode.c;                                                                         \
        xs[0] = a->x;                                                                              \
        xs[1] = -a->x;                                                                             \
        top = __builtin_frame_address(0);                                                          \
        return spheroidal_##name(a->mode.m, a->mode.n, SPHEROIDAL_LARGEST_ALLOWANCE, cs,           \
                                 COUNT(cs), xs, COUNT(xs), block, SPHEROIDAL_SHEET_PLACES);        \
    }
CALL(prolate_row, ROW)
CALL(oblate_row, ROW)
CALL(prolate_dlmf_row, SPHEROIDAL_LARGEST_ALLOWANCE, values, PLACES)
CALL(oblate_dlmf_row, SPHEROIDAL_LARGEST_ALLOWANCE, values, PLACES)
CALL(prolate_coefficients, a->cv, values, PLACES)
CALL(oblate_coefficients, a->cv, values, PLACES)
CALL(prolate_angular, a->cv, a->x, &value1, &derivative1)
CALL(oblate_angular, a->cv, a->x, &value1, &derivative1)
SHEET_CALL(prolate_sheet)
SHEET_CALL(oblate_sheet)
CALL(oblate_radial, a->cv, a->x, &value1, &derivative1, &value2, &derivative2)
CALL(oblate_first_kind, a->cv, a->x, &value1, &derivative1)

static const struct function functions[] = {
    {"prolate_row", 0, call_prolate_row},
    {"oblate_row", 0, call_oblate_row},
    {"prolate_dlmf_row", 1, call_prolate_dlmf_row},
    {"oblate_dlmf_row", 1, call_oblate_dlmf_row},
    {"prolate_sheet", 2, call_prolate_sheet},
    {"oblate_sheet", 2, call_oblate_sheet},
    {"oblate_radial", 3, call_oblate_radial},
    {"oblate_first_kind", 3, call_oblate_first_kind},
    {"prolate_coefficients", 4, call_prolate_coefficients},
    {"oblate_coefficients", 4, call_oblate_coefficients},
    {"prolate_angular", 4, call_prolate_angular},
    {"oblate_angular", 4, call_oblate_angular},
};

static void *run(void *argument) {
    struct call *call = argument;
    volatile uint64_t *word = stack;
    volatile uint64_t *end = (uint64_t *)__builtin_frame_address(0) - 64;

    /* up to some words below this frame, which is in use */
    while (word < end)
        *word++ = FILL;
    call->answer = call->function->call(call);
    word = stack;
    while (*word == FILL)
        word++;
    call->used = (size_t)(top - word) * sizeof *word;
    return NULL;
}

static void measure(struct call *call) {
    pthread_attr_t attributes;
    pthread_t thread;

    if (pthread_attr_init(&attributes) != 0 ||
        pthread_attr_setstack(&attributes, stack, sizeof stack) != 0 ||
        pthread_create(&thread, &attributes, run, call) != 0 || pthread_join(thread, NULL) != 0) {
        fputs("stack: no thread\n", stderr);
        exit(2);
    }
    pthread_attr_destroy(&attributes);
}

/* The most that a function uses in any call, and whether some call was answered. */
static size_t most(const struct function *function, int *answered) {
    size_t used = 0;

    for (size_t i = 0; i < COUNT(modes); i++) {
        struct call call = {function, modes[i], 1.5, 0.0, 0, 0};

        if (call_oblate_row(&call) == 0)
            call.cv = values[modes[i].n - modes[i].m];
        for (size_t j = 0; j < COUNT(arguments); j++) {
            call.x = arguments[j];
            measure(&call);
            *answered |= call.answer == 0;
            used = call.used > used ? call.used : used;
        }
    }
    return used;
}

int main(int count, char **words) {
    int passed = 0, failed = 0;

    if (count != 6) {
        fputs("usage: stack ROWS DLMF_ROWS SHEETS RADIAL OTHERS\n", stderr);
        return 2;
    }
    for (size_t i = 0; i < COUNT(functions); i++) {
        const struct function *function = &functions[i];
        size_t limit = strtoul(words[1 + function->limit], NULL, 10);
        int answered = 0;
        size_t used = most(function, &answered);
        int good = answered && used <= limit;

        printf("%-22s %6zu bytes, header %6zu%s\n", function->name, used, limit,
               good ? "" : answered ? ": too many" : ": never answered");
        passed += good;
        failed += !good;
    }
    printf("%d passed, %d failed\n", passed, failed);
    return failed != 0;
}
