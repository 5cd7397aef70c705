/*
 * Spheroidal modes of a flat disc, proved: characteristic values, expansion coefficients, angular
 * functions, sheets of them over c and x, and both oblate radial functions on the disc and off it. For
 * C99 and C++11 or later, on x86-64 Linux. `./build` makes the library, libspheroidal_c.a, which needs
 * nothing but memcpy and memset: no -lm. It is position-independent; `./build` makes a shared library of
 * it, as this line does:
 *
 *   cc -shared -o libspheroidal_c.so -Wl,--whole-archive libspheroidal_c.a -Wl,--no-whole-archive
 *
 * A mode is m, n and c: the order m, the degree n, and the size parameter c. What the functions are
 * stands below, and with formulas in docs/FUNCTIONS.md.
 *
 *   const uint16_t m = 0, n = 4;
 *   double values[SPHEROIDAL_ROW_PLACES];
 *   uint8_t answer = spheroidal_prolate_dlmf_row(m, n, 2.5, SPHEROIDAL_LARGEST_ALLOWANCE,
 *                                                values, SPHEROIDAL_ROW_PLACES);
 *   if (answer != SPHEROIDAL_OK) {
 *       fprintf(stderr, "refused %d: %s\n", answer, spheroidal_refusal_sentence(answer));
 *   }
 *
 * Every function answers SPHEROIDAL_OK, or the number of the refusal. Conditions are tested in the
 * order of their numbers, but in sheets 10 after 13, and the first that applies is the answer. A
 * refused call leaves every lent place as it was. An accepted one writes all the places that it needs
 * and none past them: longer buffers are fine, and what they held before has no part in the answer.
 *
 * Where digits end: an answer is what the ported formulas give in doubles. Characteristic values are
 * right to 14 digits, near a zero to 14 digits of c * c; the exact value may lie just outside its
 * bracket. With c from 1e-4 to 10, m up to 12 and n - m up to 15, angular functions and radial
 * functions on the disc have at least 7 right digits and coefficients 11; what radial functions have
 * off the disc stands with them below. Elsewhere there may be none, and NaN and infinity can be
 * answers. docs/ACCURACY.md says where, and how a caller can check.
 *
 * No argument value is forbidden; each is answered or refused. What C cannot check, the caller keeps:
 *
 * - A pointer is not null, not even with length 0, and is aligned for its type. It points to at least
 *   as many places as the length after it says, or to one place where no length follows.
 * - The places lent in one call do not overlap each other. Only a sheet's cs and xs, which are read and
 *   never written, may overlap, though not the block.
 * - No other thread uses these places during the call, except that it may read cs and xs.
 * - The floating-point environment is C's default: rounding to nearest, subnormal numbers kept. A
 *   program that gcc links with -ffast-math has them flushed to zero, and gets other bits.
 *
 * For -Wconversion: C adds uint16_t numbers as int, so a sum is cast, as in (uint16_t)(m + 4), and so
 * is the length of a row, (size_t)(n - m) + 1. The constants below need no cast.
 *
 * The functions keep no state, allocate nothing, touch no errno and may run in any number of threads
 * at once. Measured on x86-64, they use up to 29,700 bytes of stack in rows, 35,400 in DLMF rows,
 * 73,300 in sheets, 14,400 in radial functions and 8,500 in the others. Made by rattle-kit-5, the
 * others used 5,200, and rows and sheets up to 200 less. Before 6.0 DLMF rows used 400 bytes less, with
 * steps of 16 bits; before 3.0.1 rows of both forms used 2,416 bytes more than after, for a buffer of
 * squares.
 */
#ifndef SPHEROIDAL_H
#define SPHEROIDAL_H

#include <stddef.h>
#include <stdint.h>

/*
 * The version. MAJOR moves where a correct program may have to change or gets other answers, MINOR
 * where something is added, PATCH where neither: speed, memory, comments, how it is built.
 */
#define SPHEROIDAL_VERSION_MAJOR 7
#define SPHEROIDAL_VERSION_MINOR 0
#define SPHEROIDAL_VERSION_PATCH 0
#define SPHEROIDAL_VERSION "7.0.0"

/*
 * What a function answers. 1 to 3 are refusals of the record program and never come from here. Let
 * H be (n - m)/2 + c, in doubles, and N be 25 plus H cut to a whole number.
 */
#define SPHEROIDAL_OK 0
/* m > 199, n < m or n - m > 199. */
#define SPHEROIDAL_REFUSED_MODE_NUMBERS 4
/* c is NaN, infinite or below zero; -0.0 passes. */
#define SPHEROIDAL_REFUSED_SIZE_PARAMETER 5
/* H >= 291 in rows, H >= 175 in all else; in radial functions also N + m > 200. */
#define SPHEROIDAL_REFUSED_TOO_LARGE 6
/* cv is NaN or infinite. */
#define SPHEROIDAL_REFUSED_CHARACTERISTIC_VALUE 7
/*
 * Angular functions and sheets: x is NaN, below -1 or above 1. Radial functions: x is NaN, infinite or
 * below zero; -0.0 passes.
 */
#define SPHEROIDAL_REFUSED_ARGUMENT 8
/* A lent buffer has fewer than n - m + 1 places (rows) or than 200 (coefficients). */
#define SPHEROIDAL_REFUSED_BUFFER 9
/* A value used up its allowance of steps. */
#define SPHEROIDAL_REFUSED_ALLOWANCE 10
/* Radial functions with x > 0: 2N + m > 251, or c * x, in doubles, is above 200. */
#define SPHEROIDAL_REFUSED_OFF_THE_DISC 11
/*
 * Radial functions with x > 0: a trial order of the first kind's Bessel functions lies outside 1 to
 * 100000. None is known.
 */
#define SPHEROIDAL_REFUSED_TRIAL_ORDER 12
/* Sheets: more than 32 c, more than 64 x, or a block with fewer than two places a pair. */
#define SPHEROIDAL_REFUSED_SHEET 13

/* An answer's number in words. */
static inline const char *spheroidal_refusal_sentence(uint8_t answer) {
    switch (answer) {
    case SPHEROIDAL_OK:
        return "answered";
    case SPHEROIDAL_REFUSED_MODE_NUMBERS:
        return "m is above 199, n is below m, or n - m is above 199";
    case SPHEROIDAL_REFUSED_SIZE_PARAMETER:
        return "c is not a finite number from zero on";
    case SPHEROIDAL_REFUSED_TOO_LARGE:
        return "the mode is too large: (n - m)/2 + c, or in radial functions m beside it";
    case SPHEROIDAL_REFUSED_CHARACTERISTIC_VALUE:
        return "the characteristic value is not finite";
    case SPHEROIDAL_REFUSED_ARGUMENT:
        return "x is out of range: -1 to 1 if angular, finite and not below zero if radial";
    case SPHEROIDAL_REFUSED_BUFFER:
        return "a lent buffer is too short";
    case SPHEROIDAL_REFUSED_ALLOWANCE:
        return "a value used up its allowance of steps";
    case SPHEROIDAL_REFUSED_OFF_THE_DISC:
        return "off the disc, where x is above zero, the mode or c * x is too large";
    case SPHEROIDAL_REFUSED_TRIAL_ORDER:
        return "a trial order of the Bessel functions is outside 1 to 100000";
    case SPHEROIDAL_REFUSED_SHEET:
        return "a sheet has more than 32 c or 64 x, or its block is too short";
    default:
        return "no answer of this library";
    }
}

/* The limits. */
#define SPHEROIDAL_LARGEST_ORDER 199             /* of m */
#define SPHEROIDAL_LARGEST_OFFSET 199            /* of n - m */
#define SPHEROIDAL_ROW_LIMIT 291.0               /* H stays below it in rows */
#define SPHEROIDAL_LIMIT 175.0                   /* H stays below it in all else */
#define SPHEROIDAL_RADIAL_PLACES 200             /* N + m is at most this in radial functions */
#define SPHEROIDAL_BESSEL_ORDER 251              /* 2N + m is at most this off the disc */
#define SPHEROIDAL_BESSEL_ARGUMENT 200.0         /* c * x is at most this off the disc */
#define SPHEROIDAL_ROW_PLACES 200                /* the most that a row needs in a buffer */
#define SPHEROIDAL_COEFFICIENTS 200              /* what coefficients need in a buffer, always */
#define SPHEROIDAL_SHEET_PARAMETERS 32           /* the most c of a sheet */
#define SPHEROIDAL_SHEET_ARGUMENTS 64            /* the most x of a sheet */
#define SPHEROIDAL_SHEET_PLACES 4096             /* the most that a sheet needs in its block */
#define SPHEROIDAL_LARGEST_ALLOWANCE 4294967295u /* the most steps that can be allowed */

/*
 * What the functions are. Let s be c^2 for prolate and -c^2 for oblate modes.
 *
 * The angular function S(x), for x from -1 to 1, solves
 *
 *   d/dx ((1 - x^2) dS/dx) + (cv - s x^2 - m^2/(1 - x^2)) S = 0,
 *
 * and the characteristic values cv are those for which S is finite at both ends: at c = 0 they are
 * n(n + 1). DLMF's lambda (30.2.1, with gamma^2 = s) is cv - s.
 *
 * Its normalisation is Flammer's: S(0) = P_n^m(0) where n - m is even, S'(0) = P_n^m'(0) where it is
 * odd. P_n^m(x) is (1 - x^2)^(m/2) d^m P_n(x)/dx^m, without the sign (-1)^m of Condon and Shortley.
 * Expansion coefficient i, counted from 0, belongs to P_k^m with k = m + 2i where n - m is even and
 * k = m + 2i + 1 where it is odd: S is the sum of these products.
 *
 * The oblate radial functions R1(x) and R2(x), for x from 0 on, solve
 *
 *   d/dx ((x^2 + 1) dR/dx) - (cv - c^2 x^2 - m^2/(x^2 + 1)) R = 0,
 *
 * and for large x approach cos(c x - (n + 1) pi/2)/(c x) and sin(c x - (n + 1) pi/2)/(c x). x = 0 is
 * the disc itself, and c = k a for a disc of radius a and the wave number k. The Wronskian,
 * R1 R2' - R1' R2, is 1/(c (x^2 + 1)).
 */

#ifdef __cplusplus
extern "C" {
#endif

/*
 * The characteristic values of the modes m, m + 1, .., n, in this order, by bisection. Place j of
 * each buffer belongs to mode m + j: its value, the number of steps, the bracket's lower and upper
 * end at the last step, and whether a zero pivot was substituted. Where c is below 1e-10, value and
 * bracket are (m + j)(m + j + 1), with 0 steps and nothing substituted.
 *
 * Bisection counts negative pivots. A place of substituted is 1 where, in some count made for this
 * mode's own value, a pivot was exactly zero and 1e-30 was divided by in its place, else 0; the
 * last entry's pivot is divided by nothing and does not count. It is there to be logged and is no
 * error: such values were found as accurate as others (docs/ACCURACY.md). With c from 1e-10 to 0.01,
 * 2 or 3 modes in 100 have it: the prolate row of m 0 and n 2 has 1, 0, 0 at c = 1e-10 and 0, 1, 0 at
 * c = 1e-5. From c = 0.1 on it is rare: of 168,000 modes drawn none had it, though some have.
 *
 * The allowance is the most steps that each value may use; one that needs more refuses the whole row
 * (10). A larger allowance never changes an accepted row, so SPHEROIDAL_LARGEST_ALLOWANCE is the
 * usual choice, and a smaller one bounds the time. Of some 200,000 rows tried, values next to zero
 * among them, none needed more than 132 steps; that none can is not proved, and a value that used up
 * the largest allowance would take minutes. Where n - m is even, a value past n is bisected too, so
 * that the largest step number need not suffice as an allowance.
 *
 * Before 6.0 allowance and steps were uint16_t. A program is to be compiled anew, with a buffer of
 * uint32_t for its steps: one of uint16_t would be overrun, and the linker does not tell. The answers
 * are the same.
 *
 * Writes n - m + 1 places of each of the five buffers. Refusals: 4, 5, 6, 9, 10.
 */
uint8_t spheroidal_prolate_row(uint16_t m, uint16_t n, double c, uint32_t allowance,
                               double *values, size_t values_length,
                               uint32_t *steps, size_t steps_length,
                               double *lowers, size_t lowers_length,
                               double *uppers, size_t uppers_length,
                               uint8_t *substituted, size_t substituted_length);
uint8_t spheroidal_oblate_row(uint16_t m, uint16_t n, double c, uint32_t allowance,
                              double *values, size_t values_length,
                              uint32_t *steps, size_t steps_length,
                              double *lowers, size_t lowers_length,
                              double *uppers, size_t uppers_length,
                              uint8_t *substituted, size_t substituted_length);

/*
 * The row's values in DLMF's form, its lambda (30.2.1): the value less c * c for prolate modes, with
 * gamma^2 = c^2, and the value plus c * c for oblate ones, with gamma^2 = -c^2; where c is below 1e-10
 * too. Product and sum are rounded. At c = 0 they are the row's values.
 *
 * Before 4.0 the oblate ones were each less c * c, which is not DLMF's: a program that adds 2 * c * c to
 * mend them is to leave that out.
 *
 * Oblate values and c * c cancel where c is large: at c = 280, 12 digits are left (docs/ACCURACY.md).
 *
 * Writes n - m + 1 places. Refusals: 4, 5, 6, 9, 10, as for the row with the same allowance.
 */
uint8_t spheroidal_prolate_dlmf_row(uint16_t m, uint16_t n, double c, uint32_t allowance,
                                    double *values, size_t values_length);
uint8_t spheroidal_oblate_dlmf_row(uint16_t m, uint16_t n, double c, uint32_t allowance,
                                   double *values, size_t values_length);

/*
 * The expansion coefficients of mode n, with cv its characteristic value: the last value of the row
 * from m to n, not in DLMF's form. Any finite cv is taken; whether it is the mode's is not tested.
 *
 * Writes 200 places; those that the mode does not use become zero. Refusals: 4, 5, 6, 7, 9.
 */
uint8_t spheroidal_prolate_coefficients(uint16_t m, uint16_t n, double c, double cv,
                                        double *values, size_t values_length);
uint8_t spheroidal_oblate_coefficients(uint16_t m, uint16_t n, double c, double cv,
                                       double *values, size_t values_length);

/*
 * The angular function of mode n and its derivative at x, from -1 to 1, with cv as above. At x of -1
 * and 1 the derivative for m = 1, which is infinite, is answered as 1e100 or -1e100.
 *
 * Writes *value and *derivative. Refusals: 4, 5, 6, 7, 8.
 */
uint8_t spheroidal_prolate_angular(uint16_t m, uint16_t n, double c, double cv, double x,
                                   double *value, double *derivative);
uint8_t spheroidal_oblate_angular(uint16_t m, uint16_t n, double c, double cv, double x,
                                  double *value, double *derivative);

/*
 * A sheet: the angular function of mode n and its derivative for each c of cs at each x of xs. Each c
 * has a row of its own, from m to n with the whole allowance, and cv is the row's last value. The block
 * is filled c by c, and for each c x by x, with two places a pair: for c number i and x number j,
 * counted from 0, place 2 * (i * xs_length + j) gets the value and the next one the derivative. They
 * are, bit for bit, what a row and an angular function of the same kind answer.
 *
 *   const double cs[2] = {1.0, 2.5}, xs[3] = {-0.5, 0.0, 0.5};
 *   double block[2 * 2 * 3];
 *   answer = spheroidal_oblate_sheet(0, 4, SPHEROIDAL_LARGEST_ALLOWANCE, cs, 2, xs, 3, block, 12);
 *
 * m and n are tested first (4), then each c in the list's order (5, 6), each x (8), the lengths (13),
 * and last the allowance, row by row (10). c and x past the most that a sheet may have are tested too.
 * Where either list is empty, no row is run and nothing is written; the other list is tested as ever.
 *
 * New in 7.0, with refusal 13. A C program need not change, but the wrapper's enum of refusals has one
 * case more, which a Rust program with a `match` over all of them has to add.
 *
 * Writes 2 * cs_length * xs_length places. Refusals: 4, 5, 6, 8, 13, 10.
 */
uint8_t spheroidal_prolate_sheet(uint16_t m, uint16_t n, uint32_t allowance,
                                 const double *cs, size_t cs_length,
                                 const double *xs, size_t xs_length,
                                 double *block, size_t block_length);
uint8_t spheroidal_oblate_sheet(uint16_t m, uint16_t n, uint32_t allowance,
                                const double *cs, size_t cs_length,
                                const double *xs, size_t xs_length,
                                double *block, size_t block_length);

/*
 * Both oblate radial functions of mode n with their derivatives at x, on the disc and off it, with cv
 * as above: value1 and derivative1 are of the first kind, value2 and derivative2 of the second. x is
 * any finite number from zero on; where it is above zero, 2N + m is at most 251 and c * x at most 200.
 * At x of 0.0 and -0.0, which is the disc, and near it the second kind is 1e300 twice where the first
 * expansion coefficient is at most 1e-280 in size.
 *
 * Before 5.0 an x above zero was refused (8). A program that relied on this is to test x itself, and
 * one that takes x as it comes is to expect refusals 11 and 12.
 *
 * Where digits end off the disc: the first kind is that of spheroidal_oblate_first_kind, below. With m
 * up to 12, value and derivative of the second kind have 12 right digits or more from x of 4 on, with
 * c from 0.01 on and n - m up to 30, and 7 from x of 1e-6 to 0.1, with c from 1e-4 to 10 and n - m up
 * to 10. From x of 0.7 to 3 there may be none, from c of 20 on also below that. Where c * x is too
 * small for the mode the derivative is wrong beside a right value: below 4.5e-5 for m = n = 0 and c
 * below 1, below 0.011 for n = 30. The Wronskian tells most of this.
 *
 * Writes all four places. Refusals: 4, 5, 6, 7, 8, 11, 12.
 */
uint8_t spheroidal_oblate_radial(uint16_t m, uint16_t n, double c, double cv, double x,
                                 double *value1, double *derivative1,
                                 double *value2, double *derivative2);

/*
 * The oblate radial function of the first kind of mode n and its derivative at x, on the disc and off
 * it, with cv as above. x is any finite number from zero on; where it is above zero, 2N + m is at most
 * 251 and c * x at most 200. It is value1 and derivative1 of spheroidal_oblate_radial.
 *
 * Where digits end: with c from 0.1 to 10, m up to 12 and n - m up to 20, value and derivative have 11
 * right digits or more from x of 0.1 on, with c up to 40 at least 7; the value has 11 and 6 from x of
 * 1e-8 on. Towards the disc the derivative loses digits where n - m is even: its relative error is
 * about 1e-15/(x * x), so that none is right at x of 1e-8. Very near, the value turns to 0 and then to
 * NaN: below x of 1e-66 and 2e-103 for m = n = 3, of 2e-16 and 2e-26 for m = n = 12, with c = 1.
 *
 * Writes *value and *derivative. Refusals: 4, 5, 6, 7, 8, 11, 12.
 */
uint8_t spheroidal_oblate_first_kind(uint16_t m, uint16_t n, double c, double cv, double x,
                                     double *value, double *derivative);

#ifdef __cplusplus
}
#endif

#endif
