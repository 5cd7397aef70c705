/*
 * Code as a caller writes it, in C and C++, with the casts that the header names and no others: it must
 * compile without a warning. Prints the version and the sentence of each refusal, and logs zero pivots
 * on the error output.
 */
#include <stdio.h>

#include "spheroidal.h"

#if SPHEROIDAL_VERSION_MAJOR * 100 + SPHEROIDAL_VERSION_MINOR < 700
#error "this header is too old"
#endif

int main(void) {
    uint8_t number;
    uint16_t m;
    double values[SPHEROIDAL_ROW_PLACES], lowers[SPHEROIDAL_ROW_PLACES];
    double uppers[SPHEROIDAL_ROW_PLACES];
    uint32_t steps[SPHEROIDAL_ROW_PLACES];
    uint8_t substituted[SPHEROIDAL_ROW_PLACES];
    const double cs[] = {1.0, 2.5}, xs[] = {-0.5, 0.0, 0.5};
    double block[SPHEROIDAL_SHEET_PLACES];

    printf("version %s\n", SPHEROIDAL_VERSION);
    for (number = SPHEROIDAL_REFUSED_MODE_NUMBERS; number <= SPHEROIDAL_REFUSED_SHEET; number++) {
        printf("refused %d: %s\n", number, spheroidal_refusal_sentence(number));
    }
    for (m = 0; m <= SPHEROIDAL_LARGEST_ORDER; m++) {
        const uint16_t n = (uint16_t)(m + 4);
        const size_t places = (size_t)(n - m) + 1;
        size_t j;
        uint8_t answer = spheroidal_prolate_dlmf_row(m, n, 2.5, SPHEROIDAL_LARGEST_ALLOWANCE, values,
                                                     places);
        if (answer == SPHEROIDAL_OK) {
            answer = spheroidal_prolate_row(m, n, 2.5, SPHEROIDAL_LARGEST_ALLOWANCE, values, places,
                                            steps, places, lowers, places, uppers, places,
                                            substituted, places);
        }
        if (answer != SPHEROIDAL_OK) {
            fprintf(stderr, "refused %d: %s\n", answer, spheroidal_refusal_sentence(answer));
            return answer;
        }
        for (j = 0; j < places; j++) {
            if (substituted[j]) {
                fprintf(stderr, "zero pivot: m %d, n %d, place %zu\n", m, n, j);
            }
        }
        answer = spheroidal_oblate_row(m, n, 2.5, SPHEROIDAL_LARGEST_ALLOWANCE, values, places, steps,
                                       places, lowers, places, uppers, places, substituted, places);
        if (answer == SPHEROIDAL_OK) {
            double value, derivative;
            answer = spheroidal_oblate_first_kind(m, n, 2.5, values[n - m], 1.5, &value, &derivative);
        }
        if (answer != SPHEROIDAL_OK && answer != SPHEROIDAL_REFUSED_TOO_LARGE) {
            fprintf(stderr, "refused %d: %s\n", answer, spheroidal_refusal_sentence(answer));
            return answer;
        }
        answer = spheroidal_oblate_sheet(m, n, SPHEROIDAL_LARGEST_ALLOWANCE, cs, sizeof cs / sizeof *cs,
                                         xs, sizeof xs / sizeof *xs, block, SPHEROIDAL_SHEET_PLACES);
        if (answer != SPHEROIDAL_OK) {
            fprintf(stderr, "refused %d: %s\n", answer, spheroidal_refusal_sentence(answer));
            return answer;
        }
    }
    return 0;
}
