/*
 * Prints an oblate row, and of its last mode the angular function and both radial functions at a few x.
 * After ./build:
 *
 *   s=target/spheroidal
 *   cc examples/row.c -I$s/include -L$s/lib -lspheroidal_c -o target/row && target/row
 */
#include <inttypes.h>
#include <stdio.h>

#include "spheroidal.h"

int main(void) {
    const uint16_t m = 0, n = 4;
    const double c = 2.5;
    double values[SPHEROIDAL_ROW_PLACES], lowers[SPHEROIDAL_ROW_PLACES];
    double uppers[SPHEROIDAL_ROW_PLACES];
    uint32_t steps[SPHEROIDAL_ROW_PLACES];
    uint8_t substituted[SPHEROIDAL_ROW_PLACES];

    uint8_t answer = spheroidal_oblate_row(
        m, n, c, SPHEROIDAL_LARGEST_ALLOWANCE, values, SPHEROIDAL_ROW_PLACES, steps,
        SPHEROIDAL_ROW_PLACES, lowers, SPHEROIDAL_ROW_PLACES, uppers, SPHEROIDAL_ROW_PLACES,
        substituted, SPHEROIDAL_ROW_PLACES);
    if (answer != SPHEROIDAL_OK) {
        fprintf(stderr, "the row is refused %d: %s\n", answer, spheroidal_refusal_sentence(answer));
        return 1;
    }
    printf("Oblate modes %d to %d with m = %d, c = %g\n", m, n, m, c);
    printf("mode         characteristic value  steps  zero pivot\n");
    for (int j = 0; j <= n - m; j++) {
        printf("%4d  %27.17g  %5" PRIu32 "  %10s\n", m + j, values[j], steps[j],
               substituted[j] ? "yes" : "no");
    }

    printf("\nAngular function of mode %d\n", n);
    printf("   x                        value                   derivative\n");
    for (int i = -2; i <= 2; i++) {
        const double x = 0.5 * i;
        double value, derivative;
        answer = spheroidal_oblate_angular(m, n, c, values[n - m], x, &value, &derivative);
        if (answer != SPHEROIDAL_OK) {
            fprintf(stderr, "the pair is refused %d: %s\n", answer,
                    spheroidal_refusal_sentence(answer));
            return 1;
        }
        printf("%4.1f  %27.17g  %27.17g\n", x, value, derivative);
    }

    printf("\nRadial functions of mode %d: on the disc, where x is 0, and off it\n", n);
    printf("   x                   first kind                  second kind\n");
    for (int i = 0; i <= 4; i++) {
        const double x = 2.0 * i;
        double value1, derivative1, value2, derivative2;
        answer = spheroidal_oblate_radial(m, n, c, values[n - m], x, &value1, &derivative1, &value2,
                                          &derivative2);
        if (answer != SPHEROIDAL_OK) {
            fprintf(stderr, "the radial functions are refused %d: %s\n", answer,
                    spheroidal_refusal_sentence(answer));
            return 1;
        }
        printf("%4.1f  %27.17g  %27.17g\n", x, value1, value2);
    }
    return 0;
}
