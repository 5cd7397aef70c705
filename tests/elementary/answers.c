/* Answers for exact.py: reads lines 'function bits' and prints the bits of each result. */
#include <inttypes.h>
#include <stdint.h>
#include <stdio.h>
#include <string.h>

double elementary_sine(double);
double elementary_cosine(double);
double elementary_log10(double);
double elementary_arctangent(double);

static const struct {
    const char *name;
    double (*call)(double);
} functions[] = {
    {"sine", elementary_sine},
    {"cosine", elementary_cosine},
    {"log10", elementary_log10},
    {"arctangent", elementary_arctangent},
};

int main(void) {
    char name[16];
    uint64_t bits;
    while (scanf("%15s %" SCNx64, name, &bits) == 2) {
        size_t i = 0;
        while (strcmp(functions[i].name, name) != 0)
            if (++i == sizeof functions / sizeof functions[0]) {
                fprintf(stderr, "answers: there is no function %s\n", name);
                return 2;
            }
        double x;
        memcpy(&x, &bits, sizeof x);
        double result = functions[i].call(x);
        memcpy(&bits, &result, sizeof bits);
        printf("%016" PRIx64 "\n", bits);
    }
    return 0;
}
