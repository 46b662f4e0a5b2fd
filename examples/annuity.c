/* Prints what an annuity to some years is worth on the plain and on the adjusted curve that a journal leaves: the sum of the
 * factors of years 1 to that year, low and high in billionths, the value of 1,000 euro a year in euro, rounded outward to whole
 * cents, and month and age of the curve; or why there is none: annuity [AGE_LIMIT] < journal
 * The limit is in months, and the largest, 2,399, where none is given.
 * Build: tools/library && cc -Iinclude examples/annuity.c target/staticlib/libreplay.a -o annuity
 * It compiles as C++ too. */
#include <stdio.h>
#include "age_limit.h"
#include "short_journal.h"
#include "tuyqorem.h"

/* The bits of a number that names curve and amount. */
enum { PLAIN = 0, ADJUSTED = 1, SUM = 2 };

/* A sum does not fit in 32 bits, which is all that an unsigned long must have. */
static unsigned long long number(const uint8_t *at, size_t length) {
    unsigned long long sum = 0;
    for (size_t i = 0; i < length; i++) sum = 256 * sum + at[i];
    return sum;
}

/* 1,000 euro are 100,000 cents, and a sum is in billionths: the cents are the ten-thousandth part. */
static void print_value(unsigned long long low, unsigned long long high) {
    low /= 10000;
    high = (high + 9999) / 10000;
    printf(" worth %llu.%02llu to %llu.%02llu", low / 100, low % 100, high / 100, high % 100);
}

/* A reply: low (8), high (8), month (2), age (2), and the rates. */
static void print_annuity(uint64_t age_limit, size_t held, unsigned kind, unsigned year) {
    uint8_t found[28];
    uint64_t refused = tuyqorem_look_after(age_limit, journal, held, kind | SUM, year, found, sizeof found);
    printf("%u %s", year, kind == PLAIN ? "plain" : "adjusted");
    if (refused) {
        printf(" refused: %u\n", (unsigned)refused);
        return;
    }
    unsigned long long low = number(found, 8), high = number(found + 8, 8);
    printf(" %llu %llu", low, high);
    print_value(low, high);
    printf(" month %llu age %llu\n", number(found + 16, 2), number(found + 18, 2));
}

int main(int argc, char **argv) {
    static const unsigned years[] = {1, 10, 20, 60, 150};
    uint64_t age_limit;
    if (!read_age_limit(argc, argv, &age_limit)) {
        fprintf(stderr, "usage: annuity [AGE_LIMIT] < journal\n");
        return 2;
    }
    size_t held;
    if (!read_journal(&held)) return 1;
    for (size_t i = 0; i < sizeof years / sizeof *years; i++) {
        print_annuity(age_limit, held, PLAIN, years[i]);
        print_annuity(age_limit, held, ADJUSTED, years[i]);
    }
    return 0;
}
