/* Prints the annual zero rates of the plain curve that a journal leaves, low and high, a line a year; or why there are none:
 * zero_rates [AGE_LIMIT] < journal
 * The limit is in months, and the largest, 2,399, where none is given.
 * Build: tools/library && cc -Iinclude examples/zero_rates.c target/staticlib/libreplay.a -o zero_rates
 * It compiles as C++ too, hence the casts. */
#include <stdio.h>
#include "age_limit.h"
#include "short_journal.h"
#include "tuyqorem.h"

/* A rate in four bytes, two's complement, in hundred-thousandths: 3,000 is 3%. */
static long rate(const uint8_t *at) {
    unsigned long bits = (unsigned long)at[0] << 24 | (unsigned long)at[1] << 16 | (unsigned long)at[2] << 8 | at[3];
    return bits < 0x80000000ul ? (long)bits : -(long)(0xFFFFFFFFul - bits) - 1;
}

static void print_percent(long rate) {
    long size = rate < 0 ? -rate : rate;
    printf(" %s%ld.%03ld%%", rate < 0 ? "-" : "", size / 1000, size % 1000);
}

int main(int argc, char **argv) {
    uint64_t age_limit;
    if (!read_age_limit(argc, argv, &age_limit)) {
        fprintf(stderr, "usage: zero_rates [AGE_LIMIT] < journal\n");
        return 2;
    }
    size_t held;
    if (!read_journal(&held)) return 1;
    for (unsigned year = 1; year <= 150; year++) {
        uint8_t found[28];
        uint64_t refused = tuyqorem_look_after(age_limit, journal, held, 0, year, found, sizeof found);
        printf("%u", year);
        if (refused) {
            printf(" refused: %u", (unsigned)refused);
        } else {
            print_percent(rate(found + 20));
            print_percent(rate(found + 24));
        }
        printf("\n");
    }
    return 0;
}
