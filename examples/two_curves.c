/* Prints the bands of the plain curve that a journal leaves and, beside them, those of the adjusted one, a line a year; or why
 * there are none: two_curves [AGE_LIMIT] < journal
 * The limit is in months, and the largest, 2,399, where none is given.
 * Build: tools/library && cc -Iinclude examples/two_curves.c target/staticlib/libreplay.a -o two_curves
 * It compiles as C++ too, hence the casts. */
#include <stdio.h>
#include "age_limit.h"
#include "short_journal.h"
#include "tuyqorem.h"

/* The numbers that name a curve. */
enum { PLAIN = 0, ADJUSTED = 1 };

static unsigned long factor(const uint8_t *at) {
    return (unsigned long)at[0] << 24 | (unsigned long)at[1] << 16 | (unsigned long)at[2] << 8 | at[3];
}

/* A record of a page: 0x59, year (1), low (4), high (4). */
static void print_band(uint64_t refused, const uint8_t *record) {
    if (refused)
        printf(" refused: %u", (unsigned)refused);
    else
        printf(" %lu %lu", factor(record + 2), factor(record + 6));
}

int main(int argc, char **argv) {
    uint64_t age_limit;
    if (!read_age_limit(argc, argv, &age_limit)) {
        fprintf(stderr, "usage: two_curves [AGE_LIMIT] < journal\n");
        return 2;
    }
    size_t held;
    if (!read_journal(&held)) return 1;
    static uint8_t plain[1505], adjusted[1505];
    uint64_t no_plain = tuyqorem_page_after(age_limit, journal, held, PLAIN, plain, sizeof plain);
    uint64_t no_adjusted = tuyqorem_page_after(age_limit, journal, held, ADJUSTED, adjusted, sizeof adjusted);
    for (unsigned year = 1; year <= 150; year++) {
        size_t at = 5 + 10 * (size_t)(year - 1);
        printf("%u", year);
        print_band(no_plain, plain + at);
        print_band(no_adjusted, adjusted + at);
        printf("\n");
    }
    return 0;
}
