/* Prints what a small block of policies is worth on the plain curve that a journal leaves, low and high in euro and cents, with
 * month and age of the curve, then the answer to the same block with a year typed wrong; or why there is no value:
 * block [AGE_LIMIT] < journal
 * The limit is in months, and the largest, 2,399, where none is given.
 * Build: tools/library && cc -Iinclude examples/block.c target/staticlib/libreplay.a -o block
 * It compiles as C++ too. */
#include <stdio.h>
#include "age_limit.h"
#include "short_journal.h"
#include "tuyqorem.h"

/* Year and cents in turn: pensions of some years, two of them in year 10, an endowment in year 20, and what is due last. */
static uint64_t flows[] = {1, 120000, 2, 120000, 3, 118050, 10, 95000, 10, 40001, 20, 10000000, 60, 4000, 150, 99};

enum { NUMBERS = sizeof flows / sizeof *flows, YEAR_OF_ENTRY_3 = 4 };

/* A value does not fit in 32 bits, which is all that an unsigned long must have. */
static unsigned long long number(const uint8_t *at, size_t length) {
    unsigned long long sum = 0;
    for (size_t i = 0; i < length; i++) sum = 256 * sum + at[i];
    return sum;
}

/* A reply: low (8), high (8), month (2), age (2). An answer is number + 256 * place, the place being the entry. */
static void print_value(uint64_t age_limit, size_t held, const char *name) {
    uint8_t found[20];
    uint64_t answer = tuyqorem_value_after(age_limit, journal, held, flows, NUMBERS, found, sizeof found);
    printf("%s", name);
    if (answer) {
        printf(" refused: %u, place %u\n", (unsigned)(answer % 256), (unsigned)(answer / 256));
        return;
    }
    unsigned long long low = number(found, 8), high = number(found + 8, 8);
    printf(" worth %llu.%02llu to %llu.%02llu", low / 100, low % 100, high / 100, high % 100);
    printf(" month %llu age %llu\n", number(found + 16, 2), number(found + 18, 2));
}

int main(int argc, char **argv) {
    uint64_t age_limit;
    if (!read_age_limit(argc, argv, &age_limit)) {
        fprintf(stderr, "usage: block [AGE_LIMIT] < journal\n");
        return 2;
    }
    size_t held;
    if (!read_journal(&held)) return 1;
    print_value(age_limit, held, "block");
    flows[YEAR_OF_ENTRY_3] = 151;
    print_value(age_limit, held, "mistyped");
    return 0;
}
