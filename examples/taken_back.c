/* Prints what stands after a journal and after each withdrawal that is then accepted, one after another: the month, the age and
 * year 20's band of the plain curve, or why it is not shown: taken_back [AGE_LIMIT] < journal
 * The limit is in months, and the largest, 2,399, where none is given.
 * Build: tools/library && cc -Iinclude examples/taken_back.c target/staticlib/libreplay.a -o taken_back
 * It compiles as C++ too. */
#include <stdio.h>
#include "age_limit.h"
#include "records.h"
#include "short_journal.h"
#include "tuyqorem.h"

static unsigned long number(const uint8_t *at, size_t length) {
    unsigned long sum = 0;
    for (size_t i = 0; i < length; i++) sum = 256 * sum + at[i];
    return sum;
}

/* A reply: low (8), high (8), month (2), age (2), and the rates. */
static void print_standing(uint64_t age_limit, size_t length) {
    uint8_t found[28];
    uint64_t refused = tuyqorem_look_after(age_limit, journal, length, 0, 20, found, sizeof found);
    if (refused) {
        printf("refused: %u\n", (unsigned)refused);
        return;
    }
    printf("month %lu, age %lu, year 20 %lu %lu\n", number(found + 16, 2), number(found + 18, 2), number(found, 8),
           number(found + 8, 8));
}

int main(int argc, char **argv) {
    uint64_t age_limit;
    if (!read_age_limit(argc, argv, &age_limit)) {
        fprintf(stderr, "usage: taken_back [AGE_LIMIT] < journal\n");
        return 2;
    }
    size_t held, length = 0, more;
    if (!read_journal(&held)) return 1;
    /* A withdrawal behind a broken record would not be read, so the journal ends with its last whole one. */
    while ((more = record_length(journal + length, held - length)) > 0) length += more;
    print_standing(age_limit, length);
    const uint8_t withdrawal[1] = {WITHDRAWAL};
    unsigned accepted = 0;
    uint64_t refused;
    while ((refused = tuyqorem_answer_after(age_limit, journal, length, withdrawal, sizeof withdrawal)) == 0) {
        if (length == sizeof journal) {
            say_too_long();
            return 1;
        }
        journal[length++] = WITHDRAWAL;
        printf("withdrawn %u: ", ++accepted);
        print_standing(age_limit, length);
    }
    printf("withdrawals accepted: %u, the next refused: %u\n", accepted, (unsigned)refused);
    return 0;
}
