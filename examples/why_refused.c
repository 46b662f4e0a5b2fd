/* Goes through a journal and prints for each of its records that it is accepted, or why it is turned down:
 * why_refused [AGE_LIMIT] < journal
 * The book's age limit is in months, and the largest, 2,399, where none is given.
 * Build: tools/library && cc -Iinclude examples/why_refused.c target/staticlib/libreplay.a -o why_refused
 * A program that keeps a journal would ask the same before it adds a record. It compiles as C++ too. */
#include <stdio.h>
#include "age_limit.h"
#include "records.h"
#include "short_journal.h"
#include "tuyqorem.h"

/* The grounds of docs/SPECIFICATION.md, section 9; a record can meet 1 to 14 and 16 to 19. */
static const char *const reasons[] = {
    "",
    "the sheet's length is none that its profile has",
    "a record's kind or maturity is not the one due",
    "a number is outside its range",
    "no volume is above 0",
    "the sheet's month is after the told month",
    "the sheet's month is before the standing curve's",
    "a low of a year from the quotes is below 1",
    "a high is above 2,000,000,000",
    "an end of the halving fails its test, or year 10 over year 9 is outside the ends",
    "high less low is above the sheet's limit",
    "the month is above 2,399",
    "the month is before the told month",
    "the year is not 1 to 150",
    "the book has no curve",
    "the buffer has fewer than 1,505 bytes",
    "the curve's age is above the book's limit",
    "no high rate up to 100,000 exists",
    "no post is left to withdraw",
    "the profile is not 1 to 3",
};

static void print_answer(uint64_t answer) {
    unsigned number = (unsigned)(answer % 256), place = (unsigned)(answer / 256);
    if (answer == 0)
        printf("accepted\n");
    else
        printf("turned down on %u, place %u: %s\n", number, place, reasons[number]);
}

int main(int argc, char **argv) {
    uint64_t age_limit;
    if (!read_age_limit(argc, argv, &age_limit)) {
        fprintf(stderr, "usage: why_refused [AGE_LIMIT] < journal\n");
        return 2;
    }
    size_t held;
    if (!read_journal(&held)) return 1;
    /* The first `at` bytes are the journal, and the record behind them is the call. */
    size_t at = 0;
    for (;;) {
        uint64_t answer = tuyqorem_answer_after(age_limit, journal, at, journal + at, held - at);
        if (answer == 255) break;
        print_answer(answer);
        at += record_length(journal + at, held - at);
    }
    if (at < held) printf("no whole record at byte %lu\n", (unsigned long)at);
    return 0;
}
