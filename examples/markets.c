/* Prints how many posts of each profile a journal brings and how many of them are accepted, then month, age and some
 * years of the plain curve that stands, those around the smoothing years 10, 15 and 20 among them, or why none is
 * shown: markets [AGE_LIMIT] < journal
 * The limit is in months, and the largest, 2,399, where none is given.
 * Build: tools/library && cc -Iinclude examples/markets.c target/staticlib/libreplay.a -o markets
 * It compiles as C++ too. */
#include <stdio.h>
#include "age_limit.h"
#include "records.h"
#include "short_journal.h"
#include "tuyqorem.h"

/* How posts are counted: without a profile record, by the profile that it names, or with one that names no market. */
enum { WITHOUT = 0, UNKNOWN = 4, SORTS = 5 };

static const char *const names[] = {"no profile", "profile 1", "profile 2", "profile 3", "unknown profiles"};

static size_t sort(const uint8_t *sheet, size_t length) {
    if (length < 2 || sheet[0] != 0x08) return WITHOUT;
    if (sheet[1] < 1 || sheet[1] > 3) return UNKNOWN;
    return sheet[1];
}

/* The first `at` bytes are the journal, and the record behind them is the call. */
static void print_posts(uint64_t age_limit, size_t held) {
    unsigned long posted[SORTS] = {0}, accepted[SORTS] = {0};
    size_t at = 0, length;
    while ((length = record_length(journal + at, held - at)) > 0) {
        if (journal[at] == POST) {
            size_t of = sort(journal + at + 3, length - 3);
            posted[of]++;
            if (tuyqorem_answer_after(age_limit, journal, at, journal + at, length) == 0) accepted[of]++;
        }
        at += length;
    }
    for (size_t of = 0; of < SORTS; of++) printf("%s: %lu posted, %lu accepted\n", names[of], posted[of], accepted[of]);
}

static unsigned long number(const uint8_t *at, size_t length) {
    unsigned long sum = 0;
    for (size_t i = 0; i < length; i++) sum = 256 * sum + at[i];
    return sum;
}

/* A page: 0x48, month (2), age (2); then for each year 0x59, year (1), low (4), high (4). */
static void print_curve(uint64_t age_limit, size_t held) {
    static const unsigned years[] = {1, 9, 10, 11, 15, 16, 20, 21, 60, 150};
    static uint8_t page[1505];
    uint64_t refused = tuyqorem_page_after(age_limit, journal, held, 0, page, sizeof page);
    if (refused) {
        printf("refused: %u\n", (unsigned)refused);
        return;
    }
    printf("month %lu, age %lu\n", number(page + 1, 2), number(page + 3, 2));
    for (size_t i = 0; i < sizeof years / sizeof *years; i++) {
        const uint8_t *record = page + 5 + 10 * (size_t)(years[i] - 1);
        printf("year %u %lu %lu\n", years[i], number(record + 2, 4), number(record + 6, 4));
    }
}

int main(int argc, char **argv) {
    uint64_t age_limit;
    if (!read_age_limit(argc, argv, &age_limit)) {
        fprintf(stderr, "usage: markets [AGE_LIMIT] < journal\n");
        return 2;
    }
    size_t held;
    if (!read_journal(&held)) return 1;
    print_posts(age_limit, held);
    print_curve(age_limit, held);
    return 0;
}
