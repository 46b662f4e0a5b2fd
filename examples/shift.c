/* Takes the last sheet that a journal posts, accepted or not, and prints for some amounts the smallest shift of all its rates, in
 * hundred-thousandths, at which a small block of policies costs no more than the amount, or why there is none:
 * shift < journal
 * Build: tools/library && cc -Iinclude examples/shift.c target/staticlib/libreplay.a -o shift
 * Neither the journal's other calls nor an age limit have a say: the sheet alone is asked about. It compiles as C++ too. */
#include <stdio.h>
#include "records.h"
#include "short_journal.h"
#include "tuyqorem.h"

/* Year and cents in turn: pensions of some years, two of them in year 10, an endowment in year 20, and what is due last. */
static const uint64_t flows[] = {1, 120000, 2, 120000, 3, 118050, 10, 95000, 10, 40001, 20, 10000000, 60, 4000, 150, 99};

/* Amounts in cents. */
static const uint64_t targets[] = {6500000, 6000000, 5000000};

enum { NUMBERS = sizeof flows / sizeof *flows, TARGETS = sizeof targets / sizeof *targets, NO_SHIFT = 23 };

/* The last post among the journal's whole records, or NULL; its length has two bytes, and the sheet follows them. */
static const uint8_t *last_post(size_t held) {
    const uint8_t *last = NULL;
    size_t at = 0, length;
    while ((length = record_length(journal + at, held - at)) > 0) {
        if (journal[at] == POST) last = journal + at;
        at += length;
    }
    return last;
}

/* A reply: the shift in 2 bytes of two's complement. An answer is number + 256 * place; the place is a record of the sheet, since
 * no entry of these cash flows is wrong. */
static void print_shift(const uint8_t *sheet, size_t length, uint64_t target) {
    uint8_t found[2];
    uint64_t answer = tuyqorem_shift(sheet, length, flows, NUMBERS, target, found, sizeof found);
    printf("at most %lu.%02lu: ", (unsigned long)(target / 100), (unsigned long)(target % 100));
    if (answer == 0) {
        int shift = found[0] * 256 + found[1];
        printf("shift %d\n", shift < 32768 ? shift : shift - 65536);
    } else if (answer == NO_SHIFT) {
        printf("no shift from -500 to 500\n");
    } else {
        printf("refused: %u, place %u\n", (unsigned)(answer % 256), (unsigned)(answer / 256));
    }
}

int main(int argc, char **argv) {
    (void)argv;
    if (argc != 1) {
        fprintf(stderr, "usage: shift < journal\n");
        return 2;
    }
    size_t held;
    if (!read_journal(&held)) return 1;
    const uint8_t *post = last_post(held);
    if (post == NULL) {
        printf("no sheet was posted\n");
        return 0;
    }
    size_t length = post[1] * (size_t)256 + post[2];
    printf("sheet of %lu bytes\n", (unsigned long)length);
    for (size_t i = 0; i < TARGETS; i++) print_shift(post + 3, length, targets[i]);
    return 0;
}
