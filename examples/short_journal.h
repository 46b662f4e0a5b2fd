/* A journal from standard input, for examples that keep it in a buffer of fixed length. */
#ifndef SHORT_JOURNAL_H
#define SHORT_JOURNAL_H

#include <stdint.h>
#include <stdio.h>

static uint8_t journal[1 << 20];

static void say_too_long(void) { fprintf(stderr, "the journal is too long for this example\n"); }

/* False, with a word why, where the journal does not fit. */
static int read_journal(size_t *held) {
    *held = fread(journal, 1, sizeof journal, stdin);
    if (*held < sizeof journal) return 1;
    say_too_long();
    return 0;
}

#endif
