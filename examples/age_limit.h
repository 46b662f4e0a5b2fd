/* An age limit in months as the examples take it: one word of digits, or none for the largest, 2,399. */
#ifndef AGE_LIMIT_H
#define AGE_LIMIT_H

#include <stdint.h>
#include <stdlib.h>
#include <string.h>

/* False where the words are no such argument. Digits alone: strtoull would take a sign and spaces too. A number that does not
 * fit becomes the greatest that does, and the book makes the same of both. */
static int read_age_limit(int argc, char **argv, uint64_t *age_limit) {
    *age_limit = 2399;
    if (argc < 2) return 1;
    const char *word = argv[1];
    if (argc > 2 || *word == '\0' || word[strspn(word, "0123456789")] != '\0') return 0;
    *age_limit = strtoull(word, NULL, 10);
    return 1;
}

#endif
