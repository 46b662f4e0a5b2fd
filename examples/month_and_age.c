/* Prints the month and the age of the curve that a journal leaves, unless its age is above the book's limit:
 * month_and_age [AGE_LIMIT] < journal
 * The limit is in months, and the largest, 2,399, where none is given.
 * Build: tools/library && cc -Iinclude examples/month_and_age.c target/staticlib/libreplay.a -o month_and_age
 * It compiles as C++ too, hence the casts. */
#include <stdio.h>
#include <stdlib.h>
#include "age_limit.h"
#include "tuyqorem.h"

int main(int argc, char **argv) {
    uint64_t age_limit;
    if (!read_age_limit(argc, argv, &age_limit)) {
        fprintf(stderr, "usage: month_and_age [AGE_LIMIT] < journal\n");
        return 2;
    }
    size_t held = 0, room = 1 << 16;
    uint8_t *calls = (uint8_t *)malloc(room);
    while (calls != NULL) {
        held += fread(calls + held, 1, room - held, stdin);
        if (held < room) break;
        room *= 2;
        uint8_t *larger = (uint8_t *)realloc(calls, room);
        if (larger == NULL) free(calls);
        calls = larger;
    }
    if (calls == NULL) return 1;
    static uint8_t page[1505];
    uint64_t refused = tuyqorem_page_after(age_limit, calls, held, 0, page, sizeof page);
    free(calls);
    if (refused) {
        printf("refused: %u\n", (unsigned)refused);
        return 0;
    }
    printf("month %u, age %u\n", page[1] * 256u + page[2], page[3] * 256u + page[4]);
    return 0;
}
