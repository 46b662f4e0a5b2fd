/* The records of a journal, for examples that go through one. */
#ifndef RECORDS_H
#define RECORDS_H

#include <stddef.h>
#include <stdint.h>

enum { POST = 0x50, TURN = 0x4D, LOOK_UP = 0x4C, WITHDRAWAL = 0x57 };

/* The length of the whole record that these bytes start with, or 0 where they start with none. */
static size_t record_length(const uint8_t *bytes, size_t held) {
    size_t length = 0;
    if (held == 0) return 0;
    if (bytes[0] == POST) length = held < 3 ? 0 : 3 + bytes[1] * (size_t)256 + bytes[2];
    if (bytes[0] == TURN) length = 3;
    if (bytes[0] == LOOK_UP) length = 2;
    if (bytes[0] == WITHDRAWAL) length = 1;
    return length <= held ? length : 0;
}

#endif
