/* The limit of a check: reading bytes once, eight at a time. */
#ifndef READ_ONCE_H
#define READ_ONCE_H

#include <stddef.h>
#include <stdint.h>
#include <string.h>

static inline uint64_t read_once(const uint8_t *bytes, size_t len)
{
    uint64_t sum = 0;
    for (size_t at = 0; at < len; at += sizeof sum) {
        uint64_t word;
        memcpy(&word, bytes + at, sizeof word);
        sum += word;
    }
    return sum;
}

#endif
