/* One operation of a trace: this record, and for a write the bytes behind it. */
#ifndef TRACE_H
#define TRACE_H

#include <stdint.h>

enum { TRACE_NAME = 64 };
enum { TRACE_CREATE = 1, TRACE_WRITE, TRACE_LENGTH, TRACE_SYNC, TRACE_RENAME, TRACE_UNLINK };

typedef struct {
    int32_t kind;
    int32_t folder;
    uint64_t file;
    uint64_t offset;
    uint64_t length;
    char name[TRACE_NAME];
    char to[TRACE_NAME];
} traced;

#endif
