/* undo.c - one undo in memory, refused where the record cannot be one of this volume. */
#include <string.h>

#include "tool.h"

/* No change writes these bytes of the header: all but the two counts. */
static int same_header(const uint8_t *a, const uint8_t *b)
{
    return !memcmp(a, b, 20) && !memcmp(a + 28, b + 28, BULGEFS_BLOCK_SIZE - 28);
}

typedef struct { each_change call; void *ctx; int appeared, vanished, changed; entry came, went; } counter;

/* All that a move keeps of a file. */
static int same_file(const entry *a, const entry *b)
{
    return !view_is_directory(a) && a->type == b->type && a->user == b->user && a->group == b->group && a->permissions == b->permissions
        && a->first == b->first && a->size == b->size && a->blocks == b->blocks && a->attribute_block == b->attribute_block
        && a->attribute_size == b->attribute_size && a->flags == b->flags && a->created == b->created && a->modified == b->modified;
}

/* A change concerns one path; a move takes a file away from one and brings it to another. */
static int of_one_change(const counter *c)
{
    if (c->changed + c->appeared + c->vanished <= 1) return 1;
    return !c->changed && c->appeared == 1 && c->vanished == 1 && same_file(&c->came, &c->went);
}

static int count_change(void *ctx, const change *one)
{
    counter *c = ctx;
    c->changed += one->kind == CHANGED;
    if (one->kind == APPEARED) c->appeared++, c->came = *one->after;
    if (one->kind == VANISHED) c->vanished++, c->went = *one->before;
    if (!of_one_change(c)) return 1;
    return c->call ? c->call(c->ctx, one) : 0;
}

uint32_t undo_record(bytes *image, bytes *journal, const bytes *after, each_change call, void *ctx)
{
    counter c = { .call = call, .ctx = ctx };
    uint32_t number;
    memcpy(after->bytes, image->bytes, image->length);
    number = bulgefs_undo(image->bytes, image->length, journal->bytes, journal->length).number;
    if (number) return number;
    if (!same_header(image->bytes, after->bytes)) return NOT_OF_VOLUME;
    number = bulgefs_check(image->bytes, image->length);
    if (number) return NOT_OF_VOLUME;
    changes_each(image, after, count_change, &c);
    return of_one_change(&c) ? BULGEFS_OK : NOT_OF_VOLUME;
}

int refuse_record(const store *s, uint32_t number, size_t record)
{
    if (number != NOT_OF_VOLUME) return refuse(number, s->path);
    say("%s: refused: record %zu of the journal is not of this image, so the two are of different volumes or times; nothing was changed",
        s->path, record);
    return REFUSED;
}
