/* steps.c - which of the journal's records are one step. */
#include <stdlib.h>
#include <string.h>

#include "tool.h"

enum { RECORD_HEAD = 4, SAVED_BLOCK = 516, COUNT_AT = 8, USED_AT = 12, BITS_AT = 16 };
static const char MARK[] = "BulgeSte";

/*
 * The records in order.  The library says that the journal is well formed, how
 * many there are and where the last one ends; the lengths of the others are read here.
 */
static void list_records(const bytes *journal, bulgefs_journal info, record_list *list)
{
    uint32_t at = BULGEFS_FIRST_MARK;
    list->records = take_memory(((size_t)info.records + 1) * sizeof *list->records);
    list->used = info.used;
    while (list->count < info.records) {
        uint32_t length = number_at(journal->bytes + at);
        list->records[list->count++] = (record){ at, length, (length - RECORD_HEAD) / SAVED_BLOCK, 0 };
        at += length;
    }
}

size_t steps_own(const bytes *own)
{
    return own->length < 2 * NOTE_ROOM ? 0 : own->length - NOTE_ROOM;
}

/* How many records there are bits for: none in bytes of another program, which neither begin with the mark nor are all 0. */
static size_t bits(const bytes *own)
{
    size_t room = steps_own(own), length = room < STEPS_ROOM ? room : STEPS_ROOM;
    if (!length) return 0;
    for (size_t i = 0; memcmp(own->bytes, MARK, 8) && i < room; i++) {
        if (own->bytes[i]) return 0;
    }
    return 8 * (length - BITS_AT);
}

static int goes_on(const bytes *own, size_t record)
{
    return record < bits(own) && own->bytes[BITS_AT + record / 8] >> record % 8 & 1;
}

/* How many records the bits tell of: none if the journal has no such record, or it ends elsewhere. */
static size_t told(const bytes *own, const record_list *list)
{
    size_t count = bits(own) ? number_at(own->bytes + COUNT_AT) : 0;
    if (!count || count > list->count) return 0;
    return number_at(own->bytes + USED_AT) == (count < list->count ? list->records[count].start : list->used) ? count : 0;
}

uint32_t steps_list(const store *s, record_list *list)
{
    bulgefs_journal info = bulgefs_journal_info(s->image.bytes, s->image.length, s->journal.bytes, s->journal.length);
    size_t known;
    memset(list, 0, sizeof *list);
    if (info.number) return info.number;
    list_records(&s->journal, info, list);
    known = told(&s->own, list);
    for (size_t i = 0; i < list->count; i++) {
        if (i == 0 || i >= known || !goes_on(&s->own, i)) list->steps++;
        list->records[i].step = list->steps;
    }
    return BULGEFS_OK;
}

/* Writes the steps of a list, of which the records from first on are one. */
static void write_steps(bytes *own, const record_list *list, size_t first)
{
    size_t room = bits(own);
    if (!room) return;
    memset(own->bytes, 0, BITS_AT + room / 8);
    memcpy(own->bytes, MARK, 8);
    put_number(own->bytes + COUNT_AT, (uint32_t)list->count);
    put_number(own->bytes + USED_AT, list->used);
    for (size_t i = 1; i < list->count && i < room; i++) {
        int on = i > first || (i < first && list->records[i].step == list->records[i - 1].step);
        if (on) own->bytes[BITS_AT + i / 8] |= (uint8_t)(1 << i % 8);
    }
}

void steps_add(store *s)
{
    record_list list;
    if (steps_list(s, &list)) return;
    write_steps(&s->own, &list, s->was.records);
    free(list.records);
}

void steps_cut(store *s, const record_list *before, size_t count)
{
    record_list left = *before;
    left.used = count < before->count ? before->records[count].start : before->used;
    left.count = count;
    write_steps(&s->own, &left, count);
}
