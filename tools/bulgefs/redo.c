/*
 * redo.c - makes steps again that were taken back.
 *
 * `back` keeps, in own behind the steps: "BulgeRed", a checksum of image and
 * journal, the length of what follows, then for each record that it took back,
 * the last one first: the record with the bytes that its blocks had before the
 * undo, whether the next record to be made is of the same step, and its length.
 * The bytes are put into image and journal here in plain C.  So the library then
 * takes the steps back on copies: the pair of before must come, byte for byte.
 */
#include <stdlib.h>
#include <string.h>

#include "look.h"
#include "redo.h"

enum { SUM_AT = 8, LENGTH_AT = 16, KEPT_AT = 20, TRAILER = 8, SAVED_BLOCK = 516 };
static const char MARK[] = "BulgeRed";

void redo_keep(bytes *kept, const bytes *image, const bytes *journal, const record *one, int goes_on)
{
    uint8_t *to;
    kept->bytes = take_more(kept->bytes, kept->length + one->length + TRAILER);
    to = kept->bytes + kept->length;
    memcpy(to, journal->bytes + one->start, one->length);
    for (uint32_t i = 0; i < one->blocks; i++) {
        uint8_t *block = to + 4 + SAVED_BLOCK * (size_t)i;
        memcpy(block + 4, image->bytes + (size_t)number_at(block) * BULGEFS_BLOCK_SIZE, BULGEFS_BLOCK_SIZE);
    }
    put_number(to + one->length, (uint32_t)goes_on);
    put_number(to + one->length + 4, one->length);
    kept->length += one->length + TRAILER;
}

static uint64_t add_sum(uint64_t sum, const bytes *part)
{
    for (size_t i = 0; i < part->length; i++) sum = (sum ^ part->bytes[i]) * 1099511628211u;
    return sum;
}

static void put_sum(const store *s, uint8_t *to)
{
    uint64_t sum = add_sum(add_sum(14695981039346656037u, &s->image), &s->journal);
    put_number(to, (uint32_t)(sum >> 32));
    put_number(to + 4, (uint32_t)sum);
}

/* What was kept for this very pair; length 0 if nothing was. */
bytes redo_kept(const store *s)
{
    size_t room = steps_own(&s->own);
    const uint8_t *at = room > STEPS_ROOM + KEPT_AT ? s->own.bytes + STEPS_ROOM : NULL;
    bytes kept = { NULL, 0 };
    uint8_t sum[8];
    if (!at || memcmp(at, MARK, 8) || number_at(at + LENGTH_AT) > room - STEPS_ROOM - KEPT_AT) return kept;
    put_sum(s, sum);
    if (memcmp(at + SUM_AT, sum, 8)) return kept;
    kept.length = number_at(at + LENGTH_AT);
    kept.bytes = take_more(NULL, kept.length);
    memcpy(kept.bytes, at + KEPT_AT, kept.length);
    return kept;
}

/* Own bytes of another program have no mark of steps. */
static int has_room(const store *s, size_t length)
{
    return steps_own(&s->own) >= STEPS_ROOM + KEPT_AT + length && !memcmp(s->own.bytes, "BulgeSte", 8);
}

void redo_clear(store *s)
{
    if (has_room(s, 0)) memset(s->own.bytes + STEPS_ROOM, 0, steps_own(&s->own) - STEPS_ROOM);
}

int redo_write(store *s, const bytes *kept)
{
    uint8_t *at = s->own.bytes + STEPS_ROOM;
    redo_clear(s);
    if (!has_room(s, kept->length)) return 0;
    memcpy(at, MARK, 8);
    put_sum(s, at + SUM_AT);
    put_number(at + LENGTH_AT, (uint32_t)kept->length);
    if (kept->length) memcpy(at + KEPT_AT, kept->bytes, kept->length);
    return 1;
}

/* Puts a record into the journal, with the bytes that its blocks have, and the kept ones into the image. */
static int make_record(store *s, const uint8_t *kept, uint32_t length)
{
    uint32_t used = s->was.used, blocks = (length - 4) / SAVED_BLOCK;
    uint8_t *to = s->journal.bytes + used;
    if (length > s->journal.length - used) return refuse(BULGEFS_JOURNAL_FULL, s->path);
    memcpy(to, kept, length);
    for (uint32_t i = 0; i < blocks; i++) {
        uint8_t *block = to + 4 + SAVED_BLOCK * (size_t)i, *now;
        if (number_at(block) >= s->image.length / BULGEFS_BLOCK_SIZE) return refuse(BULGEFS_BAD_JOURNAL, s->path);
        now = s->image.bytes + (size_t)number_at(block) * BULGEFS_BLOCK_SIZE;
        memcpy(block + 4, now, BULGEFS_BLOCK_SIZE);
        memcpy(now, kept + 4 + SAVED_BLOCK * (size_t)i + 4, BULGEFS_BLOCK_SIZE);
    }
    s->was.used = used + length;
    put_number(s->journal.bytes + 1, s->was.used);
    return DONE;
}

/* The length of the last kept record, or 0 if there is none of a good length. */
static uint32_t last_length(const bytes *kept)
{
    uint32_t length = kept->length < TRAILER ? 0 : number_at(kept->bytes + kept->length - 4);
    return length < 4 || length > kept->length - TRAILER || (length - 4) % SAVED_BLOCK ? 0 : length;
}

static int none_left(const store *s)
{
    say("%s: refused: so many steps were not taken back just before, or they were too long to be kept; nothing was changed", s->path);
    return REFUSED;
}

/* Makes the step that was taken back last; counts its records. */
static int make_step(store *s, bytes *kept, size_t *records)
{
    uint32_t goes_on = 1, number;
    int status = DONE;
    while (goes_on && !status) {
        uint32_t length = last_length(kept);
        if (!length) return none_left(s);
        goes_on = number_at(kept->bytes + kept->length - TRAILER);
        kept->length -= TRAILER + length;
        status = make_record(s, kept->bytes + kept->length, length);
        ++*records;
    }
    if (status) return status;
    number = s->was.records;
    steps_add(s);
    s->was = bulgefs_journal_info(s->image.bytes, s->image.length, s->journal.bytes, s->journal.length);
    return s->was.number || s->was.records <= number ? refuse(BULGEFS_BAD_JOURNAL, s->path) : DONE;
}

/* Whether the library finds the image sound, and takes the steps back to the pair of before. */
static int can_go_back(const store *s, const bytes *image, const bytes *journal, uint32_t mark)
{
    bytes x = copy_bytes(&s->image), y = copy_bytes(&s->journal);
    int good = !bulgefs_check(x.bytes, x.length) && !bulgefs_undo_to(x.bytes, x.length, y.bytes, y.length, mark).number
        && !memcmp(x.bytes, image->bytes, x.length) && !memcmp(y.bytes, journal->bytes, y.length);
    free(x.bytes);
    free(y.bytes);
    if (!good) say("%s: what was kept to be made again does not fit; nothing was changed", s->path);
    return good;
}

static int make(store *s, uint64_t steps)
{
    bytes kept = redo_kept(s), image = copy_bytes(&s->image), journal = copy_bytes(&s->journal);
    uint32_t mark = s->was.used;
    uint64_t done = 0;
    size_t records = 0;
    int status = DONE;
    do status = make_step(s, &kept, &records);
    while (!status && ++done != steps && (steps || kept.length));
    if (!status && !can_go_back(s, &image, &journal, mark)) status = REFUSED;
    if (!status) redo_write(s, &kept);
    if (!status) status = store_save(s);
    if (!status) printf("made %llu %s again, %zu %s\n", (unsigned long long)done, done == 1 ? "step" : "steps", records, records == 1 ? "record" : "records");
    free(kept.bytes);
    free(image.bytes);
    free(journal.bytes);
    return status;
}

int command_redo(int argc, char **argv, const options *o)
{
    int all = take_flag(&argc, argv, "--all"), status;
    uint64_t steps = 1;
    store s;
    if (!good_arguments(&argc, argv, 1, all ? 1 : 2)) return usage("redo VOLUME [N|--all]");
    if (argc > 2 && read_number(argv[2], "N", 1, UINT32_MAX, &steps)) return FAILED;
    status = store_open(&s, argv[1], CHANGE, o);
    if (status) return status;
    status = s.was.number ? refuse(s.was.number, s.path) : make(&s, all ? 0 : steps);
    store_close(&s);
    return status;
}
