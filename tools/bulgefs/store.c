/* store.c - a volume: image, journal and the tool's steps in one volume file, or a bare image that is only looked at. */
#include <stdlib.h>
#include <string.h>
#include <time.h>

#include "redo.h"

enum { FIRST_WAIT = 2, LONGEST_WAIT = 50, MOST_IMAGE = BULGEFS_BLOCK_SIZE * BULGEFS_MAX_BLOCKS };   /* waits are milliseconds */

int store_status(bulgefs_volume_result r, const char *path)
{
    if (r.error == BULGEFS_VOLUME_OK) return DONE;
    if (r.error == BULGEFS_VOLUME_BUSY) {
        say("%s is in use by another command; try again, or wait longer with --wait SECONDS", path);
        return IN_USE;
    }
    if (r.error == BULGEFS_VOLUME_EXISTS) say("%s is there already; nothing was changed", path);
    else if (r.error == BULGEFS_VOLUME_REFUSED) say("%s: refused: %s", path, bulgefs_file_text(r.refusal));
    else say("%s: %s%s%s", path, bulgefs_volume_text(r.error), r.system ? ": " : "", r.system ? strerror((int)r.system) : "");
    return r.error == BULGEFS_VOLUME_EXISTS || r.error == BULGEFS_VOLUME_REFUSED ? REFUSED : FAILED;
}

static uint64_t milliseconds(void)
{
    struct timespec now = { 0, 0 };
    clock_gettime(CLOCK_MONOTONIC, &now);
    return (uint64_t)now.tv_sec * 1000 + (uint64_t)now.tv_nsec / 1000000;
}

int store_again(bulgefs_volume_result r, const options *o, unsigned *tries)
{
    static uint64_t began;
    uint64_t wait = FIRST_WAIT + *tries, gone;
    struct timespec pause = { 0, 0 };
    if (r.error != BULGEFS_VOLUME_BUSY) return 0;
    if (!(*tries)++) began = milliseconds();
    gone = milliseconds() - began;
    if (gone >= o->wait * 1000) return 0;
    if (wait > LONGEST_WAIT) wait = LONGEST_WAIT;
    pause.tv_nsec = (long)wait * 1000000;
    nanosleep(&pause, NULL);
    return 1;
}

void store_close(store *s)
{
    if (!s->journal.bytes) free(s->image.bytes);
    bulgefs_volume_close(&s->file);
    memset(s, 0, sizeof *s);
}

int need_journal(const store *s)
{
    if (s->journal.bytes) return DONE;
    say("%s is a bare image, which is only looked at; `bulgefs import` makes a volume of it", s->path);
    return REFUSED;
}

/* A file that is no volume file: of a look it is a bare image. */
static int open_bare(store *s, store_mode mode)
{
    if (mode == CHANGE) return need_journal(s);
    return read_file(s->path, MOST_IMAGE, &s->image);
}

static void lend(store *s, store_mode mode)
{
    s->image = (bytes){ s->file.image, s->file.image_len };
    s->journal = (bytes){ s->file.journal, s->file.journal_len };
    s->own = (bytes){ s->file.own, s->file.own_len };
    if (mode == CHANGE) s->was = bulgefs_journal_info(s->image.bytes, s->image.length, s->journal.bytes, s->journal.length);
}

static int is_volume_file(bulgefs_volume_result r)
{
    return r.error != BULGEFS_VOLUME_REFUSED || (r.refusal != BULGEFS_FILE_TOO_SHORT && r.refusal != BULGEFS_FILE_BAD_HEADER);
}

int store_open(store *s, const char *path, store_mode mode, const options *o)
{
    int how = mode == LOOK ? BULGEFS_VOLUME_LOOK : BULGEFS_VOLUME_CHANGE;
    bulgefs_volume_result r;
    unsigned tries = 0;
    memset(s, 0, sizeof *s);
    s->path = path;
    do r = bulgefs_volume_open(&s->file, path, how, NULL);
    while (store_again(r, o, &tries));
    if (!is_volume_file(r)) return open_bare(s, mode);
    if (!r.error) lend(s, mode);
    return store_status(r, path);
}

int store_save(store *s)
{
    bulgefs_volume_result r = bulgefs_volume_save(&s->file);
    int status = store_status(r, s->path);
    if (status) say("the volume is as before or as after this change; a further command sees which");
    return status;
}

int store_finish(store *s, int status)
{
    if (!status) {
        steps_add(s);
        redo_clear(s);
        status = store_save(s);
    }
    store_close(s);
    return status;
}

int store_new(const char *path, const bytes *image, const bytes *journal, const options *o)
{
    uint8_t *own = take_memory(OWN_ROOM);
    bulgefs_volume_result r;
    unsigned tries = 0;
    do r = bulgefs_volume_create(path, image->bytes, image->length, journal->bytes, journal->length, own, OWN_ROOM, NULL);
    while (store_again(r, o, &tries));
    free(own);
    return store_status(r, path);
}

int store_start(const char *path, const bytes *image, size_t journal_length, const options *o)
{
    bytes journal = { NULL, (journal_length + 511) / 512 * 512 };
    uint32_t number;
    int status;
    journal.bytes = take_memory(journal.length);
    number = bulgefs_journal_start(journal.bytes, journal.length);
    status = number ? refuse(number, path) : store_new(path, image, &journal, o);
    free(journal.bytes);
    return status;
}

size_t usual_journal(size_t image_length)
{
    uint64_t n = image_length / BULGEFS_BLOCK_SIZE;
    uint64_t length = BULGEFS_MIN_JOURNAL + 2 * BULGEFS_RECORD_SIZE(n) + (1u << 20);
    return (size_t)(length < BULGEFS_MAX_JOURNAL ? length : BULGEFS_MAX_JOURNAL);
}
