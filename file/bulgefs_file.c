/*
 * Volume files on a disk (bulgefs_file.h).  Every place that is written comes from
 * the proved calls on volume files, and every system call goes through the table.
 */
#include "bulgefs_file.h"

#include <string.h>

#define NO_FILE      ((intptr_t)-1)
#define NEW_SUFFIX   ".bulgefs-new"
#define MOST_TURNS   16   /* how often a file may be replaced while it is being opened */

enum { NOT_OPEN, LOOKING, CHANGING };

/* ---- answers ---- */

static bulgefs_volume_result done(void)
{
    bulgefs_volume_result r = { BULGEFS_VOLUME_OK, 0, 0 };
    return r;
}

static bulgefs_volume_result failed(uint32_t error, uint32_t system)
{
    bulgefs_volume_result r = { BULGEFS_VOLUME_OK, 0, 0 };
    r.error = error;
    r.system = system;
    return r;
}

static bulgefs_volume_result refused(uint32_t refusal)
{
    bulgefs_volume_result r = { BULGEFS_VOLUME_REFUSED, 0, 0 };
    r.refusal = refusal;
    return r;
}

/* What a system call answered, where its failure is this error. */
static bulgefs_volume_result answered(int64_t answer, uint32_t error, uint32_t number)
{
    if (answer >= 0)
        return done();
    if (answer == BULGEFS_SYSTEM_BUSY)
        return failed(BULGEFS_VOLUME_BUSY, number);
    if (answer == BULGEFS_SYSTEM_EXISTS)
        return failed(BULGEFS_VOLUME_EXISTS, number);
    return failed(error, number);
}

/* ---- system calls, made again while they are interrupted ---- */

static bulgefs_volume_result open_file(const bulgefs_system *s, const char *path, int how, intptr_t *file)
{
    uint32_t number = 0;
    int64_t answer;
    do
        answer = s->open(s->context, path, how, file, &number);
    while (answer == BULGEFS_SYSTEM_INTERRUPTED);
    return answered(answer, BULGEFS_VOLUME_OPEN, number);
}

static bulgefs_volume_result lock_file(const bulgefs_system *s, intptr_t file, int alone)
{
    uint32_t number = 0;
    int64_t answer;
    do
        answer = s->lock(s->context, file, alone, &number);
    while (answer == BULGEFS_SYSTEM_INTERRUPTED);
    return answered(answer, BULGEFS_VOLUME_LOCK, number);
}

static bulgefs_volume_result same_file(const bulgefs_system *s, intptr_t file, const char *path, int *same)
{
    uint32_t number = 0;
    int64_t answer;
    do
        answer = s->same(s->context, file, path, &number);
    while (answer == BULGEFS_SYSTEM_INTERRUPTED);
    *same = answer > 0;
    return answered(answer, BULGEFS_VOLUME_OPEN, number);
}

static bulgefs_volume_result settle_file(const bulgefs_system *s, intptr_t file)
{
    uint32_t number = 0;
    int64_t answer;
    do
        answer = s->settle(s->context, file, &number);
    while (answer == BULGEFS_SYSTEM_INTERRUPTED);
    return answered(answer, BULGEFS_VOLUME_FLUSH, number);
}

static bulgefs_volume_result file_length(const bulgefs_system *s, intptr_t file, uint64_t *length)
{
    uint32_t number = 0;
    int64_t answer;
    do
        answer = s->length(s->context, file, &number);
    while (answer == BULGEFS_SYSTEM_INTERRUPTED);
    *length = answer < 0 ? 0 : (uint64_t)answer;
    return answered(answer, BULGEFS_VOLUME_READ, number);
}

/* Reads a file from its beginning.  One that ends early is an error. */
static bulgefs_volume_result read_file(const bulgefs_system *s, intptr_t file, uint8_t *to, size_t length)
{
    size_t at = 0;
    while (at < length) {
        uint32_t number = 0;
        int64_t moved = s->read(s->context, file, to + at, length - at, at, &number);
        if (moved == BULGEFS_SYSTEM_INTERRUPTED)
            continue;
        if (moved <= 0)
            return failed(BULGEFS_VOLUME_READ, moved < 0 ? number : 0);
        at += (size_t)moved;
    }
    return done();
}

/* Writes a place of the bytes to the same place of the file.  A write that moves no byte is an error. */
static bulgefs_volume_result write_file(const bulgefs_system *s, intptr_t file, const uint8_t *bytes,
                                        size_t start, size_t length)
{
    size_t end = start + length;
    while (start < end) {
        uint32_t number = 0;
        int64_t moved = s->write(s->context, file, bytes + start, end - start, start, &number);
        if (moved == BULGEFS_SYSTEM_INTERRUPTED)
            continue;
        if (moved <= 0)
            return failed(BULGEFS_VOLUME_WRITE, moved < 0 ? number : 0);
        start += (size_t)moved;
    }
    return done();
}

/* A flush that failed is never tried again: the system may have forgotten what was not written. */
static bulgefs_volume_result flush_file(const bulgefs_system *s, intptr_t file)
{
    uint32_t number = 0;
    int64_t answer;
    do
        answer = s->flush(s->context, file, &number);
    while (answer == BULGEFS_SYSTEM_INTERRUPTED);
    return answered(answer, BULGEFS_VOLUME_FLUSH, number);
}

static bulgefs_volume_result empty_file(const bulgefs_system *s, intptr_t file)
{
    uint32_t number = 0;
    int64_t answer;
    do
        answer = s->empty(s->context, file, &number);
    while (answer == BULGEFS_SYSTEM_INTERRUPTED);
    return answered(answer, BULGEFS_VOLUME_WRITE, number);
}

static bulgefs_volume_result copy_rights(const bulgefs_system *s, intptr_t from, intptr_t to)
{
    uint32_t number = 0;
    int64_t answer;
    do
        answer = s->rights(s->context, from, to, &number);
    while (answer == BULGEFS_SYSTEM_INTERRUPTED);
    return answered(answer, BULGEFS_VOLUME_OPEN, number);
}

static bulgefs_volume_result rename_file(const bulgefs_system *s, intptr_t file, const char *from,
                                         const char *to, int over)
{
    uint32_t number = 0;
    int64_t answer;
    do
        answer = s->rename(s->context, file, from, to, over, &number);
    while (answer == BULGEFS_SYSTEM_INTERRUPTED);
    return answered(answer, BULGEFS_VOLUME_RENAME, number);
}

static bulgefs_volume_result flush_directory(const bulgefs_system *s, const char *path)
{
    uint32_t number = 0;
    int64_t answer;
    do
        answer = s->flush_directory(s->context, path, &number);
    while (answer == BULGEFS_SYSTEM_INTERRUPTED);
    return answered(answer, BULGEFS_VOLUME_FLUSH, number);
}

static const bulgefs_system *chosen(const bulgefs_system *system)
{
    return system ? system : bulgefs_this_system();
}

static uint8_t *allocate(const bulgefs_system *s, size_t size)
{
    return s->allocate(s->context, size ? size : 1);
}

/* ---- a file that is locked ---- */

static bulgefs_volume_result check_path(const char *path)
{
    size_t length = path ? strlen(path) : 0;
    if (length == 0 || length > BULGEFS_VOLUME_MAX_PATH)
        return failed(BULGEFS_VOLUME_BAD_PATH, 0);
    return done();
}

/* Opens and locks a file once.  If the path then no longer leads to it, *file is NO_FILE, as after an error. */
static bulgefs_volume_result open_once(const bulgefs_system *s, const char *path, int how, intptr_t *file)
{
    int same = 0;
    intptr_t opened = NO_FILE;
    bulgefs_volume_result r = open_file(s, path, how, &opened);
    *file = NO_FILE;
    if (r.error)
        return r;
    r = lock_file(s, opened, how != BULGEFS_SYSTEM_LOOK);
    if (!r.error)
        r = same_file(s, opened, path, &same);
    if (same)
        *file = opened;
    else
        s->close(s->context, opened);
    return r;
}

/*
 * Opens and locks the file of a path.  A grow may put a new file there between the
 * two; then the lock is that of a file without a name, and both are done again.
 */
static bulgefs_volume_result open_locked(const bulgefs_system *s, const char *path, int how, intptr_t *file)
{
    int turn;
    for (turn = 0; turn < MOST_TURNS; turn++) {
        bulgefs_volume_result r = open_once(s, path, how, file);
        if (r.error || *file != NO_FILE)
            return r;
    }
    return failed(BULGEFS_VOLUME_BUSY, 0);
}

/* ---- open ---- */

/* The length of the longest volume file. */
static uint64_t longest(void)
{
    return bulgefs_file_size(BULGEFS_MAX_BLOCKS, BULGEFS_FILE_MAX_JOURNAL, BULGEFS_FILE_MAX_OWN);
}

/* Reads the whole file into memory. */
static bulgefs_volume_result load_bytes(bulgefs_volume_file *v)
{
    uint64_t length;
    bulgefs_volume_result r = file_length(v->system, v->file, &length);
    if (r.error)
        return r;
    if (length > longest())
        return refused(BULGEFS_FILE_BAD_LENGTH);
    v->bytes_len = (size_t)length;
    v->bytes = allocate(v->system, v->bytes_len);
    if (!v->bytes)
        return failed(BULGEFS_VOLUME_NO_MEMORY, 0);
    return read_file(v->system, v->file, v->bytes, v->bytes_len);
}

/*
 * What programs did before is on the disk before anything is read that is to be
 * changed.  What one wrote before it was killed must have reached the disk, and what
 * did not reach it after a failed flush must be forgotten: otherwise the commit
 * sector that is read may not be the one on the disk.  And the name must be there:
 * otherwise saves could go to a file whose rename, by a create or grow that did not
 * come to its end, is undone by a power cut.
 */
static bulgefs_volume_result settle_all(const bulgefs_system *s, intptr_t file, const char *path)
{
    bulgefs_volume_result r = settle_file(s, file);
    return r.error ? r : flush_directory(s, path);
}

/* Opens, locks and reads any file. */
static bulgefs_volume_result load(bulgefs_volume_file *v, const char *path, int how, const bulgefs_system *s)
{
    bulgefs_volume_result r;
    memset(v, 0, sizeof *v);
    v->system = s;
    v->file = NO_FILE;
    r = check_path(path);
    if (!r.error)
        r = open_locked(s, path, how == BULGEFS_VOLUME_LOOK ? BULGEFS_SYSTEM_LOOK : BULGEFS_SYSTEM_CHANGE,
                        &v->file);
    if (r.error)
        return r;
    v->state = how == BULGEFS_VOLUME_LOOK ? LOOKING : CHANGING;
    if (v->state == CHANGING)
        r = settle_all(s, v->file, path);
    if (!r.error)
        r = load_bytes(v);
    return r;
}

static bulgefs_volume_result write_place(const bulgefs_volume_file *v, uint32_t start, uint32_t length)
{
    return write_file(v->system, v->file, v->bytes, start, length);
}

/* Writes the home sectors of a log of so many sectors; those that touch are one write. */
static bulgefs_volume_result write_home(const bulgefs_volume_file *v, uint32_t sectors)
{
    uint32_t index, start = 0, length = 0;
    for (index = 0; index < sectors; index++) {
        bulgefs_part home = bulgefs_file_home(v->bytes, v->bytes_len, index);
        if (length && home.start != start + length) {
            bulgefs_volume_result r = write_place(v, start, length);
            if (r.error)
                return r;
            length = 0;
        }
        if (!length)
            start = home.start;
        length += home.length;
    }
    return write_place(v, start, length);
}

/* Writes the commit sector, and flushes. */
static bulgefs_volume_result write_commit(const bulgefs_volume_file *v)
{
    bulgefs_volume_result r = write_place(v, BULGEFS_FILE_COMMIT, BULGEFS_FILE_COMMIT_LENGTH);
    return r.error ? r : flush_file(v->system, v->file);
}

/* Steps 3 and 4 of a save, and recovery.  A log that does not wait has nothing written. */
static bulgefs_volume_result finish(bulgefs_volume_file *v)
{
    bulgefs_volume_result r;
    bulgefs_file_recovered recovered = bulgefs_file_recover(v->bytes, v->bytes_len);
    if (recovered.number)
        return refused(recovered.number);
    if (!recovered.waited || v->state == LOOKING)
        return done();
    r = write_home(v, recovered.sectors);
    if (!r.error)
        r = flush_file(v->system, v->file);
    return r.error ? r : write_commit(v);
}

/* Copies the three parts out of the file's bytes and lends them. */
static bulgefs_volume_result lend(bulgefs_volume_file *v)
{
    bulgefs_file_places p = bulgefs_file_parts(v->bytes, v->bytes_len);
    if (p.number)
        return refused(p.number);
    v->lent = allocate(v->system, (size_t)p.image_length + p.journal_length + p.own_length);
    if (!v->lent)
        return failed(BULGEFS_VOLUME_NO_MEMORY, 0);
    v->image = v->lent;
    v->image_len = p.image_length;
    v->journal = v->image + p.image_length;
    v->journal_len = p.journal_length;
    v->own = v->journal + p.journal_length;
    v->own_len = p.own_length;
    memcpy(v->image, v->bytes + p.image_start, p.image_length);
    memcpy(v->journal, v->bytes + p.journal_start, p.journal_length);
    memcpy(v->own, v->bytes + p.own_start, p.own_length);
    return done();
}

bulgefs_volume_result bulgefs_volume_open(bulgefs_volume_file *volume, const char *path, int how,
                                          const bulgefs_system *system)
{
    bulgefs_volume_result r = load(volume, path, how, chosen(system));
    if (!r.error)
        r = finish(volume);
    if (!r.error)
        r = lend(volume);
    if (r.error)
        bulgefs_volume_close(volume);
    return r;
}

void bulgefs_volume_close(bulgefs_volume_file *volume)
{
    const bulgefs_system *s = volume->system;
    if (s) {
        if (volume->file != NO_FILE)
            s->close(s->context, volume->file);
        s->release(s->context, volume->lent);
        s->release(s->context, volume->bytes);
    }
    memset(volume, 0, sizeof *volume);
    volume->file = NO_FILE;
}

/* ---- save ---- */

/* Step 1.  Writes the log, and flushes; *sectors says how many sectors are in it. */
static bulgefs_volume_result write_log(bulgefs_volume_file *v, uint32_t *sectors)
{
    bulgefs_volume_result r;
    bulgefs_file_prepared p = bulgefs_file_prepare(v->bytes, v->bytes_len, v->image, v->image_len, v->journal,
                                                   v->journal_len, v->own, v->own_len);
    *sectors = p.sectors;
    if (p.number)
        return refused(p.number);
    if (p.sectors == 0)
        return done();
    r = write_place(v, p.numbers_start, p.numbers_length);
    if (!r.error)
        r = write_place(v, p.sectors_start, p.sectors_length);
    return r.error ? r : flush_file(v->system, v->file);
}

/* The four steps. */
static bulgefs_volume_result save_steps(bulgefs_volume_file *v)
{
    uint32_t sectors, refusal;
    bulgefs_volume_result r = write_log(v, &sectors);
    if (r.error || sectors == 0)
        return r;
    refusal = bulgefs_file_commit(v->bytes, v->bytes_len);
    if (refusal)
        return refused(refusal);
    r = write_commit(v);
    return r.error ? r : finish(v);
}

bulgefs_volume_result bulgefs_volume_save(bulgefs_volume_file *volume)
{
    bulgefs_volume_result r;
    if (volume->state == NOT_OPEN)
        return failed(BULGEFS_VOLUME_NOT_OPEN, 0);
    if (volume->state == LOOKING)
        return failed(BULGEFS_VOLUME_LOOK_ONLY, 0);
    r = save_steps(volume);
    if (r.error)
        volume->state = NOT_OPEN;
    return r;
}

/* ---- new files ---- */

/* Bytes that are to be a new file. */
typedef struct {
    const uint8_t *bytes;
    size_t length;
    intptr_t like;   /* a file whose owner and rights the new one gets, or NO_FILE */
    int over;        /* whether it takes the place of a file of its name */
} new_file;

static bulgefs_volume_result fill(const bulgefs_system *s, intptr_t file, const new_file *n)
{
    bulgefs_volume_result r = empty_file(s, file);
    if (!r.error && n->like != NO_FILE)
        r = copy_rights(s, n->like, file);
    if (!r.error)
        r = write_file(s, file, n->bytes, 0, n->length);
    return r.error ? r : flush_file(s, file);
}

/* Fills a file that is locked, and gives it its name.  If that fails, the file is removed, under either name. */
static bulgefs_volume_result fill_and_name(const bulgefs_system *s, intptr_t file, const new_file *n,
                                           const char *name, const char *path)
{
    bulgefs_volume_result r = fill(s, file, n);
    if (!r.error)
        r = rename_file(s, file, name, path, n->over);
    if (r.error) {
        s->remove(s->context, name);
        return r;
    }
    r = flush_directory(s, path);
    if (r.error && !n->over)
        s->remove(s->context, path);
    return r;
}

/* Writes a new file under another name, flushes it and renames it. */
static bulgefs_volume_result write_new(const bulgefs_system *s, const char *path, const new_file *n)
{
    char name[BULGEFS_VOLUME_MAX_PATH + sizeof NEW_SUFFIX];
    intptr_t file = NO_FILE;
    bulgefs_volume_result r = check_path(path);
    if (r.error)
        return r;
    strcpy(name, path);
    strcat(name, NEW_SUFFIX);
    r = open_locked(s, name, BULGEFS_SYSTEM_MAKE, &file);
    if (r.error)
        return r;
    r = fill_and_name(s, file, n, name, path);
    s->close(s->context, file);
    return r;
}

/* Image, journal and own bytes; the places of the last two may be longer, and are filled up with zeros. */
typedef struct {
    const uint8_t *image, *journal, *own;
    size_t image_len, journal_len, own_len;
    size_t journal_place, own_place;
} contents;

/* How many sectors a length has; a number that no part can have if they are not whole. */
static uint32_t sectors_of(size_t length)
{
    size_t sectors = length / 512;
    return length % 512 || sectors > UINT32_MAX ? UINT32_MAX : (uint32_t)sectors;
}

/* The length of the volume file that holds the contents; 0 if there is none. */
static size_t length_for(const contents *c)
{
    return (size_t)bulgefs_file_size(sectors_of(c->image_len), sectors_of(c->journal_place),
                                     sectors_of(c->own_place));
}

/* memcpy, for a pointer that is NULL if there are no bytes. */
static void copy_bytes(uint8_t *to, const uint8_t *from, size_t length)
{
    if (length)
        memcpy(to, from, length);
}

/* Puts the contents into the bytes of a new volume file. */
static uint32_t compose(uint8_t *bytes, size_t length, const contents *c)
{
    uint8_t *home = bytes + BULGEFS_FILE_HOME;
    memset(bytes, 0, length);
    copy_bytes(home, c->image, c->image_len);
    copy_bytes(home + c->image_len, c->journal, c->journal_len);
    copy_bytes(home + c->image_len + c->journal_place, c->own, c->own_len);
    return bulgefs_file_begin(bytes, length, sectors_of(c->image_len), sectors_of(c->journal_place),
                              sectors_of(c->own_place));
}

/* Writes a new volume file; like and over as in new_file. */
static bulgefs_volume_result write_volume(const bulgefs_system *s, const char *path, const contents *c,
                                          intptr_t like, int over)
{
    bulgefs_volume_result r;
    new_file n = { NULL, 0, like, over };
    uint32_t refusal;
    uint8_t *bytes;
    n.length = length_for(c);
    if (n.length == 0)
        return failed(BULGEFS_VOLUME_BAD_SIZE, 0);
    bytes = allocate(s, n.length);
    if (!bytes)
        return failed(BULGEFS_VOLUME_NO_MEMORY, 0);
    refusal = compose(bytes, n.length, c);
    n.bytes = bytes;
    r = refusal ? refused(refusal) : write_new(s, path, &n);
    s->release(s->context, bytes);
    return r;
}

bulgefs_volume_result bulgefs_volume_create(const char *path, const uint8_t *image, size_t image_len,
                                            const uint8_t *journal, size_t journal_len, const uint8_t *own,
                                            size_t own_len, const bulgefs_system *system)
{
    contents c = { image, journal, own, image_len, journal_len, own_len, journal_len, own_len };
    return write_volume(chosen(system), path, &c, NO_FILE, 0);
}

bulgefs_volume_result bulgefs_volume_grow(const char *path, size_t journal_len, const bulgefs_system *system)
{
    bulgefs_volume_file v;
    bulgefs_volume_result r = bulgefs_volume_open(&v, path, BULGEFS_VOLUME_CHANGE, system);
    if (r.error)
        return r;
    if (journal_len <= v.journal_len) {
        r = failed(BULGEFS_VOLUME_BAD_SIZE, 0);
    } else {
        contents c = { v.image, v.journal, v.own, v.image_len, v.journal_len, v.own_len, journal_len, v.own_len };
        r = write_volume(v.system, path, &c, v.file, 1);
    }
    bulgefs_volume_close(&v);
    return r;
}

/* ---- pairs of files ---- */

/* Reads a file of a pair.  One longer than any volume file is no part of a pair. */
static bulgefs_volume_result load_part(bulgefs_volume_file *v, const char *path, const bulgefs_system *s)
{
    bulgefs_volume_result r = load(v, path, BULGEFS_VOLUME_LOOK, s);
    return r.error == BULGEFS_VOLUME_REFUSED ? failed(BULGEFS_VOLUME_BAD_SIZE, 0) : r;
}

bulgefs_volume_result bulgefs_volume_import(const char *path, const char *image_path, const char *journal_path,
                                            size_t own_len, const bulgefs_system *system)
{
    const bulgefs_system *s = chosen(system);
    bulgefs_volume_file image, journal;
    bulgefs_volume_result r = load_part(&image, image_path, s);
    if (!r.error) {
        r = load_part(&journal, journal_path, s);
        if (!r.error) {
            contents c = { image.bytes, journal.bytes, NULL, image.bytes_len, journal.bytes_len, 0,
                           (journal.bytes_len + 511) / 512 * 512, own_len };
            r = write_volume(s, path, &c, NO_FILE, 0);
        }
        bulgefs_volume_close(&journal);
    }
    bulgefs_volume_close(&image);
    return r;
}

bulgefs_volume_result bulgefs_volume_export(const char *path, const char *image_path, const char *journal_path,
                                            const bulgefs_system *system)
{
    bulgefs_volume_file v;
    bulgefs_volume_result r = bulgefs_volume_open(&v, path, BULGEFS_VOLUME_LOOK, system);
    if (r.error)
        return r;
    new_file image = { v.image, v.image_len, NO_FILE, 0 };
    new_file journal = { v.journal, v.journal_len, NO_FILE, 0 };
    r = write_new(v.system, image_path, &image);
    if (!r.error) {
        r = write_new(v.system, journal_path, &journal);
        if (r.error)
            v.system->remove(v.system->context, image_path);
    }
    bulgefs_volume_close(&v);
    return r;
}
