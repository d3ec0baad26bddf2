/* The simulated disk of disk.h. */
#include "disk.h"

#include <stdio.h>
#include <stdlib.h>
#include <string.h>

#define FILES   24
#define OPENS   16
#define NAMES   8
#define TABLES  16
#define SECTOR  512u

typedef struct {
    int used;
    uint8_t *disk, *cache, *dirty;   /* dirty has one byte for each sector */
    size_t disk_len, cache_len, room;
    int lock;                        /* -1: of one alone; else how many share it */
} file_state;

typedef struct {
    char name[NAMES][64];
    int file[NAMES];                 /* -1: no name here */
} name_table;

static struct {
    file_state file[FILES];
    name_table table[TABLES];        /* the first is on the disk, the last is that of now */
    int tables;
} disk, kept;

static struct { int used, file, lock, writes; } opens[OPENS];
static enum fault armed;
static unsigned armed_at;
static int dead, struck;
static uint32_t struck_error;
disk_counts disk_count;
void (*disk_meanwhile)(void);
static uint64_t state = 88172645463325252u;

static void stop(const char *why)
{
    printf("disk: %s\n", why);
    abort();
}

void disk_seed(uint64_t seed)
{
    state = seed * 2685821657736338717u + 88172645463325252u;
    if (!state)
        state = 1;
}

uint32_t disk_random(uint32_t below)
{
    state ^= state << 13;
    state ^= state >> 7;
    state ^= state << 17;
    return (uint32_t)(state >> 32) % below;
}

/* ---- files and names ---- */

static name_table *names(void)
{
    return &disk.table[disk.tables - 1];
}

static int find(const char *path)
{
    for (int i = 0; i < NAMES; i++)
        if (names()->file[i] >= 0 && strcmp(names()->name[i], path) == 0)
            return i;
    return -1;
}

/* A change of names is one more table; a cut leaves any of those since the last flush. */
static name_table *change_names(void)
{
    if (disk.tables == TABLES)
        stop("too many changes of names");
    disk.table[disk.tables] = disk.table[disk.tables - 1];
    disk.tables++;
    return names();
}

static void set_name(name_table *t, const char *path, int file)
{
    int i = find(path);
    for (int k = 0; i < 0 && k < NAMES; k++)
        if (t->file[k] < 0)
            i = k;
    if (i < 0 || strlen(path) >= sizeof t->name[0])
        stop("too many names");
    strcpy(t->name[i], path);
    t->file[i] = file;
}

static void make_room(file_state *f, size_t length)
{
    size_t room = (length + 2 * SECTOR - 1) / SECTOR * SECTOR;
    if (room <= f->room)
        return;
    f->disk = realloc(f->disk, room);
    f->cache = realloc(f->cache, room);
    f->dirty = realloc(f->dirty, room / SECTOR);
    memset(f->disk + f->room, 0, room - f->room);
    memset(f->cache + f->room, 0, room - f->room);
    memset(f->dirty + f->room / SECTOR, 0, (room - f->room) / SECTOR);
    f->room = room;
}

static int new_file_state(void)
{
    for (int i = 0; i < FILES; i++)
        if (!disk.file[i].used) {
            disk.file[i].used = 1;
            return i;
        }
    stop("too many files");
    return -1;
}

static void free_file(file_state *f)
{
    free(f->disk);
    free(f->cache);
    free(f->dirty);
    memset(f, 0, sizeof *f);
}

/* Forgets files that have no name, now or on the disk, and are not open. */
static void collect(void)
{
    for (int i = 0; i < FILES; i++) {
        int needed = 0;
        for (int t = 0; t < disk.tables; t++)
            for (int k = 0; k < NAMES; k++)
                needed |= disk.table[t].file[k] == i;
        for (int o = 0; o < OPENS; o++)
            needed |= opens[o].used && opens[o].file == i;
        if (!needed && disk.file[i].used)
            free_file(&disk.file[i]);
    }
}

static void close_all(void)
{
    memset(opens, 0, sizeof opens);
    for (int i = 0; i < FILES; i++)
        disk.file[i].lock = 0;
    disk_count.open = 0;
    dead = 0;
    armed = NO_FAULT;
    collect();
}

void disk_new(void)
{
    for (int i = 0; i < FILES; i++)
        free_file(&disk.file[i]);
    disk.tables = 1;
    for (int k = 0; k < NAMES; k++)
        disk.table[0].file[k] = -1;
    close_all();
    memset(&disk_count, 0, sizeof disk_count);
}

static uint8_t *copied(const uint8_t *from, size_t length)
{
    uint8_t *to = malloc(length ? length : 1);
    if (length)
        memcpy(to, from, length);
    return to;
}

/* A copy of the disk, which must not be in use. */
static void copy_disk(void *to_disk, const void *from_disk)
{
    memcpy(to_disk, from_disk, sizeof disk);
    file_state *to = to_disk == (void *)&disk ? disk.file : kept.file;
    for (int i = 0; i < FILES; i++)
        if (to[i].used) {
            to[i].disk = copied(to[i].disk, to[i].room);
            to[i].cache = copied(to[i].cache, to[i].room);
            to[i].dirty = copied(to[i].dirty, to[i].room / SECTOR);
            to[i].lock = 0;
        }
}

void disk_keep(void)
{
    for (int i = 0; i < FILES; i++)
        free_file(&kept.file[i]);
    copy_disk(&kept, &disk);
}

void disk_back(void)
{
    for (int i = 0; i < FILES; i++)
        free_file(&disk.file[i]);
    copy_disk(&disk, &kept);
    close_all();
}

uint8_t *disk_bytes(const char *path, size_t *length)
{
    int i = find(path);
    if (i < 0)
        return NULL;
    make_room(&disk.file[names()->file[i]], 1);
    *length = disk.file[names()->file[i]].cache_len;
    return disk.file[names()->file[i]].cache;
}

void disk_put(const char *path, const uint8_t *bytes, size_t length)
{
    int i = new_file_state();
    file_state *f = &disk.file[i];
    make_room(f, length);
    memcpy(f->disk, bytes, length);
    memcpy(f->cache, bytes, length);
    f->disk_len = f->cache_len = length;
    set_name(change_names(), path, i);
    disk.table[0] = *names();
    disk.tables = 1;
    collect();
}

/* ---- power ---- */

unsigned disk_unflushed(void)
{
    unsigned count = 0;
    for (int i = 0; i < FILES; i++)
        for (size_t s = 0; disk.file[i].used && s < disk.file[i].room / SECTOR; s++)
            count += disk.file[i].dirty[s];
    return count;
}

/* A sector of garbage often begins with 1, as a commit sector does where the log waits. */
static void settle_sector(file_state *f, size_t s, unsigned outcome)
{
    uint8_t *old = f->disk + s * SECTOR, *new = f->cache + s * SECTOR;
    for (size_t i = 0; i < SECTOR; i++) {
        if (outcome == NEW || (outcome == MIXED && disk_random(2)))
            old[i] = new[i];
        if (outcome == GARBAGE)
            old[i] = (uint8_t)disk_random(256);
    }
    if (outcome == GARBAGE && disk_random(2))
        old[0] = 1;
    f->dirty[s] = 0;
}

/* The unflushed sectors of a file get their outcomes.  Its length, if not flushed, is the old or the new one. */
static const uint8_t *settle_sectors(file_state *f, const uint8_t *outcomes)
{
    unsigned all = disk_random(8);   /* now and then all sectors have one outcome */
    for (size_t s = 0; s < f->room / SECTOR; s++) {
        if (!f->dirty[s])
            continue;
        settle_sector(f, s, outcomes ? *outcomes++ : all < OUTCOMES ? all : disk_random(OUTCOMES));
    }
    if (disk_random(2))
        f->disk_len = f->cache_len;
    return outcomes;
}

static void forget_cache(file_state *f)
{
    if (f->room)
        memcpy(f->cache, f->disk, f->room);
    f->cache_len = f->disk_len;
}

void disk_power(const uint8_t *outcomes)
{
    for (int i = 0; i < FILES; i++)
        if (disk.file[i].used) {
            outcomes = settle_sectors(&disk.file[i], outcomes);
            forget_cache(&disk.file[i]);
        }
    disk.table[0] = disk.table[disk_random((uint32_t)disk.tables)];
    disk.tables = 1;
    close_all();
}

void disk_kill(void)
{
    close_all();
}

/* ---- faults ---- */

void disk_arm(enum fault fault, unsigned at)
{
    unsigned open = disk_count.open, memory = disk_count.memory;
    memset(&disk_count, 0, sizeof disk_count);
    disk_count.open = open;
    disk_count.memory = memory;
    armed = fault;
    armed_at = at;
    struck = dead = 0;
    struck_error = 0;
}

int disk_struck(void)
{
    return struck;
}

uint32_t disk_error(void)
{
    return struck_error;
}

/* Counts a call, whose failure is this error, and says which fault it has. */
static enum fault meet(uint32_t error)
{
    if (dead)
        return CUT_BEFORE;
    if (disk_count.calls++ != armed_at || armed == NO_FAULT)
        return NO_FAULT;
    struck = 1;
    if (armed == FAILS)
        struck_error = error;
    if (armed == CUT_BEFORE || armed == CUT_HALF || armed == CUT_AFTER)
        dead = 1;
    return armed;
}

/* Whether a call with this fault is not done at all; if so, what it answers. */
static int spoilt(enum fault fault, uint32_t *number, int64_t *answer)
{
    *answer = fault == INTERRUPTED ? BULGEFS_SYSTEM_INTERRUPTED : BULGEFS_SYSTEM_FAILED;
    *number = FAULT_NUMBER;
    return fault == FAILS || fault == INTERRUPTED || fault == CUT_BEFORE || fault == CUT_HALF;
}

static file_state *of(intptr_t file)
{
    if (file < 0 || file >= OPENS || !opens[file].used)
        stop("a file that is not open");
    return &disk.file[opens[file].file];
}

/* ---- the system calls ---- */

static void *sim_allocate(void *context, size_t size)
{
    void *memory;
    (void)context;
    if (size == 0)
        stop("no bytes asked for");
    if (meet(BULGEFS_VOLUME_NO_MEMORY) == FAILS)
        return NULL;
    memory = malloc(size);
    if (!memory)
        stop("no memory");
    memset(memory, 0xA5, size);   /* nobody may count on zeros */
    disk_count.memory++;
    return memory;
}

static void sim_release(void *context, void *memory)
{
    (void)context;
    if (memory)
        disk_count.memory--;
    free(memory);
}

static int64_t sim_open(void *context, const char *path, int how, intptr_t *file, uint32_t *number)
{
    int64_t answer;
    int i = find(path), o = 0;
    (void)context;
    *file = -77;
    if (spoilt(meet(BULGEFS_VOLUME_OPEN), number, &answer))
        return answer;
    if (i < 0 && how != BULGEFS_SYSTEM_MAKE) {
        *number = 2;
        return BULGEFS_SYSTEM_FAILED;
    }
    while (opens[o].used)
        if (++o == OPENS)
            stop("too many files are open");
    opens[o].used = 1;
    opens[o].lock = 0;
    opens[o].writes = how != BULGEFS_SYSTEM_LOOK;
    opens[o].file = i < 0 ? new_file_state() : names()->file[i];
    if (i < 0)
        set_name(change_names(), path, opens[o].file);
    disk_count.open++;
    *file = o;
    return 0;
}

static int64_t sim_lock(void *context, intptr_t file, int alone, uint32_t *number)
{
    int64_t answer;
    file_state *f = of(file);
    void (*meanwhile)(void) = disk_meanwhile;
    (void)context;
    disk_meanwhile = NULL;
    if (meanwhile)
        meanwhile();
    if (spoilt(meet(BULGEFS_VOLUME_LOCK), number, &answer))
        return answer;
    if (f->lock < 0 || (alone && f->lock > 0)) {
        *number = 11;
        return BULGEFS_SYSTEM_BUSY;
    }
    f->lock = alone ? -1 : f->lock + 1;
    opens[file].lock = alone ? -1 : 1;
    return 0;
}

static int64_t sim_same(void *context, intptr_t file, const char *path, uint32_t *number)
{
    int64_t answer;
    int i = find(path);
    (void)context;
    if (spoilt(meet(BULGEFS_VOLUME_OPEN), number, &answer))
        return answer;
    return i >= 0 && names()->file[i] == opens[file].file;
}

static void flush_all(file_state *f)
{
    for (size_t s = 0; s < f->room / SECTOR; s++)
        if (f->dirty[s]) {
            memcpy(f->disk + s * SECTOR, f->cache + s * SECTOR, SECTOR);
            f->dirty[s] = 0;
        }
    f->disk_len = f->cache_len;
}

static int64_t sim_flush(void *context, intptr_t file, uint32_t *number)
{
    int64_t answer;
    file_state *f = of(file);
    enum fault fault = meet(BULGEFS_VOLUME_FLUSH);
    (void)context;
    if (!opens[file].writes)
        stop("a flush of a file opened to look");
    if (fault == FAILS)
        settle_sectors(f, NULL);
    if (spoilt(fault, number, &answer))
        return answer;
    flush_all(f);
    disk_count.flushes++;
    return 0;
}

static int64_t sim_settle(void *context, intptr_t file, uint32_t *number)
{
    unsigned flushes = disk_count.flushes;
    int64_t answer = sim_flush(context, file, number);
    disk_count.flushes = flushes;
    if (answer >= 0)
        forget_cache(of(file));
    return answer;
}

static int64_t sim_length(void *context, intptr_t file, uint32_t *number)
{
    int64_t answer;
    (void)context;
    if (spoilt(meet(BULGEFS_VOLUME_READ), number, &answer))
        return answer;
    return (int64_t)of(file)->cache_len;
}

/* How many bytes of a transfer are moved. */
static size_t moved(enum fault fault, size_t length)
{
    if (fault == MOVES_NONE)
        return 0;
    if (fault == CUT_HALF)
        return length / 2;
    if (fault == IS_SHORT && length > 1)
        return disk_random(2) ? 1 : length / 2;
    return length;
}

static int64_t sim_read(void *context, intptr_t file, uint8_t *to, size_t length, uint64_t at, uint32_t *number)
{
    int64_t answer;
    file_state *f = of(file);
    enum fault fault = meet(BULGEFS_VOLUME_READ);
    (void)context;
    if (spoilt(fault, number, &answer))
        return answer;
    if (fault == MOVES_NONE)
        struck_error = BULGEFS_VOLUME_READ;
    if (at >= f->cache_len)
        return 0;
    if (length > f->cache_len - at)
        length = f->cache_len - at;
    length = moved(fault, length);
    memcpy(to, f->cache + at, length);
    return (int64_t)length;
}

static void put_bytes(file_state *f, const uint8_t *from, size_t length, size_t at)
{
    if (!length)
        return;
    make_room(f, at + length);
    memcpy(f->cache + at, from, length);
    memset(f->dirty + at / SECTOR, 1, (at + length - 1) / SECTOR - at / SECTOR + 1);
    if (f->cache_len < at + length)
        f->cache_len = at + length;
}

static int64_t sim_write(void *context, intptr_t file, const uint8_t *from, size_t length, uint64_t at,
                         uint32_t *number)
{
    int64_t answer;
    int was_dead = dead;
    file_state *f = of(file);
    enum fault fault = meet(BULGEFS_VOLUME_WRITE);
    (void)context;
    if (!opens[file].writes)
        stop("a write to a file opened to look");
    if (fault == CUT_HALF && !was_dead)
        put_bytes(f, from, moved(fault, length), (size_t)at);
    if (spoilt(fault, number, &answer))
        return answer;
    if (fault == IS_FULL || fault == MOVES_NONE)
        struck_error = BULGEFS_VOLUME_WRITE;
    if (fault == IS_FULL) {
        *number = FULL_NUMBER;
        return BULGEFS_SYSTEM_FAILED;
    }
    length = moved(fault, length);
    put_bytes(f, from, length, (size_t)at);
    disk_count.writes++;
    disk_count.written += length;
    return (int64_t)length;
}

static int64_t sim_empty(void *context, intptr_t file, uint32_t *number)
{
    int64_t answer;
    (void)context;
    if (spoilt(meet(BULGEFS_VOLUME_WRITE), number, &answer))
        return answer;
    of(file)->cache_len = 0;
    disk_count.changes++;
    return 0;
}

static int64_t sim_rights(void *context, intptr_t from, intptr_t to, uint32_t *number)
{
    int64_t answer;
    (void)context;
    of(from);
    of(to);
    return spoilt(meet(BULGEFS_VOLUME_OPEN), number, &answer) ? answer : 0;
}

static int64_t sim_rename(void *context, intptr_t file, const char *from, const char *to, int over, uint32_t *number)
{
    int64_t answer;
    name_table *t;
    (void)context;
    if (spoilt(meet(BULGEFS_VOLUME_RENAME), number, &answer))
        return answer;
    if (find(from) < 0 || names()->file[find(from)] != opens[file].file)
        stop("a rename of another file");
    if (!over && find(to) >= 0) {
        *number = 17;
        return BULGEFS_SYSTEM_EXISTS;
    }
    t = change_names();
    t->file[find(from)] = -1;
    set_name(t, to, opens[file].file);
    disk_count.changes++;
    return 0;
}

static int64_t sim_flush_directory(void *context, const char *path, uint32_t *number)
{
    int64_t answer;
    (void)context;
    (void)path;
    if (spoilt(meet(BULGEFS_VOLUME_FLUSH), number, &answer))
        return answer;
    disk.table[0] = *names();
    disk.tables = 1;
    disk_count.changes++;
    return 0;
}

static void sim_remove(void *context, const char *path)
{
    (void)context;
    if (meet(BULGEFS_VOLUME_OK) == CUT_BEFORE || find(path) < 0)
        return;
    name_table *t = change_names();
    t->file[find(path)] = -1;
    disk_count.changes++;
}

static void sim_close(void *context, intptr_t file)
{
    file_state *f = of(file);
    (void)context;
    (void)meet(BULGEFS_VOLUME_OK);
    if (opens[file].lock)
        f->lock = opens[file].lock < 0 ? 0 : f->lock - 1;
    opens[file].used = 0;
    disk_count.open--;
    if (!dead)
        collect();
}

const bulgefs_system disk_system = {
    NULL, sim_allocate, sim_release, sim_open, sim_lock, sim_same, sim_settle, sim_length, sim_read, sim_write,
    sim_flush, sim_empty, sim_rights, sim_rename, sim_flush_directory, sim_remove, sim_close
};
