/*
 * Each system call of open, save, create, grow, import and export fails, is short,
 * is interrupted, or is the last before a power cut.  After a cut every outcome of
 * the unflushed sectors is tried where they are few, and many at random where they
 * are not; recovery is cut again and again at random.  What is then on the disk is
 * what was there before or what was to be there after, and nothing else.
 */
#include "disk.h"
#include "pair.h"

#include <stdio.h>
#include <string.h>

static pair before, after;       /* what the volume file may hold */
static pair seen;
static int committed_by_flush;   /* whether the second flush decides */

static const char *const fault_names[FAULTS] = {
    "no fault", "fails", "is full", "moves no byte", "is short", "is interrupted", "power before", "power half way", "power after"
};

/* Which changes a save has: few sectors, or those of puts. */
static void small_change(uint8_t *image, uint8_t *journal, size_t journal_len, uint8_t *own)
{
    (void)image;
    (void)journal;
    (void)journal_len;
    own[3] = 7;
    own[700] = 9;
}

static void large_change(uint8_t *image, uint8_t *journal, size_t journal_len, uint8_t *own)
{
    static const uint8_t data[120] = "9600";
    own[0]++;
    for (int i = 0; i < 2; i++)
        (void)!bulgefs_put_settings(image, IMAGE_LEN, journal, journal_len, (const uint8_t *)"B7", 2, data,
                                    sizeof data, 1700000001000u).number;
}

static void (*change)(uint8_t *, uint8_t *, size_t, uint8_t *);

/* ---- worlds ---- */

static void put_volume(const char *path, const pair *p)
{
    bulgefs_volume_result r = bulgefs_volume_create(path, p->image, IMAGE_LEN, p->journal, p->journal_len, p->own,
                                                    OWN_LEN, &disk_system);
    judge(r.error == 0 && disk_unflushed() == 0, "create of %s, error %u", path, (unsigned)r.error);
}

/* A disk with a volume that has some changes; before and after are the same. */
static void world_plain(void)
{
    disk_new();
    pair_start(&before);
    for (int i = 0; i < 6; i++)
        pair_change(before.image, before.journal, before.journal_len, before.own, disk_random);
    after = before;
    put_volume("v", &before);
}

static void world_save(void)
{
    world_plain();
    change(after.image, after.journal, after.journal_len, after.own);
    committed_by_flush = 1;
}

static bulgefs_volume_result act_save(void)
{
    bulgefs_volume_file v;
    bulgefs_volume_result r = bulgefs_volume_open(&v, "v", BULGEFS_VOLUME_CHANGE, &disk_system);
    if (r.error)
        return r;
    change(v.image, v.journal, v.journal_len, v.own);
    r = bulgefs_volume_save(&v);
    if (r.error)
        judge(bulgefs_volume_save(&v).error == BULGEFS_VOLUME_NOT_OPEN, "a save after a failed one");
    bulgefs_volume_close(&v);
    return r;
}

/* A volume whose log waits: a save that was cut after its second flush, half of its home sectors garbage. */
static void world_waits(void)
{
    uint8_t outcomes[64];
    unsigned at = 0;
    for (size_t i = 0; i < sizeof outcomes; i++)
        outcomes[i] = i % 2 ? GARBAGE : OLD;
    do {
        world_save();
        disk_arm(CUT_AFTER, at++);
        (void)!act_save().error;
    } while (disk_count.flushes < 2 || disk_unflushed() == 0);
    disk_power(outcomes);
    before = after;
    committed_by_flush = 0;
}

static void world_empty(void)
{
    disk_new();
    pair_start(&after);
    memset(&before, 0, sizeof before);
}

/* The rest of an earlier create that was cut. */
static void world_remnant(void)
{
    static const uint8_t rest[100000] = "rest";
    world_empty();
    disk_put("v.bulgefs-new", rest, sizeof rest);
}

static void world_pair(void)
{
    world_empty();
    pair_change(after.image, after.journal, after.journal_len, NULL, disk_random);
    disk_put("i", after.image, IMAGE_LEN);
    disk_put("j", after.journal, JOURNAL_LEN - 37);
}

static bulgefs_volume_result act_open(void)
{
    bulgefs_volume_file v;
    bulgefs_volume_result r = bulgefs_volume_open(&v, "v", BULGEFS_VOLUME_CHANGE, &disk_system);
    if (!r.error)
        pair_take(&seen, &v);
    bulgefs_volume_close(&v);
    return r;
}

static bulgefs_volume_result act_look(void)
{
    bulgefs_volume_file v;
    bulgefs_volume_result r = bulgefs_volume_open(&v, "v", BULGEFS_VOLUME_LOOK, &disk_system);
    if (!r.error)
        pair_take(&seen, &v);
    judge(disk_count.writes + disk_count.flushes + disk_count.changes == 0, "a look that writes");
    bulgefs_volume_close(&v);
    return r;
}

static bulgefs_volume_result act_create(void)
{
    return bulgefs_volume_create("v", after.image, IMAGE_LEN, after.journal, JOURNAL_LEN, after.own, OWN_LEN,
                                 &disk_system);
}

static bulgefs_volume_result act_grow(void)
{
    return bulgefs_volume_grow("v", LONG_JOURNAL, &disk_system);
}

static bulgefs_volume_result act_import(void)
{
    return bulgefs_volume_import("v", "i", "j", OWN_LEN, &disk_system);
}

static bulgefs_volume_result act_export(void)
{
    return bulgefs_volume_export("v", "i", "j", &disk_system);
}

static const struct scenario {
    const char *name;
    void (*world)(void);
    bulgefs_volume_result (*act)(void);
    void (*change)(uint8_t *, uint8_t *, size_t, uint8_t *);
    int makes;   /* whether the volume file is missing before */
} scenarios[] = {
    { "open", world_plain, act_open, small_change, 0 },
    { "open, log waits", world_waits, act_open, small_change, 0 },
    { "open, long log waits", world_waits, act_open, large_change, 0 },
    { "look", world_plain, act_look, small_change, 0 },
    { "look, log waits", world_waits, act_look, large_change, 0 },
    { "save of few sectors", world_save, act_save, small_change, 0 },
    { "save of puts", world_save, act_save, large_change, 0 },
    { "create", world_empty, act_create, small_change, 1 },
    { "create over a remnant", world_remnant, act_create, small_change, 1 },
    { "grow", world_plain, act_grow, small_change, 0 },
    { "grow, log waits", world_waits, act_grow, large_change, 0 },
    { "import", world_pair, act_import, small_change, 1 },
    { "export", world_plain, act_export, small_change, 0 },
    { "export, log waits", world_waits, act_export, large_change, 0 }
};

/* ---- what is there afterwards ---- */

enum { NEITHER = 0, IS_BEFORE = 1, IS_AFTER = 2 };

static int which(const pair *p)
{
    return (pair_same(p, &before) ? IS_BEFORE : 0) | (pair_same(p, &after) ? IS_AFTER : 0);
}

/* Whether the log of the file on the disk waits. */
static int waits(void)
{
    size_t length = 0;
    const uint8_t *bytes = disk_bytes("v", &length);
    return bytes && bulgefs_file_parts(bytes, length).waits;
}

/* Opens the volume file and says what it holds; a file that is missing is the pair of before where it was missing. */
static int found(const struct scenario *s)
{
    int looked = NEITHER, opened;
    bulgefs_volume_result r = act_look();
    if (s->makes && r.error == BULGEFS_VOLUME_OPEN)
        return IS_BEFORE;
    if (r.error == 0)
        looked = which(&seen);
    r = act_open();
    if (r.error)
        return NEITHER;
    opened = which(&seen);
    if (!pair_goes_back(&seen) || disk_unflushed() || waits())
        return NEITHER;
    return looked == opened ? opened : NEITHER;
}

/* Whether files and memory were given back. */
static int all_closed(void)
{
    return disk_count.open == 0 && disk_count.memory == 0;
}

/* The files of an export are the pair's, or both are missing. */
static int exported(int wanted)
{
    size_t image_len = 0, journal_len = 0;
    uint8_t *image = disk_bytes("i", &image_len), *journal = disk_bytes("j", &journal_len);
    if (!image || !journal)
        return !wanted && !image && !journal;
    return image_len == IMAGE_LEN && memcmp(image, after.image, IMAGE_LEN) == 0 && journal_len == after.journal_len
        && memcmp(journal, after.journal, journal_len) == 0;
}

static int remnants(void)
{
    size_t length;
    return disk_bytes("v.bulgefs-new", &length) || disk_bytes("i.bulgefs-new", &length)
        || disk_bytes("j.bulgefs-new", &length);
}

/* A new file that could not be locked is not removed: it may be that of another program. */
static int tidy(uint32_t error)
{
    return !remnants() || error == BULGEFS_VOLUME_NO_MEMORY || error == BULGEFS_VOLUME_OPEN
        || error == BULGEFS_VOLUME_LOCK;
}

/* The error is that of the call that failed, with the system's number; there is none if no call failed. */
static int well_told(bulgefs_volume_result r, enum fault fault)
{
    uint32_t error = disk_error(), number = fault == IS_FULL ? FULL_NUMBER : FAULT_NUMBER;
    if (error == 0 || error == BULGEFS_VOLUME_NO_MEMORY || fault == MOVES_NONE)
        number = 0;
    return r.error == error && r.system == number && r.refusal == 0;
}

/* Without a cut: an error is told and leaves no new file; else all is as asked for. */
static void run_fault(const struct scenario *s, enum fault fault, unsigned at)
{
    bulgefs_volume_result r;
    int holds;
    unsigned flushes;
    change = s->change;
    disk_seed(at + 1);
    committed_by_flush = 0;
    s->world();
    disk_arm(fault, at);
    r = s->act();
    judge(well_told(r, fault), "%s, call %u %s: error %u, number %u, and not error %u", s->name, at, fault_names[fault],
          (unsigned)r.error, (unsigned)r.system, (unsigned)disk_error());
    judge(all_closed() && tidy(r.error), "%s, call %u %s: files or memory are left", s->name, at, fault_names[fault]);
    if (s->act == act_export)
        judge(exported(r.error == 0), "%s, call %u %s: the pair's files", s->name, at, fault_names[fault]);
    flushes = disk_count.flushes;
    disk_arm(NO_FAULT, 0);
    holds = found(s);
    judge((holds & (r.error == 0 ? IS_AFTER : IS_BEFORE | IS_AFTER)) != 0, "%s, call %u %s: error %u, holds %d",
          s->name, at, fault_names[fault], (unsigned)r.error, holds);
    if (s->makes && r.error)
        judge(holds == IS_BEFORE, "%s, call %u %s: a file is left", s->name, at, fault_names[fault]);
    if (committed_by_flush && flushes >= 2)
        judge((holds & IS_AFTER) != 0, "%s, call %u %s: lost", s->name, at, fault_names[fault]);
}

/* Recovery, cut at random and with outcomes at random, again and again. */
static void cut_recoveries(void)
{
    while (disk_random(3)) {
        disk_arm((enum fault)(CUT_BEFORE + disk_random(3)), disk_random(18));
        (void)!act_open().error;
        disk_power(NULL);
    }
}

/* What the disk holds after a cut, with these outcomes of the unflushed sectors. */
static int outcome_good(const struct scenario *s, const uint8_t *outcomes, unsigned flushes)
{
    int holds;
    disk_back();
    disk_power(outcomes);
    cut_recoveries();
    disk_arm(NO_FAULT, 0);
    holds = found(s);
    if (committed_by_flush && flushes == 0)
        return (holds & IS_BEFORE) != 0;
    if (committed_by_flush && flushes >= 2)
        return (holds & IS_AFTER) != 0;
    return holds != NEITHER;
}

static void run_cut(const struct scenario *s, enum fault fault, unsigned at)
{
    uint8_t outcomes[8];
    unsigned good = 0, turns = 200, sectors, flushes, error;
    change = s->change;
    disk_seed(at + 1);
    committed_by_flush = 0;
    s->world();
    disk_arm(fault, at);
    error = s->act().error;
    flushes = disk_count.flushes;
    sectors = disk_unflushed();
    if (sectors <= 4)
        turns = sectors ? 4u << 2 * sectors : 16;
    disk_keep();
    for (unsigned turn = 0; turn < turns; turn++) {
        for (unsigned i = 0; i < sizeof outcomes; i++)
            outcomes[i] = (uint8_t)(turn >> 2 * i & 3);
        good += (unsigned)outcome_good(s, sectors <= 4 ? outcomes : NULL, flushes);
    }
    judge(good == turns, "%s, %s call %u (%u flushes, %u sectors, error %u): %u of %u outcomes", s->name,
          fault_names[fault], at, flushes, sectors, error, good, turns);
}

/* How many calls a scenario makes where nothing fails. */
static unsigned calls_of(const struct scenario *s)
{
    change = s->change;
    disk_seed(1);
    s->world();
    disk_arm(NO_FAULT, 0);
    judge(s->act().error == 0, "%s", s->name);
    return disk_count.calls;
}

/* Every fault but a cut at every call. */
static void run_faults(const struct scenario *s)
{
    unsigned calls = calls_of(s), at;
    int fault;
    run_fault(s, NO_FAULT, 0);
    for (fault = FAILS; fault < CUT_BEFORE; fault++)
        for (at = 0; at < calls; at++)
            run_fault(s, (enum fault)fault, at);
    printf("%s: %u calls\n", s->name, calls);
}

/* Every cut at every call. */
static void run_cuts(const struct scenario *s)
{
    unsigned calls = calls_of(s), at;
    int fault;
    for (fault = CUT_BEFORE; fault < FAULTS; fault++)
        for (at = 0; at < calls; at++)
            run_cut(s, (enum fault)fault, at);
}

/* A save in which nothing changed writes nothing, and one to a volume opened to look is refused. */
static void run_quiet(void)
{
    bulgefs_volume_file v;
    change = small_change;
    world_plain();
    judge(bulgefs_volume_open(&v, "v", BULGEFS_VOLUME_CHANGE, &disk_system).error == 0, "open");
    disk_arm(NO_FAULT, 0);
    judge(bulgefs_volume_save(&v).error == 0 && disk_count.calls == 0, "a save of nothing");
    v.own[1] ^= 1;
    judge(bulgefs_volume_save(&v).error == 0 && disk_count.flushes == 4, "a save of one byte");
    disk_arm(NO_FAULT, 0);
    judge(bulgefs_volume_save(&v).error == 0 && disk_count.calls == 0, "a save of nothing after one");
    bulgefs_volume_close(&v);
    bulgefs_volume_close(&v);
    judge(bulgefs_volume_save(&v).error == BULGEFS_VOLUME_NOT_OPEN, "a save of a closed volume");
    judge(bulgefs_volume_open(&v, "v", BULGEFS_VOLUME_LOOK, &disk_system).error == 0, "look");
    v.own[1] ^= 1;
    judge(bulgefs_volume_save(&v).error == BULGEFS_VOLUME_LOOK_ONLY, "a save by one who looks");
    bulgefs_volume_close(&v);
}

static void grow_meanwhile(void)
{
    judge(bulgefs_volume_grow("v", LONG_JOURNAL, &disk_system).error == 0, "a grow by another program");
}

static void create_meanwhile(void)
{
    judge(act_create().error == 0, "a create by another program");
}

static void replace_always(void)
{
    static uint8_t bytes[200000];
    size_t length = 0;
    memcpy(bytes, disk_bytes("v", &length), 512);
    disk_put("v", bytes, 512);
    disk_meanwhile = replace_always;
}

/* Another program grows or makes the file while this one has opened and not yet locked it. */
static void run_replaced(void)
{
    bulgefs_volume_file v;
    pair p;
    world_plain();
    disk_meanwhile = grow_meanwhile;
    judge(bulgefs_volume_open(&v, "v", BULGEFS_VOLUME_CHANGE, &disk_system).error == 0, "an open beside a grow");
    judge(v.journal_len == LONG_JOURNAL, "the file that was grown meanwhile");
    v.own[1] ^= 1;
    pair_take(&p, &v);
    judge(bulgefs_volume_save(&v).error == 0, "a save");
    bulgefs_volume_close(&v);
    disk_power(NULL);
    judge(act_open().error == 0 && pair_same(&seen, &p), "what was saved beside a grow");
    world_empty();
    disk_meanwhile = create_meanwhile;
    judge(act_create().error == BULGEFS_VOLUME_EXISTS && !remnants(), "two that create");
    judge(act_open().error == 0 && pair_same(&seen, &after), "what one of them made");
    world_plain();
    disk_meanwhile = replace_always;
    judge(act_open().error == BULGEFS_VOLUME_BUSY, "a file that is replaced again and again");
    disk_meanwhile = NULL;
    judge(all_closed(), "files and memory given back");
}

/* A grow is killed at a call; then the file is opened and saved, and power is cut: what was saved stays. */
static void run_killed_grow(unsigned at)
{
    bulgefs_volume_file v;
    pair p;
    disk_seed(at + 1);
    world_plain();
    disk_arm(CUT_BEFORE, at % 30);
    (void)!act_grow().error;
    disk_kill();
    judge(bulgefs_volume_open(&v, "v", BULGEFS_VOLUME_CHANGE, &disk_system).error == 0, "an open after a killed grow");
    v.own[1] ^= 1;
    pair_take(&p, &v);
    judge(bulgefs_volume_save(&v).error == 0, "a save after a killed grow");
    bulgefs_volume_close(&v);
    disk_power(NULL);
    judge(act_open().error == 0 && pair_same(&seen, &p), "what was saved after a grow that was killed at call %u", at % 30);
}

/* Another program makes the same file, and holds it. */
static void run_claimed(void)
{
    bulgefs_volume_file v;
    world_plain();
    put_volume("w.bulgefs-new", &before);
    judge(bulgefs_volume_open(&v, "w.bulgefs-new", BULGEFS_VOLUME_LOOK, &disk_system).error == 0, "open");
    judge(bulgefs_volume_create("w", before.image, IMAGE_LEN, before.journal, JOURNAL_LEN, NULL, 0, &disk_system).error
              == BULGEFS_VOLUME_BUSY, "a create while another one makes the file");
    bulgefs_volume_close(&v);
    judge(remnants() == 0 && act_open().error == 0, "files as they were");
}

int main(void)
{
    setvbuf(stdout, NULL, _IOLBF, 0);
    run_quiet();
    run_replaced();
    run_claimed();
    for (unsigned at = 0; at < 120; at++)
        run_killed_grow(at);
    for (size_t i = 0; i < sizeof scenarios / sizeof scenarios[0]; i++)
        run_faults(&scenarios[i]);
    for (size_t i = 0; i < sizeof scenarios / sizeof scenarios[0]; i++)
        run_cuts(&scenarios[i]);
    return finish_tests();
}
