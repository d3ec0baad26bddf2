/*
 * Volume files on a real disk, in the folder that is the first argument: locks of
 * other programs, a file that may only be read, a disk without room, files of wrong
 * lengths, a file from a crash in every step, and programs killed at random.  The
 * second argument says how many are killed; if it is `full`, no file can be long, and
 * only that is tried.
 */
#if !defined(_WIN32)
#define _GNU_SOURCE
#endif
#include "disk.h"
#include "host.h"
#include "pair.h"

#include <stdio.h>
#include <stdlib.h>
#include <string.h>
#if !defined(_WIN32)
#include <signal.h>
#include <sys/resource.h>
#include <sys/stat.h>
#include <sys/wait.h>
#include <unistd.h>
#endif

static char folder[300], path[400], other[400], third[400];
static pair start;

static void set_names(const char *name)
{
    snprintf(path, sizeof path, "%s/%s", folder, name);
    snprintf(other, sizeof other, "%s/%s.image", folder, name);
    snprintf(third, sizeof third, "%s/%s.journal", folder, name);
}

static void name_files(const char *name)
{
    set_names(name);
    host_remove(path);
    host_remove(other);
    host_remove(third);
}

static bulgefs_volume_result create(void)
{
    return bulgefs_volume_create(path, start.image, IMAGE_LEN, start.journal, JOURNAL_LEN, start.own, OWN_LEN, NULL);
}

static uint32_t open_error(int how)
{
    bulgefs_volume_file v;
    uint32_t error = bulgefs_volume_open(&v, path, how, NULL).error;
    bulgefs_volume_close(&v);
    return error;
}

/* ---- plain use ---- */

static bulgefs_volume_result grow(size_t journal_len)
{
    return bulgefs_volume_grow(path, journal_len, NULL);
}

/* What the file holds; a pair without a journal if it cannot be opened. */
static pair held(void)
{
    bulgefs_volume_file v;
    pair p;
    memset(&p, 0, sizeof p);
    if (bulgefs_volume_open(&v, path, BULGEFS_VOLUME_LOOK, NULL).error == 0)
        pair_take(&p, &v);
    bulgefs_volume_close(&v);
    return p;
}

static void run_plain(const char *name)
{
    bulgefs_volume_file v;
    bulgefs_volume_result r;
    pair a, b;
    name_files(name);
    r = bulgefs_volume_open(&v, path, BULGEFS_VOLUME_CHANGE, NULL);
    judge(r.error == BULGEFS_VOLUME_OPEN && r.system == host_missing, "a missing file: %u", (unsigned)r.system);
    judge(create().error == 0, "create");
    judge(create().error == BULGEFS_VOLUME_EXISTS, "create over a file");
    judge(bulgefs_volume_open(&v, path, BULGEFS_VOLUME_CHANGE, NULL).error == 0, "open");
    for (int i = 0; i < 9; i++) {
        pair_change(v.image, v.journal, v.journal_len, v.own, disk_random);
        judge(bulgefs_volume_save(&v).error == 0, "save");
    }
    pair_take(&a, &v);
    bulgefs_volume_close(&v);
    b = held();
    judge(b.journal_len == JOURNAL_LEN && pair_same(&a, &b) && pair_goes_back(&b), "what was saved");
}

/* A system that cannot rename over an open file refuses a grow, and nothing has changed. */
static void run_grow(void)
{
    pair a, b;
    char name[500];
    bulgefs_volume_result r;
    int able;
    name_files("grow");
    able = host_renames_over(other, third);
    judge(create().error == 0, "create");
    a = held();
#if !defined(_WIN32)
    judge(chmod(path, 0640) == 0, "chmod");
#endif
    r = grow(LONG_JOURNAL);
    b = held();
    snprintf(name, sizeof name, "%s.bulgefs-new", path);
    judge(!host_exists(name) && pair_same(&a, &b) && pair_goes_back(&b), "the file after a grow");
    if (!able) {
        printf("grow: refused and nothing changed; not run, this system cannot rename over an open file\n");
        judge(r.error == BULGEFS_VOLUME_RENAME && r.system && b.journal_len == JOURNAL_LEN, "a grow: %u", (unsigned)r.error);
        return;
    }
    judge(r.error == 0 && b.journal_len == LONG_JOURNAL, "grow: %u, %u", (unsigned)r.error, (unsigned)r.system);
#if !defined(_WIN32)
    struct stat s;
    judge(stat(path, &s) == 0 && (s.st_mode & 07777) == 0640, "rights after a grow");
#endif
    judge(grow(LONG_JOURNAL).error == BULGEFS_VOLUME_BAD_SIZE, "a grow by nothing");
    judge(grow(LONG_JOURNAL + 1).error == BULGEFS_VOLUME_BAD_SIZE, "a grow by one byte");
}

static void run_pairs(void)
{
    static uint8_t bytes[100000];
    bulgefs_volume_file v;
    name_files("pairs");
    judge(create().error == 0 && bulgefs_volume_export(path, other, third, NULL).error == 0, "export");
    judge(host_get(other, bytes, sizeof bytes) == IMAGE_LEN && memcmp(bytes, start.image, IMAGE_LEN) == 0, "the image");
    judge(host_get(third, bytes, sizeof bytes) == JOURNAL_LEN && memcmp(bytes, start.journal, JOURNAL_LEN) == 0,
          "the journal");
    judge(bulgefs_volume_export(path, other, third, NULL).error == BULGEFS_VOLUME_EXISTS, "export over files");
    judge(bulgefs_volume_import(path, other, third, 512, NULL).error == BULGEFS_VOLUME_EXISTS, "import over a file");
    host_remove(path);
    judge(host_set_length(third, 5001) && bulgefs_volume_import(path, other, third, 512, NULL).error == 0, "import");
    judge(bulgefs_volume_open(&v, path, BULGEFS_VOLUME_LOOK, NULL).error == 0 && v.own_len == 512
          && v.journal_len == 5120 && memcmp(v.image, start.image, IMAGE_LEN) == 0
          && bulgefs_undo_to(v.image, v.image_len, v.journal, v.journal_len, BULGEFS_FIRST_MARK).number == 0,
          "what was imported");
    bulgefs_volume_close(&v);
    host_remove(path);
    judge(host_set_length(other, IMAGE_LEN - 1)
          && bulgefs_volume_import(path, other, third, 0, NULL).error == BULGEFS_VOLUME_BAD_SIZE, "a cut image");
    judge(!host_exists(path), "a refused import");
}

/* ---- locks ---- */

/* In another program: opens the file, says so, and holds it until its pipe is closed. */
static int hold_on(int how, intptr_t in, intptr_t out)
{
    bulgefs_volume_file v;
    char byte = bulgefs_volume_open(&v, path, how, NULL).error == 0;
    if (!host_write(out, &byte, 1) || host_read(in, &byte, 1))
        return 1;
    bulgefs_volume_close(&v);
    return 0;
}

static host_program hold(int how)
{
    host_program program = host_start(how == BULGEFS_VOLUME_LOOK ? "look" : "change", path);
    char byte = 0;
    judge(host_read(program.from, &byte, 1) && byte == 1, "an open by another program");
    return program;
}

static void let_go(host_program program)
{
    host_shut(program.to);
    host_shut(program.from);
    judge(host_wait(&program) == 0, "the other program");
}

static void run_locks(void)
{
    bulgefs_volume_file v;
    host_program program;
    name_files("locks");
    judge(create().error == 0, "create");
    program = hold(BULGEFS_VOLUME_CHANGE);
    judge(open_error(BULGEFS_VOLUME_CHANGE) == BULGEFS_VOLUME_BUSY, "two that save");
    judge(open_error(BULGEFS_VOLUME_LOOK) == BULGEFS_VOLUME_BUSY, "a look while one saves");
    judge(grow(LONG_JOURNAL).error == BULGEFS_VOLUME_BUSY, "a grow while one saves");
    let_go(program);
    program = hold(BULGEFS_VOLUME_LOOK);
    judge(open_error(BULGEFS_VOLUME_LOOK) == 0, "two that look");
    judge(open_error(BULGEFS_VOLUME_CHANGE) == BULGEFS_VOLUME_BUSY, "a save while one looks");
    let_go(program);
    program = hold(BULGEFS_VOLUME_CHANGE);
    host_kill(&program);
    judge(host_wait(&program) == -1, "a kill");
    host_shut(program.to);
    host_shut(program.from);
    judge(open_error(BULGEFS_VOLUME_CHANGE) == 0, "an open after the other was killed");
    judge(bulgefs_volume_open(&v, path, BULGEFS_VOLUME_CHANGE, NULL).error == 0, "open");
    judge(open_error(BULGEFS_VOLUME_CHANGE) == BULGEFS_VOLUME_BUSY, "a second open of the same program");
    bulgefs_volume_close(&v);
}

/* ---- a crash in every step ---- */

/* A volume file on the simulated disk after power was cut at a call of a save. */
static const uint8_t *crashed(unsigned at, size_t *length, pair *after, unsigned *flushes)
{
    bulgefs_volume_file v;
    disk_new();
    disk_seed(at + 1);
    if (bulgefs_volume_create("v", start.image, IMAGE_LEN, start.journal, JOURNAL_LEN, start.own, OWN_LEN,
                              &disk_system).error
        || bulgefs_volume_open(&v, "v", BULGEFS_VOLUME_CHANGE, &disk_system).error)
        abort();
    v.own[0] = (uint8_t)at;
    v.own[700] = 1;
    while (v.image[512 * 8] == 0)
        pair_change(v.image, v.journal, v.journal_len, v.own, disk_random);
    pair_take(after, &v);
    disk_arm(CUT_AFTER, at);
    (void)!bulgefs_volume_save(&v).error;
    *flushes = disk_count.flushes;
    bulgefs_volume_close(&v);
    disk_power(NULL);
    return disk_bytes("v", length);
}

/* The real file holds the pair of before or of after; a look leaves its bytes as they are. */
static int recovers(const pair *after, unsigned flushes)
{
    static uint8_t old[100000], new[100000];
    bulgefs_volume_file v;
    pair looked, opened;
    size_t length = host_get(path, old, sizeof old);
    int is_old, is_new;
    if (bulgefs_volume_open(&v, path, BULGEFS_VOLUME_LOOK, NULL).error)
        return 0;
    pair_take(&looked, &v);
    bulgefs_volume_close(&v);
    if (host_get(path, new, sizeof new) != length || memcmp(old, new, length) != 0)
        return 0;
    if (bulgefs_volume_open(&v, path, BULGEFS_VOLUME_CHANGE, NULL).error)
        return 0;
    pair_take(&opened, &v);
    bulgefs_volume_close(&v);
    is_old = pair_same(&opened, &start) && flushes < 2;
    is_new = pair_same(&opened, after) && flushes > 0;
    return pair_same(&looked, &opened) && (is_old || is_new) && pair_goes_back(&opened);
}

static void run_crashes(void)
{
    unsigned at, flushes = 0, seen = 0;
    for (at = 0; at < 14; at++) {
        pair after;
        size_t length;
        const uint8_t *bytes = crashed(at, &length, &after, &flushes);
        name_files("crash");
        host_put(path, bytes, length);
        judge(recovers(&after, flushes), "a crash at call %u, %u flushes", at, flushes);
        seen |= 1u << flushes;
    }
    judge(seen == 31, "a crash in every step");
}

/* ---- a file that may only be read ---- */

static pair expected;

static int can_write(void)
{
    return host_may_write(path);
}

static int read_only_act(void)
{
    bulgefs_volume_file v;
    pair p;
    bulgefs_volume_result r = bulgefs_volume_open(&v, path, BULGEFS_VOLUME_CHANGE, NULL);
    if (r.error != BULGEFS_VOLUME_OPEN || r.system != host_denied)
        return 1;
    if (bulgefs_volume_open(&v, path, BULGEFS_VOLUME_LOOK, NULL).error)
        return 2;
    pair_take(&p, &v);
    if (bulgefs_volume_save(&v).error != BULGEFS_VOLUME_LOOK_ONLY)
        return 3;
    bulgefs_volume_close(&v);
    return pair_same(&p, &expected) ? 0 : 4;
}

#if defined(_WIN32)
/* A file that may only be read is one for every user. */
#define without_rights(act) act()
#else
/* In a program without rights: what it gives is its status. */
static int without_rights(int (*act)(void))
{
    int status;
    pid_t child = fork();
    if (child == 0) {
        if (geteuid() == 0 && (setgid(65534) != 0 || setuid(65534) != 0))
            _exit(99);
        _exit(act());
    }
    return waitpid(child, &status, 0) == child && WIFEXITED(status) ? WEXITSTATUS(status) : 98;
}
#endif

/* The file's log waits. */
static void run_read_only(void)
{
    static uint8_t old[100000], new[100000];
    unsigned flushes = 0, at = 0;
    size_t length = 0;
    const uint8_t *bytes;
    int status;
    do
        bytes = crashed(at++, &length, &expected, &flushes);
    while (flushes != 2);
    name_files("read-only");
    host_put(path, bytes, length);
    judge(bulgefs_file_parts(bytes, length).waits == 1, "a log that waits");
    memcpy(old, bytes, length);
    judge(host_read_only(path, 1), "a file that may only be read");
    if (without_rights(can_write)) {
        printf("a file that may only be read: not run, this user may write it\n");
        host_remove(path);
        return;
    }
    status = without_rights(read_only_act);
    judge(status == 0, "a file that may only be read: %d", status);
    judge(host_get(path, new, sizeof new) == length && memcmp(old, new, length) == 0, "its bytes");
    judge(host_read_only(path, 0) && open_error(BULGEFS_VOLUME_CHANGE) == 0, "it may be written again");
}

/* ---- a disk without room ---- */

/* Where no file can be longer than 30,000 bytes or so: a create and a grow fail, and nothing is left of them. */
static int full_act(void)
{
    bulgefs_volume_result r;
    char name[500];
    r = bulgefs_volume_create(other, start.image, IMAGE_LEN, start.journal, JOURNAL_LEN, NULL, 0, NULL);
    if (r.error != BULGEFS_VOLUME_WRITE || r.system != host_full)
        return 2;
    r = grow(LONG_JOURNAL);
    if (r.error != BULGEFS_VOLUME_WRITE || r.system != host_full)
        return 3;
    snprintf(name, sizeof name, "%s.bulgefs-new", path);
    if (host_exists(other) || host_exists(name))
        return 4;
    return open_error(BULGEFS_VOLUME_CHANGE) == 0 ? 0 : 5;
}

#if defined(_WIN32)
/* The limit is that of a later run with the word `full`. */
static void run_full(void)
{
    name_files("full");
    judge(create().error == 0, "create");
}
#else
static int limited_act(void)
{
    struct rlimit limit = { 30000, 30000 };
    signal(SIGXFSZ, SIG_IGN);
    return setrlimit(RLIMIT_FSIZE, &limit) != 0 ? 1 : full_act();
}

static void run_full(void)
{
    int status;
    bulgefs_volume_result r;
    name_files("full");
    judge(create().error == 0, "create");
    pid_t child = fork();
    if (child == 0)
        _exit(limited_act());
    judge(waitpid(child, &status, 0) == child && status == 0, "a disk without room: %d", status);
    if (access("/dev/full", W_OK) != 0)
        return;
    host_remove(other);
    judge(symlink("/dev/full", other) == 0, "a link");
    r = bulgefs_volume_create(other, start.image, IMAGE_LEN, start.journal, JOURNAL_LEN, NULL, 0, NULL);
    judge(r.error == BULGEFS_VOLUME_EXISTS, "create over a link");
}
#endif

/* ---- files of a wrong kind or length ---- */

static bulgefs_volume_result open_result(int how)
{
    bulgefs_volume_file v;
    bulgefs_volume_result r = bulgefs_volume_open(&v, path, how, NULL);
    bulgefs_volume_close(&v);
    return r;
}

static void judge_length(long length, uint32_t refusal)
{
    for (int how = 0; how < 2; how++) {
        bulgefs_volume_result r;
        judge(host_set_length(path, length), "truncate");
        r = open_result(how);
        judge(r.error == BULGEFS_VOLUME_REFUSED && r.refusal == refusal, "a file of %ld bytes: error %u, refusal %u",
              length, (unsigned)r.error, (unsigned)r.refusal);
    }
}

static size_t most_memory;

static void *noted_memory(void *context, size_t size)
{
    (void)context;
    if (size > most_memory)
        most_memory = size;
    return malloc(size);
}

/* A file that is longer than any volume file is not read into memory. */
static void run_too_long(void)
{
    bulgefs_volume_file v;
    bulgefs_system noted = *bulgefs_this_system();
    bulgefs_volume_result r;
    noted.allocate = noted_memory;
    name_files("long");
    judge(create().error == 0 && host_set_length(path, 202246145), "a long file");
    r = bulgefs_volume_open(&v, path, BULGEFS_VOLUME_LOOK, &noted);
    judge(r.error == BULGEFS_VOLUME_REFUSED && r.refusal == BULGEFS_FILE_BAD_LENGTH && most_memory == 0,
          "a file that is too long takes %zu bytes of memory", most_memory);
    host_remove(path);
}

/* A program that shortens what was lent is refused, and the file stays as it is. */
static void run_shortened(void)
{
    bulgefs_volume_file v;
    bulgefs_volume_result r;
    pair a, b;
    name_files("shortened");
    judge(create().error == 0, "create");
    a = held();
    judge(bulgefs_volume_open(&v, path, BULGEFS_VOLUME_CHANGE, NULL).error == 0, "open");
    v.image[512 * 8] ^= 1;
    v.image_len -= 512;
    r = bulgefs_volume_save(&v);
    judge(r.error == BULGEFS_VOLUME_REFUSED && r.refusal == BULGEFS_FILE_IMAGE_LENGTH, "a save of less: error %u, refusal %u",
          (unsigned)r.error, (unsigned)r.refusal);
    bulgefs_volume_close(&v);
    b = held();
    judge(pair_same(&a, &b), "the file after a refused save");
}

static void run_wrong(void)
{
    long right = (long)bulgefs_file_size(24, 40, 2);
    char long_path[5000];
    bulgefs_volume_file v;
    name_files("wrong");
    judge(create().error == 0, "create");
    judge_length(right + 1, BULGEFS_FILE_BAD_LENGTH);
    judge_length(right + 512, BULGEFS_FILE_BAD_LENGTH);
    judge_length(202246145, BULGEFS_FILE_BAD_LENGTH);
    judge_length(right - 1, BULGEFS_FILE_BAD_LENGTH);
    judge_length(1024, BULGEFS_FILE_BAD_LENGTH);
    judge_length(1023, BULGEFS_FILE_TOO_SHORT);
    judge_length(0, BULGEFS_FILE_TOO_SHORT);
    judge_length(4096, BULGEFS_FILE_BAD_HEADER);
    host_remove(path);
#if !defined(_WIN32)
    judge(mkfifo(path, 0600) == 0 && open_result(1).error == BULGEFS_VOLUME_FLUSH, "a pipe");
    judge(open_result(0).error == BULGEFS_VOLUME_READ, "a pipe, to look");
    host_remove(path);
#else
    judge(bulgefs_volume_open(&v, "\xff\xfe", 1, NULL).error == BULGEFS_VOLUME_OPEN, "a path that is not UTF-8");
#endif
    judge(host_make_directory(path) && open_result(1).error == BULGEFS_VOLUME_OPEN, "a directory");
    judge(open_result(0).error != 0 && host_remove_directory(path), "a directory, to look");
    memset(long_path, 'a', sizeof long_path - 1);
    long_path[sizeof long_path - 1] = 0;
    judge(bulgefs_volume_open(&v, long_path, 1, NULL).error == BULGEFS_VOLUME_BAD_PATH, "a long path");
    judge(bulgefs_volume_open(&v, "", 1, NULL).error == BULGEFS_VOLUME_BAD_PATH, "an empty path");
    judge(bulgefs_volume_open(&v, NULL, 1, NULL).error == BULGEFS_VOLUME_BAD_PATH, "no path");
    judge(bulgefs_volume_create(path, start.image, IMAGE_LEN, start.journal, 513, NULL, 0, NULL).error
              == BULGEFS_VOLUME_BAD_SIZE, "a journal of 513 bytes");
    judge(bulgefs_volume_create(path, start.image, 1024, start.journal, 512, NULL, 0, NULL).error
              == BULGEFS_VOLUME_BAD_SIZE, "an image of two sectors");
}

/* ---- programs that are killed ---- */

static uint64_t turns;

static uint32_t next_number(uint32_t below)
{
    turns = turns * 6364136223846793005u + 1442695040888963407u;
    return (uint32_t)(turns >> 33) % below;
}

/* The change with a number; its number stands in the own bytes. */
static void numbered_change(uint32_t number, uint8_t *image, uint8_t *journal, size_t journal_len, uint8_t *own)
{
    turns = number;
    for (int i = 0; i < 2; i++)
        pair_change(image, journal, journal_len, NULL, next_number);
    memcpy(own, &number, sizeof number);
    memset(own + 512, (int)(number & 255), 512);
}

/* In another program: saves one change after the other, and says each number before and after its save, until it is killed. */
static int save_on(intptr_t out)
{
    bulgefs_volume_file v;
    uint32_t number;
    if (bulgefs_volume_open(&v, path, BULGEFS_VOLUME_CHANGE, NULL).error)
        return 1;
    memcpy(&number, v.own, sizeof number);
    for (;;) {
        uint32_t said[2] = { ++number, 0 };
        numbered_change(number, v.image, v.journal, v.journal_len, v.own);
        if (!host_write(out, said, sizeof said) || bulgefs_volume_save(&v).error)
            return 2;
        said[1] = 1;
        if (!host_write(out, said, sizeof said))
            return 3;
    }
}

/* Lets a program save for a while and kills it; answers the last numbers that it began and saved. */
static void kill_one(uint32_t *begun, uint32_t *ended)
{
    uint32_t said[2];
    int status;
    host_program program = host_start("save", path);
    if (disk_random(8) && host_read(program.from, said, sizeof said))
        *begun = said[0];
    host_sleep(disk_random(12000));
    host_kill(&program);
    while (host_read(program.from, said, sizeof said))
        *(said[1] ? ended : begun) = said[0];
    host_shut(program.from);
    host_shut(program.to);
    status = host_wait(&program);
    judge(status == -1, "the program that saves: %d", status);
}

static void run_kills(unsigned kills)
{
    static pair now, model;
    uint32_t number = 0, begun = 0, ended = 0, made = 0;
    name_files("kills");
    model = start;
    judge(create().error == 0, "create");
    while (kills--) {
        bulgefs_volume_file v;
        kill_one(&begun, &ended);
        judge(bulgefs_volume_open(&v, path, kills % 2, NULL).error == 0, "an open after a kill");
        pair_take(&now, &v);
        bulgefs_volume_close(&v);
        memcpy(&number, now.own, sizeof number);
        judge(ended <= number && number <= (begun > ended ? begun : ended), "number %u, begun %u, saved %u", number,
              begun, ended);
        while (made < number && made++ < 1000000)
            numbered_change(made, model.image, model.journal, model.journal_len, model.own);
        judge(pair_same(&now, &model) && pair_goes_back(&now), "the pair with number %u", number);
    }
    printf("kills: %u saves\n", number);
    judge(number > 20, "saves before the kills");
}

int host_other(char **words, intptr_t in, intptr_t out)
{
    if (words[1] != path)
        strcpy(path, words[1]);
    if (strcmp(words[0], "save") == 0)
        return save_on(out);
    return hold_on(strcmp(words[0], "look") == 0 ? BULGEFS_VOLUME_LOOK : BULGEFS_VOLUME_CHANGE, in, out);
}

int main(int argc, char **argv)
{
    host_begin(argc, argv);
    if (argc < 2 || strlen(argv[1]) >= sizeof folder)
        return 2;
    setvbuf(stdout, NULL, _IONBF, 0);
    strcpy(folder, argv[1]);
    pair_start(&start);
    if (argc > 2 && strcmp(argv[2], "full") == 0) {
        int status;
        set_names("full");
        status = full_act();
        judge(status == 0, "a disk without room: %d", status);
        return finish_tests();
    }
    run_plain("plain");
    run_plain("gr\xc3\xb6\xc3\x9f" "e \xe2\x82\xac");
    run_grow();
    run_pairs();
    run_locks();
    run_crashes();
    run_read_only();
    run_full();
    run_wrong();
    run_too_long();
    run_shortened();
    run_kills(argc > 2 ? (unsigned)atoi(argv[2]) : 200);
    return finish_tests();
}
