/*
 * cuts TOOL VOLUME K PLACE ARGUMENT...: takes down every operation of TOOL ARGUMENT... in the current folder, then makes the disk as a cut of power after
 * each of them may leave it, looks by `check`, and compares what the files mean with the states before and after the command.  With K above 0 the command is
 * stopped at its K-th system call, and the cuts are those of the recovery that follows, by a command that is refused.  The last line is `N passed, M failed`.
 *
 * The disk: what was synced stays.  Of the writes to a file since its last fsync any may be there or not, whole, half or as zeros.  Names made, moved
 * and removed since the folder's last fsync may be there up to any of them, in order.
 */
#include "state.h"
#include "trace.h"

#include <stdio.h>
#include <stdlib.h>
#include <string.h>
#include <sys/stat.h>
#include <unistd.h>

enum { MOST_OPERATIONS = 400, MOST_INODES = 64, MOST_ARGUMENTS = 16, WAYS = 8, MOST_SEEN = 256 };

typedef struct {
    traced is;
    uint8_t *data;
    int inode;
} operation;

typedef struct {
    uint64_t number;
    const kept_file *start; /* NULL for one made by the command */
} inode;

typedef struct {
    char name[TRACE_NAME];
    int inode;
} named;

typedef struct {
    char *command[MOST_ARGUMENTS], *check[4], *recovery[5];
    state before, after;
    operation operations[MOST_OPERATIONS];
    inode inodes[MOST_INODES];
    int count, first, inode_count, passed, failed;
    uint64_t seen[MOST_SEEN];
    int seen_count;
} trial;

static int latest_inode(const trial *t, uint64_t number)
{
    for (int i = t->inode_count - 1; i >= 0; i--)
        if (t->inodes[i].number == number)
            return i;
    return -1;
}

static int add_inode(trial *t, uint64_t number, const kept_file *start)
{
    if (t->inode_count == MOST_INODES)
        give_up("too many files in the trace");
    t->inodes[t->inode_count] = (inode){ number, start };
    return t->inode_count++;
}

static void load_trace(trial *t)
{
    FILE *in = fopen("../trace", "rb");
    traced is;
    while (in && fread(&is, sizeof is, 1, in) == 1) {
        if (t->count == MOST_OPERATIONS)
            give_up("too many operations");
        operation *o = &t->operations[t->count++];
        *o = (operation){ is, NULL, -1 };
        if (is.kind == TRACE_WRITE) {
            o->data = room(is.length);
            if (fread(o->data, 1, is.length, in) != is.length)
                give_up("../trace");
        }
        o->inode = is.kind == TRACE_CREATE ? add_inode(t, is.file, NULL) : is.file ? latest_inode(t, is.file) : -1;
    }
    if (in)
        fclose(in);
}

static int set_name(named *names, int count, const char *name, int inode)
{
    for (int i = 0; i < count; i++)
        if (strcmp(names[i].name, name) == 0) {
            names[i].inode = inode;
            return count;
        }
    if (count == MOST_FILES)
        give_up("too many names");
    snprintf(names[count].name, TRACE_NAME, "%s", name);
    names[count].inode = inode;
    return count + 1;
}

static int inode_of(const named *names, int count, const char *name)
{
    for (int i = 0; i < count; i++)
        if (strcmp(names[i].name, name) == 0)
            return names[i].inode;
    return -1;
}

static int changes_names(const operation *o)
{
    return o->is.kind == TRACE_CREATE || o->is.kind == TRACE_RENAME || o->is.kind == TRACE_UNLINK;
}

static int change_names(named *names, int count, const operation *o)
{
    if (o->is.kind == TRACE_CREATE)
        return set_name(names, count, o->is.name, o->inode);
    int moved = inode_of(names, count, o->is.name);
    count = set_name(names, count, o->is.name, -1);
    return o->is.kind == TRACE_RENAME ? set_name(names, count, o->is.to, moved) : count;
}

/* The last sync of a file, or with -1 of the folder, among the operations below the cut; what is below it stays. */
static int synced(const trial *t, int cut, int of)
{
    for (int i = cut - 1; i >= 0; i--) {
        const operation *o = &t->operations[i];
        if (o->is.kind == TRACE_SYNC && (of < 0 ? o->is.folder : !o->is.folder && o->inode == of))
            return i;
    }
    return 0;
}

static int pending_names(const trial *t, int cut)
{
    int pending = 0;
    for (int i = synced(t, cut, -1); i < cut; i++)
        pending += changes_names(&t->operations[i]);
    return pending;
}

static void lengthen(kept_file *f, size_t length)
{
    if (length <= f->length)
        return;
    uint8_t *longer = room(length);
    memset(longer, 0, length);
    if (f->length)
        memcpy(longer, f->bytes, f->length);
    free(f->bytes);
    f->bytes = longer;
    f->length = length;
}

/* Whether the i-th operation, which was not synced, is there: none, all, each second one, all by halves, only lengths, some at random. */
static int is_there(int way, int i)
{
    switch (way) {
    case 0: return 0;
    case 2: return i % 2 == 0;
    case 3: return i % 2 == 1;
    case 6: return (i * 2654435761u >> 13) % 2 == 0;
    case 7: return (i * 2246822519u >> 17) % 2 == 0;
    default: return 1;
    }
}

static void apply(kept_file *f, const operation *o, int way)
{
    size_t length = (size_t)o->is.length, offset = (size_t)o->is.offset;
    if (o->is.kind == TRACE_LENGTH) {
        lengthen(f, offset);
        f->length = offset;
        return;
    }
    lengthen(f, offset + length);
    if (way != 5)
        memcpy(f->bytes + offset, o->data, way == 4 ? length / 2 : length);
}

static kept_file content(const trial *t, int of, int cut, int way)
{
    kept_file f = { .bytes = room(0), .length = 0 };
    const kept_file *start = t->inodes[of].start;
    if (start) {
        lengthen(&f, start->length);
        memcpy(f.bytes, start->bytes, start->length);
    }
    int safe = synced(t, cut, of);
    for (int i = 0; i < cut; i++) {
        const operation *o = &t->operations[i];
        if (o->inode != of || o->is.folder || (o->is.kind != TRACE_WRITE && o->is.kind != TRACE_LENGTH))
            continue;
        if (i < safe || is_there(way, i))
            apply(&f, o, i < safe ? 1 : way);
    }
    return f;
}

/* The disk after a cut, with so many of the names not synced, and the bytes not synced in one of the ways. */
static state disk(const trial *t, int cut, int keep, int way)
{
    named names[MOST_FILES];
    int count = 0, safe = synced(t, cut, -1);
    for (int i = 0; i < t->before.count; i++)
        count = set_name(names, count, t->before.files[i].name, i);
    for (int i = 0; i < cut; i++)
        if (changes_names(&t->operations[i]) && (i < safe || keep-- > 0))
            count = change_names(names, count, &t->operations[i]);
    state s = { .count = 0 };
    for (int i = 0; i < count; i++) {
        if (names[i].inode < 0)
            continue;
        s.files[s.count] = content(t, names[i].inode, cut, way);
        settle(&s.files[s.count]);
        memcpy(s.files[s.count++].name, names[i].name, TRACE_NAME);
    }
    return s;
}

static int is_new(trial *t, const state *s)
{
    uint64_t sum = fingerprint(s);
    for (int i = 0; i < t->seen_count; i++)
        if (t->seen[i] == sum)
            return 0;
    if (t->seen_count < MOST_SEEN)
        t->seen[t->seen_count++] = sum;
    return 1;
}

static void judge(trial *t, const state *s, int cut, int keep, int way)
{
    const char *none[] = { NULL };
    put_state(s);
    int status = run_with(t->check, none);
    state now = read_state();
    int volume = find(&now, t->check[2]) != NULL;
    int after = same_state(&now, &t->after);
    int good = status == (volume ? 0 : 2) && (after || (cut < t->count && same_state(&now, &t->before)));
    t->passed += good;
    t->failed += !good;
    if (!good) {
        fprintf(stderr, "%s, power cut after %d of %d operations, %d names, way %d: ", t->command[1], cut, t->count, keep, way);
        fprintf(stderr, "check gave status %d\n", status);
        tell_difference("before", &now, &t->before);
        tell_difference("after", &now, &t->after);
    }
    free_state(&now);
}

static void cut_everywhere(trial *t)
{
    for (int cut = t->first; cut <= t->count; cut++) {
        t->seen_count = 0;
        int names = pending_names(t, cut);
        for (int keep = 0; keep <= names; keep++)
            for (int way = 0; way < WAYS; way++) {
                state s = disk(t, cut, keep, way);
                if (is_new(t, &s))
                    judge(t, &s, cut, keep, way);
                free_state(&s);
            }
    }
}

static void start_inodes(trial *t)
{
    for (int i = 0; i < t->before.count; i++) {
        struct stat about;
        if (stat(t->before.files[i].name, &about) != 0)
            give_up("stat");
        add_inode(t, about.st_ino, &t->before.files[i]);
    }
}

/* How many operations are in the trace so far. */
static int taken_down(void)
{
    FILE *in = fopen("../trace", "rb");
    traced is;
    int count = 0;
    for (; in && fread(&is, sizeof is, 1, in) == 1; count++)
        if (is.kind == TRACE_WRITE && fseek(in, (long)is.length, SEEK_CUR) != 0)
            give_up("../trace");
    if (in)
        fclose(in);
    return count;
}

static void run_traced(char **argv, const char *k, const char *place, int wanted)
{
    const char *pairs[] = { "BULGEFS_TRACE", "../trace", k ? "BULGEFS_FAULT" : NULL, k, "BULGEFS_FAULT_AT", place, NULL };
    if (run_with(argv, pairs) != wanted)
        give_up("another status than wanted");
}

/* Takes down the command; or the command that is stopped and its recovery, which then says what the state after is. */
static void take_down(trial *t, const char *k, const char *place)
{
    unlink("../trace");
    if (strcmp(k, "0") == 0) {
        run_traced(t->command, NULL, NULL, 0);
    } else {
        run_traced(t->command, k, place, STOPPED);
        t->first = taken_down();
        run_traced(t->recovery, NULL, NULL, 1);
    }
    load_trace(t);
    t->after = read_state();
    state all = disk(t, t->count, MOST_OPERATIONS, 1);
    put_state(&all);
    free_state(&all);
    all = read_state();
    if (!same_state(&t->after, &all))
        give_up("the trace is not all that was done");
    free_state(&all);
}

int main(int argc, char **argv)
{
    static trial t;
    if (argc < 6 || argc - 3 >= MOST_ARGUMENTS)
        return 2;
    t.command[0] = argv[1];
    memcpy(t.command + 1, argv + 5, (size_t)(argc - 5) * sizeof *argv);
    t.check[0] = argv[1];
    t.check[1] = "check";
    t.check[2] = argv[2];
    t.recovery[0] = argv[1];
    t.recovery[1] = "rm";
    t.recovery[2] = argv[2];
    t.recovery[3] = "/no such file";
    t.before = read_state();
    start_inodes(&t);
    take_down(&t, argv[3], argv[4]);
    cut_everywhere(&t);
    put_state(&t.before);
    printf("%d operations, %d passed, %d failed\n", t.count - t.first, t.passed, t.failed);
    return t.failed != 0;
}
