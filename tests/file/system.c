/*
 * The table of POSIX (file/bulgefs_system.c), call by call: which calls of the system
 * each function makes, with which arguments, and what it answers when one of them
 * fails.  The calls of the system are functions of this file, which write down what
 * they were given.
 */
#define _GNU_SOURCE
#define _DARWIN_C_SOURCE
#define _FILE_OFFSET_BITS 64
#include "pair.h"

#include <errno.h>
#include <fcntl.h>
#include <stdarg.h>
#include <stdio.h>
#include <stdlib.h>
#include <string.h>
#include <sys/file.h>
#include <sys/stat.h>
#include <unistd.h>

static char trace[1000];       /* what was called */
static const char *failing;    /* the call that fails, or NULL */
static int failure;            /* as which error */
static struct stat open_file, named_file;

/* Writes a call down.  Answers -1 if it is to fail. */
static int made(const char *name, const char *format, ...)
{
    va_list arguments;
    size_t at = strlen(trace);
    va_start(arguments, format);
    at += (size_t)snprintf(trace + at, sizeof trace - at, "%s%s(", at ? " " : "", name);
    at += (size_t)vsnprintf(trace + at, sizeof trace - at, format, arguments);
    va_end(arguments);
    snprintf(trace + at, sizeof trace - at, ")");
    if (!failing || strcmp(failing, name) != 0)
        return 0;
    errno = failure;
    return -1;
}

static int fake_open(const char *path, int flags, ...)
{
    return made("open", "%s%s%s%s%s%s%s", path, (flags & O_ACCMODE) == O_RDWR ? " rw" : " r", flags & O_CREAT ? " create" : "",
                flags & O_NOFOLLOW ? " nofollow" : "", flags & O_NONBLOCK ? " nonblock" : "",
                flags & O_DIRECTORY ? " directory" : "", flags & O_CLOEXEC ? " cloexec" : "")
            ? -1 : 7;
}

static int fake_flock(int file, int how)
{
    return made("flock", "%d%s%s%s", file, how & LOCK_EX ? " alone" : "", how & LOCK_SH ? " shared" : "",
                how & LOCK_NB ? "" : " waits");
}

static int fake_fstat(int file, struct stat *s)
{
    *s = file == 7 ? open_file : named_file;
    return made("fstat", "%d", file);
}

static int fake_stat(const char *path, struct stat *s)
{
    *s = named_file;
    return made("stat", "%s", path);
}

static int fake_lstat(const char *path, struct stat *s)
{
    *s = named_file;
    return made("lstat", "%s", path);
}

static int fake_fdatasync(int file)
{
    return made("fdatasync", "%d", file);
}

static int fake_fsync(int file)
{
    return made("fsync", "%d", file);
}

static int fake_fadvise(int file, off_t at, off_t length, int how)
{
    return made("posix_fadvise", "%d %ld %ld%s", file, (long)at, (long)length, how == POSIX_FADV_DONTNEED ? " forget" : "");
}

static off_t fake_lseek(int file, off_t at, int from)
{
    return made("lseek", "%d %ld%s", file, (long)at, from == SEEK_END ? " end" : "") ? -1 : 5000000000;
}

static ssize_t fake_pread(int file, void *to, size_t length, off_t at)
{
    return made("pread", "%d %d %zu %ld", file, to == (void *)trace, length, (long)at) ? -1 : 3;
}

static ssize_t fake_pwrite(int file, const void *from, size_t length, off_t at)
{
    return made("pwrite", "%d %d %zu %ld", file, from == (const void *)trace, length, (long)at) ? -1 : 3;
}

static int fake_ftruncate(int file, off_t length)
{
    return made("ftruncate", "%d %ld", file, (long)length);
}

static int fake_fchown(int file, uid_t user, gid_t group)
{
    return made("fchown", "%d %u %u", file, (unsigned)user, (unsigned)group);
}

static int fake_fchmod(int file, mode_t mode)
{
    return made("fchmod", "%d %o", file, (unsigned)mode);
}

static int fake_rename(const char *from, const char *to)
{
    return made("rename", "%s %s", from, to);
}

static int fake_unlink(const char *path)
{
    return made("unlink", "%s", path);
}

static int fake_close(int file)
{
    return made("close", "%d", file);
}

#define open fake_open
#define flock(file, how) fake_flock(file, how)
#define fstat(file, s) fake_fstat(file, s)
#define stat(path, s) fake_stat(path, s)
#define lstat(path, s) fake_lstat(path, s)
#define fdatasync fake_fdatasync
#define fsync fake_fsync
#define posix_fadvise fake_fadvise
#define lseek fake_lseek
#define pread fake_pread
#define pwrite fake_pwrite
#define ftruncate fake_ftruncate
#define fchown fake_fchown
#define fchmod fake_fchmod
#define rename fake_rename
#define unlink fake_unlink
#define close fake_close
#include "../../file/bulgefs_system.c"
#undef open
#undef rename
#undef close
#undef unlink

/* ---- one call of the table each ---- */

static uint32_t number;
static const bulgefs_system *const table = &this_system;
static intptr_t opened;

static int64_t do_look(void) { return table->open(NULL, "v", BULGEFS_SYSTEM_LOOK, &opened, &number); }
static int64_t do_change(void) { return table->open(NULL, "v", BULGEFS_SYSTEM_CHANGE, &opened, &number); }
static int64_t do_make(void) { return table->open(NULL, "v", BULGEFS_SYSTEM_MAKE, &opened, &number); }
static int64_t do_share(void) { return table->lock(NULL, 7, 0, &number); }
static int64_t do_lock(void) { return table->lock(NULL, 7, 1, &number); }
static int64_t do_same(void) { return table->same(NULL, 7, "v", &number); }
static int64_t do_settle(void) { return table->settle(NULL, 7, &number); }
static int64_t do_length(void) { return table->length(NULL, 7, &number); }
static int64_t do_read(void) { return table->read(NULL, 7, (uint8_t *)trace, 9, 5000000000, &number); }
static int64_t do_write(void) { return table->write(NULL, 7, (const uint8_t *)trace, 9, 5000000000, &number); }
static int64_t do_flush(void) { return table->flush(NULL, 7, &number); }
static int64_t do_empty(void) { return table->empty(NULL, 7, &number); }
static int64_t do_rights(void) { return table->rights(NULL, 7, 8, &number); }
static int64_t do_rename(void) { return table->rename(NULL, 7, "a", "b", 0, &number); }
static int64_t do_replace(void) { return table->rename(NULL, 7, "a", "b", 1, &number); }
static int64_t do_folder(void) { return table->flush_directory(NULL, "one/two/v", &number); }
static int64_t do_here(void) { return table->flush_directory(NULL, "v", &number); }
static int64_t do_root(void) { return table->flush_directory(NULL, "/v", &number); }

static void do_nothing_fails(void)
{
    failing = NULL;
    number = 0;
    trace[0] = 0;
}

/* What a call answers and calls if nothing fails. */
static void judge_call(int64_t (*call)(void), int64_t answer, const char *calls)
{
    int64_t given;
    do_nothing_fails();
    given = call();
    judge(given == answer && number == 0 && strcmp(trace, calls) == 0, "answer %ld, number %u, calls %s, and not %s",
          (long)given, (unsigned)number, trace, calls);
}

/* What it answers and calls if one of these fails. */
static void judge_failure(int64_t (*call)(void), const char *which, int error, int64_t answer, uint32_t told,
                          const char *calls)
{
    int64_t given;
    do_nothing_fails();
    failing = which;
    failure = error;
    given = call();
    judge(given == answer && (given >= 0 || number == told) && strcmp(trace, calls) == 0,
          "%s fails with %d: answer %ld, number %u, calls %s, and not %s", which, error, (long)given, (unsigned)number,
          trace, calls);
}

/* A failure is told with its number; an interruption and a lock of another are told as such. */
static void judge_failures(int64_t (*call)(void), const char *which, const char *calls)
{
    judge_failure(call, which, EIO, BULGEFS_SYSTEM_FAILED, EIO, calls);
    judge_failure(call, which, ENOSPC, BULGEFS_SYSTEM_FAILED, ENOSPC, calls);
    judge_failure(call, which, EINTR, BULGEFS_SYSTEM_INTERRUPTED, EINTR, calls);
    judge_failure(call, which, EWOULDBLOCK, BULGEFS_SYSTEM_BUSY, EWOULDBLOCK, calls);
}

static void judge_both(int64_t (*call)(void), int64_t answer, const char *which, const char *calls)
{
    judge_call(call, answer, calls);
    judge_failures(call, which, calls);
}

static void run_one_call(void)
{
    judge_both(do_look, 0, "open", "open(v r nonblock cloexec)");
    judge_both(do_change, 0, "open", "open(v rw nonblock cloexec)");
    judge_both(do_make, 0, "open", "open(v rw create nofollow nonblock cloexec)");
    do_nothing_fails();
    judge(do_look() == 0 && opened == 7, "the file that was opened");
    judge_both(do_share, 0, "flock", "flock(7 shared)");
    judge_both(do_lock, 0, "flock", "flock(7 alone)");
    judge_both(do_length, 5000000000, "lseek", "lseek(7 0 end)");
    judge_both(do_read, 3, "pread", "pread(7 1 9 5000000000)");
    judge_both(do_write, 3, "pwrite", "pwrite(7 1 9 5000000000)");
    judge_both(do_flush, 0, "fdatasync", "fdatasync(7)");
    judge_both(do_empty, 0, "ftruncate", "ftruncate(7 0)");
    judge_both(do_replace, 0, "rename", "rename(a b)");
    judge_call(do_settle, 0, "fdatasync(7) posix_fadvise(7 0 0 forget)");
    judge_failures(do_settle, "fdatasync", "fdatasync(7)");
}

static void run_same(void)
{
    open_file.st_dev = named_file.st_dev = 3;
    open_file.st_ino = named_file.st_ino = 4;
    judge_call(do_same, 1, "fstat(7) stat(v)");
    named_file.st_ino = 5;
    judge_call(do_same, 0, "fstat(7) stat(v)");
    named_file.st_ino = 4;
    named_file.st_dev = 5;
    judge_call(do_same, 0, "fstat(7) stat(v)");
    judge_failures(do_same, "fstat", "fstat(7)");
    judge_failures(do_same, "stat", "fstat(7) stat(v)");
    judge_failure(do_same, "stat", ENOENT, 0, 0, "fstat(7) stat(v)");
}

static void run_rights(void)
{
    open_file.st_mode = S_IFREG | 04751;
    open_file.st_uid = named_file.st_uid = 10;
    open_file.st_gid = named_file.st_gid = 20;
    judge_call(do_rights, 0, "fstat(7) fstat(8) fchmod(8 4751)");
    judge_failures(do_rights, "fchmod", "fstat(7) fstat(8) fchmod(8 4751)");
    judge_failures(do_rights, "fstat", "fstat(7)");
    named_file.st_gid = 21;
    judge_call(do_rights, 0, "fstat(7) fstat(8) fchown(8 10 20) fchmod(8 4751)");
    judge_failures(do_rights, "fchown", "fstat(7) fstat(8) fchown(8 10 20)");
    named_file.st_gid = 20;
    named_file.st_uid = 11;
    judge_call(do_rights, 0, "fstat(7) fstat(8) fchown(8 10 20) fchmod(8 4751)");
}

/* A name that is taken is not renamed over. */
static void run_rename(void)
{
    do_nothing_fails();
    judge(do_rename() == BULGEFS_SYSTEM_EXISTS && number == EEXIST && strcmp(trace, "lstat(b)") == 0, "a taken name");
    judge_failure(do_rename, "lstat", ENOENT, 0, 0, "lstat(b) rename(a b)");
    judge_failures(do_rename, "lstat", "lstat(b)");
}

/* The folder is closed in any case; a file system without a flush of folders says EINVAL. */
static void run_folder(void)
{
    judge_call(do_folder, 0, "open(one/two/ r directory cloexec) fsync(7) close(7)");
    judge_call(do_here, 0, "open(. r directory cloexec) fsync(7) close(7)");
    judge_call(do_root, 0, "open(/ r directory cloexec) fsync(7) close(7)");
    judge_failures(do_here, "open", "open(. r directory cloexec)");
    judge_failures(do_here, "fsync", "open(. r directory cloexec) fsync(7) close(7)");
    judge_failure(do_here, "fsync", EINVAL, 0, 0, "open(. r directory cloexec) fsync(7) close(7)");
}

static void run_rest(void)
{
    void *memory;
    do_nothing_fails();
    table->remove(NULL, "v");
    table->close(NULL, 7);
    judge(strcmp(trace, "unlink(v) close(7)") == 0, "remove and close: %s", trace);
    memory = table->allocate(NULL, 100);
    judge(memory != NULL, "memory");
    memset(memory, 1, 100);
    table->release(NULL, memory);
    table->release(NULL, NULL);
    judge(bulgefs_this_system() == table, "the table");
}

int main(void)
{
    run_one_call();
    run_same();
    run_rights();
    run_rename();
    run_folder();
    run_rest();
    return finish_tests();
}
