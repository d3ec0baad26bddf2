/*
 * Linked into the tool with --wrap: every system call of the tool and of the file layer.
 *
 * BULGEFS_FAULT=K stops the tool with status 77 at its K-th system call, counted from 1; BULGEFS_FAULT_AT says how: before it, half of it done (of a
 * write the first half of its bytes, of any other all), after it, or error, where it fails as on a full disk and the tool goes on.  With memory the
 * K-th allocation fails.  BULGEFS_FAULT=count prints how many of both there are at the end.  BULGEFS_TRACE names a file that gets every call that
 * changes files, once it has been done.
 */
#define _GNU_SOURCE
#include "trace.h"

#include <dirent.h>
#include <errno.h>
#include <fcntl.h>
#include <stdarg.h>
#include <stdio.h>
#include <stdlib.h>
#include <string.h>
#include <sys/stat.h>
#include <unistd.h>

typedef enum { GO, STOP_BEFORE, STOP_HALF, STOP_AFTER, STOP_ERROR } fault;
static unsigned long calls, allocations;

static int is_at(unsigned long count)
{
    const char *at = getenv("BULGEFS_FAULT");
    return at && strtoul(at, NULL, 10) == count;
}

static const char *kind(void)
{
    const char *how = getenv("BULGEFS_FAULT_AT");
    return how ? how : "after";
}

/* What comes before a call; its failure is -1. */
static fault begin(void)
{
    calls++;
    if (!is_at(calls) || !strcmp(kind(), "memory"))
        return GO;
    if (!strcmp(kind(), "before"))
        _exit(77);
    errno = ENOSPC;
    return !strcmp(kind(), "error") ? STOP_ERROR : !strcmp(kind(), "half") ? STOP_HALF : STOP_AFTER;
}

/* What comes after it. */
static void end(fault now)
{
    if (now != GO)
        _exit(77);
}

__attribute__((destructor)) static void tell_counts(void)
{
    const char *at = getenv("BULGEFS_FAULT");
    if (at && !strcmp(at, "count"))
        fprintf(stderr, "operations %lu, allocations %lu\n", calls, allocations);
}

/* A call that changes nothing, or whose change is not taken down. */
#define WRAP(result, name, declared, given)                                                                                                              \
    result __real_##name declared;                                                                                                                       \
    result __wrap_##name declared;                                                                                                                       \
    result __wrap_##name declared                                                                                                                        \
    {                                                                                                                                                    \
        fault now = begin();                                                                                                                             \
        if (now == STOP_ERROR)                                                                                                                           \
            return -1;                                                                                                                                   \
        result answer = __real_##name given;                                                                                                             \
        end(now);                                                                                                                                        \
        return answer;                                                                                                                                   \
    }

/* One that is taken down by the statement. */
#define WRAP_TRACED(result, name, declared, given, trace)                                                                                                \
    result __real_##name declared;                                                                                                                       \
    result __wrap_##name declared;                                                                                                                       \
    result __wrap_##name declared                                                                                                                        \
    {                                                                                                                                                    \
        fault now = begin();                                                                                                                             \
        if (now == STOP_ERROR)                                                                                                                           \
            return -1;                                                                                                                                   \
        result answer = __real_##name given;                                                                                                             \
        if (answer >= 0)                                                                                                                                 \
            trace;                                                                                                                                       \
        end(now);                                                                                                                                        \
        return answer;                                                                                                                                   \
    }

int __real_open(const char *, int, ...);
ssize_t __real_write(int, const void *, size_t);

static void copy_name(char *to, const char *path)
{
    const char *last = strrchr(path, '/');
    snprintf(to, TRACE_NAME, "%s", last ? last + 1 : path);
}

static void add(const traced *t, const void *data)
{
    const char *path = getenv("BULGEFS_TRACE");
    if (!path)
        return;
    int file = __real_open(path, O_WRONLY | O_CREAT | O_APPEND, 0600);
    if (file < 0 || __real_write(file, t, sizeof *t) != (ssize_t)sizeof *t
        || (data && __real_write(file, data, t->length) != (ssize_t)t->length))
        _exit(125);
    close(file);
}

static void add_names(int what, uint64_t file, const char *name, const char *to)
{
    traced t = { .kind = what, .file = file };
    copy_name(t.name, name);
    copy_name(t.to, to);
    add(&t, NULL);
}

WRAP(int, flock, (int file, int how), (file, how))
WRAP(int, fstat, (int file, struct stat *into), (file, into))
WRAP(int, fstat64, (int file, struct stat64 *into), (file, into))
WRAP(int, stat, (const char *path, struct stat *into), (path, into))
WRAP(int, stat64, (const char *path, struct stat64 *into), (path, into))
WRAP(int, lstat, (const char *path, struct stat *into), (path, into))
WRAP(int, lstat64, (const char *path, struct stat64 *into), (path, into))
WRAP(off64_t, lseek64, (int file, off64_t at, int from), (file, at, from))
WRAP(ssize_t, pread64, (int file, void *to, size_t length, off64_t at), (file, to, length, at))
WRAP(int, fchmod, (int file, mode_t mode), (file, mode))
WRAP(int, fchown, (int file, uid_t user, gid_t group), (file, user, group))

WRAP(int, mkdir, (const char *path, mode_t mode), (path, mode))
WRAP(int, rmdir, (const char *path), (path))

DIR *__real_opendir(const char *);
DIR *__wrap_opendir(const char *);
DIR *__wrap_opendir(const char *path)
{
    fault now = begin();
    if (now == STOP_ERROR)
        return NULL;
    DIR *open = __real_opendir(path);
    end(now);
    return open;
}

static void add_on_file(int what, int file, uint64_t offset, uint64_t length, const void *data)
{
    struct stat64 about;
    if (__real_fstat64(file, &about) != 0 || !(S_ISREG(about.st_mode) || S_ISDIR(about.st_mode)))
        return;
    traced t = { .kind = what, .folder = S_ISDIR(about.st_mode), .file = about.st_ino, .offset = offset, .length = length };
    add(&t, data);
}

WRAP_TRACED(int, ftruncate64, (int file, off64_t length), (file, length), add_on_file(TRACE_LENGTH, file, (uint64_t)length, 0, NULL))
WRAP_TRACED(int, fsync, (int file), (file), add_on_file(TRACE_SYNC, file, 0, 0, NULL))
WRAP_TRACED(int, fdatasync, (int file), (file), add_on_file(TRACE_SYNC, file, 0, 0, NULL))
WRAP_TRACED(int, rename, (const char *from, const char *to), (from, to), add_names(TRACE_RENAME, 0, from, to))
WRAP_TRACED(int, unlink, (const char *path), (path), add_names(TRACE_UNLINK, 0, path, ""))

/* The standard streams are no files of a volume. */
ssize_t __real_read(int, void *, size_t);
ssize_t __wrap_read(int, void *, size_t);
ssize_t __wrap_read(int file, void *to, size_t length)
{
    fault now = file > 2 ? begin() : GO;
    if (now == STOP_ERROR)
        return -1;
    ssize_t done = __real_read(file, to, length);
    end(now);
    return done;
}

ssize_t __wrap_write(int, const void *, size_t);
ssize_t __wrap_write(int file, const void *data, size_t length)
{
    fault now = file > 2 ? begin() : GO;
    if (now == STOP_ERROR)
        return -1;
    off_t at = file > 2 ? lseek(file, 0, SEEK_CUR) : -1;
    ssize_t done = __real_write(file, data, now == STOP_HALF ? length / 2 : length);
    if (done > 0 && at >= 0)
        add_on_file(TRACE_WRITE, file, (uint64_t)at, (uint64_t)done, data);
    end(now);
    return done;
}

ssize_t __real_pwrite64(int, const void *, size_t, off64_t);
ssize_t __wrap_pwrite64(int, const void *, size_t, off64_t);
ssize_t __wrap_pwrite64(int file, const void *data, size_t length, off64_t at)
{
    fault now = begin();
    if (now == STOP_ERROR)
        return -1;
    ssize_t done = __real_pwrite64(file, data, now == STOP_HALF ? length / 2 : length, at);
    if (done > 0)
        add_on_file(TRACE_WRITE, file, (uint64_t)at, (uint64_t)done, data);
    end(now);
    return done;
}

static int open_traced(const char *path, int flags, mode_t mode)
{
    struct stat64 about;
    fault now = begin();
    if (now == STOP_ERROR)
        return -1;
    int there = __real_stat64(path, &about) == 0;
    int file = __real_open(path, flags, mode);
    if (file >= 0 && !there && __real_fstat64(file, &about) == 0)
        add_names(TRACE_CREATE, about.st_ino, path, "");
    end(now);
    return file;
}

static mode_t mode_of(int flags, va_list rest)
{
    return flags & O_CREAT ? va_arg(rest, mode_t) : 0;
}

#define WRAP_OPEN(name)                                                                                                                                  \
    int __wrap_##name(const char *, int, ...);                                                                                                           \
    int __wrap_##name(const char *path, int flags, ...)                                                                                                  \
    {                                                                                                                                                    \
        va_list rest;                                                                                                                                    \
        va_start(rest, flags);                                                                                                                           \
        mode_t mode = mode_of(flags, rest);                                                                                                              \
        va_end(rest);                                                                                                                                    \
        return open_traced(path, flags, mode);                                                                                                           \
    }

WRAP_OPEN(open)
WRAP_OPEN(open64)

static int no_memory(void)
{
    allocations++;
    return is_at(allocations) && !strcmp(kind(), "memory");
}

void *__real_malloc(size_t);
void *__wrap_malloc(size_t);
void *__wrap_malloc(size_t length)
{
    return no_memory() ? NULL : __real_malloc(length);
}

void *__real_realloc(void *, size_t);
void *__wrap_realloc(void *, size_t);
void *__wrap_realloc(void *old, size_t length)
{
    return no_memory() ? NULL : __real_realloc(old, length);
}
