/* files.c - files that are no volumes: whole ones are read, new ones are written. */
#include <errno.h>
#include <fcntl.h>
#include <stdlib.h>
#include <string.h>
#include <sys/stat.h>
#include <unistd.h>

#include "tool.h"

/* Reads to the end, or until there are more than limit bytes. */
static int read_all(int file, size_t limit, size_t expected, bytes *into)
{
    size_t room = (expected < limit ? expected : limit) + 1;
    ssize_t count = 1;
    into->bytes = take_more(NULL, room);
    into->length = 0;
    while (count && into->length <= limit) {
        if (into->length == room) {
            room = room <= limit / 2 ? 2 * room : limit + 1;
            into->bytes = take_more(into->bytes, room);
        }
        count = read(file, into->bytes + into->length, room - into->length);
        if (count < 0 && errno != EINTR) {
            free(into->bytes);
            into->bytes = NULL;
            return -1;
        }
        if (count > 0) into->length += (size_t)count;
    }
    return 0;
}

static int read_open(int file, const char *path, size_t limit, bytes *into)
{
    struct stat status;
    if (fstat(file, &status)) return fail_system(path);
    if (S_ISDIR(status.st_mode)) {
        errno = EISDIR;
        return fail_system(path);
    }
    if (!S_ISREG(status.st_mode)) {
        say("%s is not a plain file", path);
        return FAILED;
    }
    return read_all(file, limit, (size_t)status.st_size, into) ? fail_system(path) : DONE;
}

int read_file(const char *path, size_t limit, bytes *into)
{
    int file = open(path, O_RDONLY | O_NONBLOCK | O_CLOEXEC), status;
    into->bytes = NULL;
    if (file < 0) return fail_system(path);
    status = read_open(file, path, limit, into);
    close(file);
    return status;
}

int read_input(const char *path, size_t limit, bytes *into)
{
    if (strcmp(path, "-")) return read_file(path, limit, into);
    return read_all(STDIN_FILENO, limit, 4096, into) ? fail_system("standard input") : DONE;
}

static int write_all(int file, const uint8_t *from, size_t length)
{
    while (length) {
        ssize_t count = write(file, from, length);
        if (count < 0 && errno == EINTR) continue;
        if (count <= 0) return -1;
        from += count;
        length -= (size_t)count;
    }
    return 0;
}

int write_output(const char *path, const uint8_t *from, size_t length)
{
    int file, status;
    if (!strcmp(path, "-")) return fwrite(from, 1, length, stdout) == length ? DONE : fail_system("standard output");
    file = open(path, O_RDWR | O_CREAT | O_EXCL | O_CLOEXEC, 0666);
    if (file < 0) return fail_system(path);
    status = write_all(file, from, length) || fsync(file) ? fail_system(path) : DONE;
    if (close(file) && !status) status = fail_system(path);
    if (status) unlink(path);
    return status;
}
