/*
 * What the tests on real files need of the system, POSIX or Windows: files by their
 * names, and other programs.  Names are UTF-8.
 */
#ifndef HOST_H
#define HOST_H

#include <stddef.h>
#include <stdint.h>

/* The system's error numbers of a missing file, of a file that may not be written, and of one that may not get longer. */
extern const uint32_t host_missing, host_denied, host_full;

void host_remove(const char *name);
int host_exists(const char *name);
/* Writes a whole file; ends the test if that fails. */
void host_put(const char *name, const void *bytes, size_t length);
/* Reads a file's first bytes, at most so many, and answers how many; 0 if there is none. */
size_t host_get(const char *name, uint8_t *bytes, size_t room);
/* These answer whether they were done. */
int host_set_length(const char *name, long length);
int host_make_directory(const char *name);
int host_remove_directory(const char *name);
/* The file may only be read, or may be written again. */
int host_read_only(const char *name, int yes);
int host_may_write(const char *name);
/* Whether a file can be renamed over one that is open; tried with two files of these names. */
int host_renames_over(const char *from, const char *to);
void host_sleep(unsigned microseconds);

/* Another program: this one with other words.  Each has a pipe to it and one from it. */
typedef struct {
    intptr_t process, to, from;
} host_program;

/* What the other program does with its words, with the ends of its pipes; gives its status.  Of the test. */
int host_other(char **words, intptr_t in, intptr_t out);
/* Called first of all by main; it does not come back in another program. */
void host_begin(int count, char **words);
/* At most two words. */
host_program host_start(const char *first, const char *second);
/* Moves all these bytes; answers whether it was done. */
int host_write(intptr_t pipe, const void *bytes, size_t length);
int host_read(intptr_t pipe, void *bytes, size_t length);
void host_shut(intptr_t pipe);
void host_kill(const host_program *program);
/* Waits for its end; answers its status, and -1 if it was killed. */
int host_wait(const host_program *program);

#endif
