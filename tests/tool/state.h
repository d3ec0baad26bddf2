/* The files of the current folder held in memory, put back, and compared; and programs run there. */
#ifndef STATE_H
#define STATE_H

#include <stddef.h>
#include <stdint.h>

enum { MOST_FILES = 32, MOST_NAME = 64, STOPPED = 77 };

/* A file, and what it means: of a volume file the recovered image, journal and own bytes, of any other its bytes. */
typedef struct {
    char name[MOST_NAME];
    uint8_t *bytes, *recovered, *home;
    size_t length, home_length;
} kept_file;

typedef struct {
    kept_file files[MOST_FILES];
    int count;
} state;

/* Says what the system's last error was, and ends the program with 2. */
void give_up(const char *what);
/* Memory for so many bytes and one more. */
void *room(size_t length);
void read_file(kept_file *f, const char *name);
void write_file(const kept_file *f);
/* Finds out what the bytes mean. */
void settle(kept_file *f);

/* All files but one that was to become a volume file; the next command of that name writes over it. */
state read_state(void);
void free_state(state *s);
/* NULL if there is no such file. */
const kept_file *find(const state *s, const char *name);
/* Whether two states mean the same. */
int same_state(const state *a, const state *b);
/* A number that differs for states whose bytes differ. */
uint64_t fingerprint(const state *s);
/* The folder then has these files and no others. */
void put_state(const state *s);
/* Says in which files a state differs from another. */
void tell_difference(const char *with, const state *is, const state *other);

/* Runs a program with pairs of name and value added to its environment, its output into the file ../said; gives its status, or -1 for a signal. */
int run_with(char **argv, const char *const *pairs);

#endif
