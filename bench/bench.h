/* What the parts of the benchmark share: the timed calls, the clock, and SQLite's side. */
#ifndef BENCH_H
#define BENCH_H

#include <stddef.h>
#include <stdint.h>

enum { CHECK, LOOKUP, READ, WRITE, DELETE, DELETE_LARGE, CREATE_DIRECTORY, DELETE_DIRECTORY,
       SET_ATTRIBUTES, READ_ATTRIBUTES, CLEAR_ATTRIBUTES, CLEAR_FLAGS, UNDO, SALVAGE, CALLS };

/* Seconds since some time. */
double now(void);

/* Ends the program if a call was refused. */
void require(uint32_t number, const char *what);

/* A path and its length. */
enum { PATH_SIZE = 160 };
typedef struct {
    uint8_t bytes[PATH_SIZE];
    size_t len;
} named;

/*
 * Times 900 settings written by lists, by single calls and by one transaction, and
 * taken back by one call, by single undos and by a rollback; prints two tables.
 */
void bench_lists(int samples);

/* Times puts and gets of settings beside writes and reads of the same files; prints a table. */
void bench_settings(int quick);

/* The same among 900 boxes in nine directories; prints a table. */
void bench_fleet(int quick);

/*
 * The same work in SQLite, in memory, with statements prepared beforehand: a
 * table of paths and contents.  check is its integrity check, lookup and read
 * select by path, write and delete stand in a savepoint, undo rolls that back;
 * deleted content is zeroed (secure_delete).  It has no folders, no attributes
 * and no salvage.  Without SQLite's development package sqlite_version says
 * NULL, and the others do nothing.
 */
const char *sqlite_version(void);
void sqlite_start(void);
void sqlite_add(const uint8_t *path, size_t path_len, const uint8_t *data, size_t len);

/* Makes every call once and adds the time of each; a write leaves the data as the content. */
void sqlite_calls(const uint8_t *path, size_t path_len, const uint8_t *data, size_t len,
                  double *sum);

/* Makes every content empty; puts the data as the content of every path, in one transaction. */
void sqlite_empty(void);
void sqlite_transaction(const named *paths, size_t count, const uint8_t *data, size_t len);

/* The same contents in a transaction that stays open; its rollback. */
void sqlite_updates(const named *paths, size_t count, const uint8_t *data, size_t len);
void sqlite_rollback(void);

/*
 * Puts settings in a savepoint: a row with the next revision, and rows of more than
 * 16 revisions dropped.  Gives the seconds; then it is rolled back unless it stays.
 */
double sqlite_put(const uint8_t *serial, size_t serial_len, const uint8_t *data, size_t len,
                  int stays);

#endif
