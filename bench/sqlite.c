/* SQLite's side of the benchmark; see bench.h.  -DBENCH_SQLITE: the package is installed. */
#include "bench.h"

#ifdef BENCH_SQLITE

#include <sqlite3.h>
#include <stdio.h>
#include <stdlib.h>
#include <string.h>

enum { INTEGRITY, SIZE, CONTENT, PUT, DROP, ADD, BEGIN, BACK, RELEASE, OPEN, COMMIT, ROLLBACK, EMPTY,
       REVISE, FORGET, STATEMENTS };

static const char *const texts[STATEMENTS] = {
    [INTEGRITY] = "PRAGMA integrity_check",
    [SIZE] = "SELECT length(content) FROM files WHERE path = ?1",
    [CONTENT] = "SELECT content FROM files WHERE path = ?1",
    [PUT] = "UPDATE files SET content = ?2, time = 3 WHERE path = ?1",
    [DROP] = "DELETE FROM files WHERE path = ?1",
    [ADD] = "INSERT INTO files VALUES (?1, ?2, 1)",
    [BEGIN] = "SAVEPOINT change",
    [BACK] = "ROLLBACK TO change",
    [RELEASE] = "RELEASE change",
    [OPEN] = "BEGIN",
    [COMMIT] = "COMMIT",
    [ROLLBACK] = "ROLLBACK",
    [REVISE] = "INSERT INTO settings SELECT ?1, ifnull(max(revision), 0) + 1, ?2, 3"
               " FROM settings WHERE serial = ?1",
    [FORGET] = "DELETE FROM settings WHERE serial = ?1 AND revision <="
               " (SELECT max(revision) - 16 FROM settings WHERE serial = ?1)",
    [EMPTY] = "UPDATE files SET content = x'', time = 1",
};

static sqlite3 *db;
static sqlite3_stmt *statements[STATEMENTS];
static uint8_t buffer[4096];

static void must(int right, const char *what)
{
    if (!right) {
        fprintf(stderr, "bench: SQLite, %s: %s\n", what, sqlite3_errmsg(db));
        exit(EXIT_FAILURE);
    }
}

const char *sqlite_version(void)
{
    return sqlite3_libversion();
}

void sqlite_start(void)
{
    for (int i = 0; i < STATEMENTS; i++)
        sqlite3_finalize(statements[i]);
    sqlite3_close(db);
    must(sqlite3_open(":memory:", &db) == SQLITE_OK, "open");
    must(sqlite3_exec(db, "PRAGMA secure_delete = ON", NULL, NULL, NULL) == SQLITE_OK, "pragma");
    must(sqlite3_exec(db,
                         "CREATE TABLE files (path TEXT PRIMARY KEY, content BLOB, time INTEGER)"
                         " WITHOUT ROWID",
                         NULL, NULL, NULL) == SQLITE_OK,
            "create table");
    must(sqlite3_exec(db,
                         "CREATE TABLE settings (serial TEXT, revision INTEGER, data BLOB,"
                         " time INTEGER, PRIMARY KEY (serial, revision)) WITHOUT ROWID",
                         NULL, NULL, NULL) == SQLITE_OK,
            "create table");
    for (int i = 0; i < STATEMENTS; i++)
        must(sqlite3_prepare_v2(db, texts[i], -1, &statements[i], NULL) == SQLITE_OK, texts[i]);
}

/* Runs a statement on a path and a content, either of which it may not have. */
static sqlite3_stmt *run(int which, const uint8_t *path, size_t path_len, const uint8_t *data,
                         size_t len, int expected)
{
    sqlite3_stmt *s = statements[which];
    if (path != NULL)
        sqlite3_bind_text(s, 1, (const char *)path, (int)path_len, SQLITE_STATIC);
    if (data != NULL)
        sqlite3_bind_blob(s, 2, data, (int)len, SQLITE_STATIC);
    must(sqlite3_step(s) == expected, texts[which]);
    return s;
}

static void change(int which, const uint8_t *path, size_t path_len, const uint8_t *data, size_t len)
{
    sqlite3_reset(run(BEGIN, NULL, 0, NULL, 0, SQLITE_DONE));
    sqlite3_reset(run(which, path, path_len, data, len, SQLITE_DONE));
}

static void back(void)
{
    sqlite3_reset(run(BACK, NULL, 0, NULL, 0, SQLITE_DONE));
    sqlite3_reset(run(RELEASE, NULL, 0, NULL, 0, SQLITE_DONE));
}

void sqlite_add(const uint8_t *path, size_t path_len, const uint8_t *data, size_t len)
{
    sqlite3_reset(run(ADD, path, path_len, data, len, SQLITE_DONE));
}

void sqlite_calls(const uint8_t *path, size_t path_len, const uint8_t *data, size_t len,
                  double *sum)
{
    double t[8];
    t[0] = now();
    sqlite3_stmt *s = run(INTEGRITY, NULL, 0, NULL, 0, SQLITE_ROW);
    must(strcmp((const char *)sqlite3_column_text(s, 0), "ok") == 0, "integrity");
    sqlite3_reset(s);
    t[1] = now();
    sqlite3_reset(run(SIZE, path, path_len, NULL, 0, SQLITE_ROW));
    t[2] = now();
    s = run(CONTENT, path, path_len, NULL, 0, SQLITE_ROW);
    memcpy(buffer, sqlite3_column_blob(s, 0), (size_t)sqlite3_column_bytes(s, 0));
    sqlite3_reset(s);
    t[3] = now();
    change(PUT, path, path_len, data, len);
    t[4] = now();
    back();
    t[5] = now();
    change(DROP, path, path_len, NULL, 0);
    t[6] = now();
    back();
    sum[CHECK] += t[1] - t[0];
    sum[LOOKUP] += t[2] - t[1];
    sum[READ] += t[3] - t[2];
    sum[WRITE] += t[4] - t[3];
    sum[UNDO] += t[5] - t[4];
    sum[DELETE] += t[6] - t[5];
}

void sqlite_empty(void)
{
    sqlite3_reset(run(EMPTY, NULL, 0, NULL, 0, SQLITE_DONE));
}

void sqlite_updates(const named *paths, size_t count, const uint8_t *data, size_t len)
{
    sqlite3_reset(run(OPEN, NULL, 0, NULL, 0, SQLITE_DONE));
    for (size_t i = 0; i < count; i++)
        sqlite3_reset(run(PUT, paths[i].bytes, paths[i].len, data, len, SQLITE_DONE));
}

void sqlite_rollback(void)
{
    sqlite3_reset(run(ROLLBACK, NULL, 0, NULL, 0, SQLITE_DONE));
}

void sqlite_transaction(const named *paths, size_t count, const uint8_t *data, size_t len)
{
    sqlite_updates(paths, count, data, len);
    sqlite3_reset(run(COMMIT, NULL, 0, NULL, 0, SQLITE_DONE));
}

double sqlite_put(const uint8_t *serial, size_t serial_len, const uint8_t *data, size_t len,
                  int stays)
{
    double begin = now();
    change(REVISE, serial, serial_len, data, len);
    sqlite3_reset(run(FORGET, serial, serial_len, NULL, 0, SQLITE_DONE));
    double took = now() - begin;
    if (stays)
        sqlite3_reset(run(RELEASE, NULL, 0, NULL, 0, SQLITE_DONE));
    else
        back();
    return took;
}

#else

const char *sqlite_version(void)
{
    return NULL;
}

void sqlite_start(void)
{
}

void sqlite_add(const uint8_t *path, size_t path_len, const uint8_t *data, size_t len)
{
    (void)path, (void)path_len, (void)data, (void)len;
}

void sqlite_calls(const uint8_t *path, size_t path_len, const uint8_t *data, size_t len,
                  double *sum)
{
    (void)path, (void)path_len, (void)data, (void)len, (void)sum;
}

void sqlite_empty(void)
{
}

double sqlite_put(const uint8_t *serial, size_t serial_len, const uint8_t *data, size_t len,
                  int stays)
{
    (void)serial, (void)serial_len, (void)data, (void)len, (void)stays;
    return 0;
}

void sqlite_transaction(const named *paths, size_t count, const uint8_t *data, size_t len)
{
    (void)paths, (void)count, (void)data, (void)len;
}

void sqlite_updates(const named *paths, size_t count, const uint8_t *data, size_t len)
{
    (void)paths, (void)count, (void)data, (void)len;
}

void sqlite_rollback(void)
{
}

#endif
