/*
 * tool.h - what the parts of the command-line tool share.
 *
 * Every function that gives an exit status has said the reason on standard
 * error when it is not 0.
 */
#ifndef BULGEFS_TOOL_H
#define BULGEFS_TOOL_H

#include <stddef.h>
#include <stdint.h>
#include <stdio.h>

#include "bulgefs_file.h"

/* Exit statuses. */
enum { DONE = 0, REFUSED = 1, FAILED = 2, IN_USE = 3 };

/* A run of bytes in memory.  What does not exist has bytes NULL. */
typedef struct { uint8_t *bytes; size_t length; } bytes;

/* What every command takes: JSON, and how many seconds to wait for a volume that is in use. */
typedef struct { int json; uint64_t wait; } options;

/* ---- say.c: words, numbers, time and memory ---- */

/* The library's words and number, after what was tried; gives REFUSED. */
int refuse(uint32_t number, const char *what);
/* The same with words of the tool's own behind them. */
int refuse_because(uint32_t number, const char *what, const char *why);
/* The words of errno, after what was tried; gives FAILED. */
int fail_system(const char *what);
/* How a command is used, its name first; gives FAILED. */
int usage(const char *words);
/* Words of the tool's own, in the form of printf; written at once, as JSON if say_json was called. */
void say(const char *form, ...)
#if defined(__GNUC__)
    __attribute__((format(printf, 1, 2)))
#endif
    ;
void say_json(void);
/* A decimal number from low to high; 0, or FAILED with words that name it. */
int read_number(const char *text, const char *name, uint64_t low, uint64_t high, uint64_t *number);
/* Now in milliseconds since 1970 began (UTC), or the number in BULGEFS_TIME. */
int read_time(uint64_t *time);
/* Memory of so many bytes, all zero; ends the tool with FAILED if there is none. */
void *take_memory(size_t length);
/* More memory, as realloc; ends the tool with FAILED if there is none. */
void *take_more(void *old, size_t length);
bytes copy_bytes(const bytes *from);
/* Two texts as one, in memory of its own. */
char *joined(const char *first, const char *second);
/* A text that is written as to a file; ends the tool with FAILED if there is no memory.  Free text after its end. */
typedef struct { FILE *out; char *text; size_t length; } memory_text;
void text_begin(memory_text *);
void text_end(memory_text *);
/* Big-endian numbers. */
uint32_t number_at(const uint8_t *from);
uint64_t time_at(const uint8_t *from);
void put_number(uint8_t *to, uint32_t number);

/* ---- files.c: files that are no volumes ---- */

/* A whole plain file, at most limit bytes; longer ones give limit + 1. */
int read_file(const char *path, size_t limit, bytes *into);
/* The same, and "-" is standard input. */
int read_input(const char *path, size_t limit, bytes *into);
/* A new file of these bytes, or standard output for "-".  Never over an existing file. */
int write_output(const char *path, const uint8_t *from, size_t length);

/* ---- store.c: a volume: image, journal and steps in one volume file ---- */

typedef enum { LOOK, CHANGE } store_mode;

typedef struct {
    const char *path;
    bytes image, journal, own;         /* what the volume is, or shall be */
    bulgefs_journal was;               /* of a change: the journal when the volume was opened */
    bulgefs_volume_file file;
} store;

/*
 * Opens a volume file, and waits while it is in use.  LOOK: a file that is no
 * volume file is taken as a bare image, whose journal and own have bytes NULL;
 * nothing is written.  CHANGE: only a volume file.  On an exit status other than 0
 * nothing is left open.
 */
int store_open(store *, const char *path, store_mode mode, const options *);
/* Words for a bare image, where a journal is needed; 0 or REFUSED. */
int need_journal(const store *);
/* Saves image, journal and own, all or none.  Then only close it. */
int store_save(store *);
/* Ends a change: if its status is 0, what it did becomes one step and is saved. */
int store_finish(store *, int status);
void store_close(store *);
/* A volume that is not there yet; the journal's length is a multiple of 512. */
int store_new(const char *path, const bytes *image, const bytes *journal, const options *);
/* The same with a journal just started, of at least so many bytes. */
int store_start(const char *path, const bytes *image, size_t journal_length, const options *);
/* Words for what the file layer answered: 0 and another status. */
int store_status(bulgefs_volume_result, const char *path);
/* Whether to try again what found a volume in use; waits a little.  *tries counts from 0. */
int store_again(bulgefs_volume_result, const options *, unsigned *tries);
/* The length of a journal with room for a change of the whole image, twice, and 1 MiB more. */
size_t usual_journal(size_t image_length);

/* ---- steps.c: which records are one step ---- */

/*
 * The first bytes of own: "BulgeSte", how many records they tell of, the journal's
 * used length behind these, then a bit for each record: 1 if it goes on with the
 * step of the record before.  Each record is a step where these do not fit the
 * journal, or where own is another program's.  The last sector of own is never the
 * tool's: it is for a note of another program, such as that of this morning.
 */
enum { STEPS_ROOM = 16384, OWN_ROOM = 65536, NOTE_ROOM = 512 };
typedef struct { uint32_t start, length, blocks, step; } record;   /* step counts from 1 */
typedef struct { record *records; size_t count; uint32_t used, steps; } record_list;

/* How many bytes of own are the tool's. */
size_t steps_own(const bytes *own);
/* The records, oldest first; 0, or the refusal of bulgefs_journal_info.  Free records after use. */
uint32_t steps_list(const store *, record_list *);
/* Makes what the journal got since the store was opened one step. */
void steps_add(store *);
/* Keeps the steps of the first count records of a list, which are all that the journal now has. */
void steps_cut(store *, const record_list *before, size_t count);

/* ---- changes.c: which paths differ between two sound images ---- */

enum { APPEARED = '+', VANISHED = '-', CHANGED = '*' };
enum {
    CHANGED_BYTES = 1, CHANGED_ATTRIBUTES = 2, CHANGED_TIMES = 4,
    CHANGED_TYPE = 8, CHANGED_OWNER = 16, CHANGED_FLAGS = 32, CHANGED_BLOCKS = 64
};
typedef struct entry entry;
/* before is NULL for what appeared, after for what vanished; parts are of CHANGED. */
typedef struct { int kind; unsigned parts; const char *path; const entry *before, *after; } change;
typedef int (*each_change)(void *ctx, const change *);
/*
 * Calls for each path that differs, in the order of the paths; ends early with
 * what is not 0.  Bytes and attributes are compared as content, wherever they
 * lie; CHANGED_BLOCKS is a directory of another size.  Which paths differ is
 * found in plain C; the entries given are the library's (view_told).
 */
int changes_each(const bytes *before, const bytes *after, each_change, void *ctx);
/* The parts in words: "bytes, times". */
void put_parts(FILE *, unsigned parts);
/* A line: the kind, the path, and the parts in brackets. */
void put_change(FILE *, const change *);
/* An object with change, path and parts. */
void json_change(FILE *, const change *);

/* ---- undo.c: one undo in memory ---- */

enum { NOT_OF_VOLUME = 255 };
/*
 * Takes the last record back and calls for the path that it changed, if any, and
 * of a move for both.
 * after has the image's length and becomes the image of before the undo.  Gives
 * the library's refusal, or NOT_OF_VOLUME if the result is not sound, has another
 * header, or differs in more paths than one change can: then the buffers are of no use.
 */
uint32_t undo_record(bytes *image, bytes *journal, const bytes *after, each_change, void *ctx);
/* Words for either, for the record of this number (from 1); gives REFUSED. */
int refuse_record(const store *, uint32_t number, size_t record);

/* ---- view.c: a sound image as the library tells it, its chains in plain C ---- */

struct entry {
    uint8_t type, user, group, permissions;
    uint32_t first, size, blocks, attribute_block, attribute_size, flags;
    uint64_t created, modified;
    uint8_t name[81];                  /* a zero follows */
    size_t name_length;
    uint32_t slot;
    size_t offset;                     /* of the entry in the image */
};
typedef int (*each_entry)(void *ctx, const char *path, const entry *);
/*
 * Calls for each entry of the directory at path ("/" is the root), slots
 * ascending, a directory before what is in it; for a file just for itself.
 * Gives 0, or BULGEFS_NOT_FOUND, or what the call gave if that is not 0.
 */
int view_each(const bytes *image, const char *path, int recursive, each_entry, void *ctx);
/* As view_each of "/" with all below it, in plain C: the library, which checks the image for each entry, takes much longer. */
void view_scan(const bytes *image, each_entry, void *ctx);
/*
 * The entry at path, where view_scan found one, as the library tells it; ends
 * the tool with FAILED if the two differ in any field.
 */
entry view_told(const bytes *image, const char *path, const entry *scanned);
/* The entry at path, which is not "/": 0 or BULGEFS_NOT_FOUND. */
uint32_t view_find(const bytes *image, const char *path, entry *);
/* The library's number for a path at which there is nothing: 9, 17 or 10. */
uint32_t view_refusal(const bytes *image, const char *path);
int view_is_directory(const entry *);
/* The block after this one in its chain. */
uint32_t view_next(const bytes *image, uint32_t block);
/* A name for a terminal: control bytes and backslash escaped, UTF-8 kept. */
void put_text(FILE *, const uint8_t *, size_t);

/* ---- json.c ---- */

/* A string with its quotes. */
void json_string(FILE *, const uint8_t *, size_t);
/* The same of a text that ends with a zero. */
void json_text(FILE *, const char *);

/* ---- commands: argv[0] is the command's name, argv[1] the volume ---- */

int command_format(int argc, char **argv, const options *);
int command_import(int argc, char **argv, const options *);
int command_export(int argc, char **argv, const options *);
int command_grow(int argc, char **argv, const options *);
int command_start(int argc, char **argv, const options *);
int command_put(int argc, char **argv, const options *);
int command_get(int argc, char **argv, const options *);
int command_cat(int argc, char **argv, const options *);
int command_mv(int argc, char **argv, const options *);
int command_rm(int argc, char **argv, const options *);
int command_mkdir(int argc, char **argv, const options *);
int command_rmdir(int argc, char **argv, const options *);
int command_attr(int argc, char **argv, const options *);
int command_settings(int argc, char **argv, const options *);
int command_log(int argc, char **argv, const options *);
int command_back(int argc, char **argv, const options *);
int command_redo(int argc, char **argv, const options *);
int command_salvage(int argc, char **argv, const options *);
int command_extract(int argc, char **argv, const options *);

int command_history(int argc, char **argv, const options *);
int command_ls(int argc, char **argv, const options *);
int command_info(int argc, char **argv, const options *);
int command_check(int argc, char **argv, const options *);
int command_map(int argc, char **argv, const options *);
int command_report(int argc, char **argv, const options *);
int command_diff(int argc, char **argv, const options *);

#endif
