/* tree.h - files and trees of files, into a volume and out of one. */
#ifndef BULGEFS_TREE_H
#define BULGEFS_TREE_H

#include "look.h"

enum { LONGEST_FILE = BULGEFS_BLOCK_SIZE * BULGEFS_MAX_BLOCKS };

/* put.c: makes the file at path these bytes, in memory; *unchanged if it had them. */
int put_bytes(store *, const char *path, const bytes *data, uint64_t time, int *unchanged);
/* put_tree.c: makes the folder at path hold what a folder outside holds, in memory; *unchanged if it did. */
int put_tree(store *, const char *path, const char *folder, uint64_t time, int *unchanged);
/* mkdir.c: makes a folder, in memory. */
int make_folder(store *, const char *path, uint32_t blocks, uint64_t time);
/* get.c: a file of an image, in memory of its own. */
int get_bytes(const bytes *image, const char *path, bytes *into);
/* get_tree.c: a new folder outside of what the folder at path holds; all of it or nothing. */
int get_tree(const bytes *image, const char *path, const char *folder);
/* Whether a name can be that of a file outside; says so if not. */
int good_name(const char *name, const char *path);
/* So many files are done: a line on a terminal, which stays only while it goes on. */
void progress(size_t done);
void progress_end(void);

#endif
