/* put_tree.c - a folder outside, with all that is in it, into a volume. */
#include <dirent.h>
#include <errno.h>
#include <stdlib.h>
#include <string.h>
#include <sys/stat.h>
#include <unistd.h>

#include "tree.h"

typedef struct { store *s; uint64_t time; size_t files; int changed; } load;
typedef struct { char **names; size_t count; } names;

void progress(size_t done)
{
    if (isatty(STDERR_FILENO)) fprintf(stderr, "\r%zu files", done);
}

void progress_end(void)
{
    if (isatty(STDERR_FILENO)) fputs("\r\033[K", stderr);
}

int good_name(const char *name, const char *path)
{
    const char *why = !name[0] ? "an empty name" : !strcmp(name, ".") || !strcmp(name, "..") ? "a name that leads elsewhere"
        : strchr(name, '/') ? "a name with /" : strchr(name, '\n') ? "a name with the end of a line" : NULL;
    if (!why) return 1;
    say("%s has %s, which is not copied as a file; nothing was changed", path, why);
    return 0;
}

static int by_name(const void *a, const void *b)
{
    return strcmp(*(char *const *)a, *(char *const *)b);
}

static void free_names(names *all)
{
    for (size_t i = 0; i < all->count; i++) free(all->names[i]);
    free(all->names);
}

/* The names in a folder, sorted, so that the same folder always gives the same volume. */
static int read_names(const char *folder, names *all)
{
    DIR *open = opendir(folder);
    const struct dirent *one;
    int status;
    if (!open) return fail_system(folder);
    while (errno = 0, (one = readdir(open))) {
        if (!strcmp(one->d_name, ".") || !strcmp(one->d_name, "..")) continue;
        all->names = take_more(all->names, (all->count + 1) * sizeof *all->names);
        all->names[all->count++] = joined(one->d_name, "");
    }
    status = errno ? fail_system(folder) : DONE;
    closedir(open);
    if (all->count) qsort(all->names, all->count, sizeof *all->names, by_name);
    return status;
}

/* Room for half as many names again as are put into it. */
static uint32_t blocks_for(size_t count)
{
    size_t blocks = (count + count / 2 + 2 + BULGEFS_SLOTS_PER_BLOCK - 1) / BULGEFS_SLOTS_PER_BLOCK;
    return blocks > BULGEFS_MAX_DIRECTORY_BLOCKS ? BULGEFS_MAX_DIRECTORY_BLOCKS : (uint32_t)blocks;
}

/* Makes the folder of the volume, if it is not there. */
static int need_folder(load *l, const char *path, size_t count)
{
    entry found;
    if (!strcmp(path, "/") || (!view_find(&l->s->image, path, &found) && view_is_directory(&found))) return DONE;
    l->changed = 1;
    return make_folder(l->s, path, blocks_for(count), l->time);
}

static int put_file(load *l, const char *path, const char *from)
{
    bytes data;
    int unchanged = 0, status = read_file(from, LONGEST_FILE, &data);
    if (status) return status;
    status = put_bytes(l->s, path, &data, l->time, &unchanged);
    free(data.bytes);
    l->changed |= !unchanged;
    progress(++l->files);
    return status;
}

static int put_folder(load *l, const char *path, const char *from);

static int put_kind(load *l, const char *path, const char *from)
{
    struct stat about;
    if (lstat(from, &about)) return fail_system(from);
    if (S_ISDIR(about.st_mode)) return put_folder(l, path, from);
    if (S_ISREG(about.st_mode)) return put_file(l, path, from);
    say("%s is neither a file nor a folder; nothing was changed", from);
    return REFUSED;
}

static char *below(const char *folder, const char *name)
{
    char *start = joined(folder, folder[strlen(folder) - 1] == '/' ? "" : "/"), *whole = joined(start, name);
    free(start);
    return whole;
}

static int put_name(load *l, const char *path, const char *from, const char *name)
{
    char *inside = below(path, name), *outside = below(from, name);
    int status = good_name(name, outside) ? put_kind(l, inside, outside) : REFUSED;
    free(inside);
    free(outside);
    return status;
}

static int put_folder(load *l, const char *path, const char *from)
{
    names all = { NULL, 0 };
    int status = read_names(from, &all);
    if (!status) status = need_folder(l, path, all.count);
    for (size_t i = 0; i < all.count && !status; i++) status = put_name(l, path, from, all.names[i]);
    free_names(&all);
    return status;
}

int put_tree(store *s, const char *path, const char *folder, uint64_t time, int *unchanged)
{
    load l = { s, time, 0, 0 };
    int status = put_folder(&l, path[0] ? path : "?", folder);
    progress_end();
    *unchanged = !l.changed;
    return status;
}
