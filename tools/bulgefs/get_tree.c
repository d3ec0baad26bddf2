/* get_tree.c - a folder of a volume, with all that is in it, as a new folder outside: all of it or nothing. */
#include <errno.h>
#include <fcntl.h>
#include <stdlib.h>
#include <string.h>
#include <sys/stat.h>
#include <unistd.h>

#include "tree.h"

/* What is copied: the entries below a path of so many bytes, into a folder under its first name. */
typedef struct { const bytes *image; listing list; size_t skip; char *folder; size_t made; } copy;

static int good_names(const copy *c)
{
    for (size_t i = 0; i < c->list.count; i++) {
        if (!good_name((const char *)c->list.items[i].entry.name, c->list.items[i].path)) return 0;
    }
    return 1;
}

static char *outside(const copy *c, size_t i)
{
    return joined(c->folder, c->list.items[i].path + c->skip);
}

static int copy_file(const copy *c, size_t i, const char *to)
{
    bytes content = { NULL, 0 };
    int status = get_bytes(c->image, c->list.items[i].path, &content);
    if (!status) status = write_output(to, content.bytes, content.length);
    free(content.bytes);
    return status;
}

static int copy_entry(const copy *c, size_t i)
{
    char *to = outside(c, i);
    int status;
    if (!view_is_directory(&c->list.items[i].entry)) status = copy_file(c, i, to);
    else status = mkdir(to, 0777) ? fail_system(to) : DONE;
    free(to);
    return status;
}

/* A folder comes before what is in it, so the last goes first. */
static void take_away(copy *c)
{
    while (c->made) {
        char *one = outside(c, --c->made);
        if (view_is_directory(&c->list.items[c->made].entry)) rmdir(one);
        else unlink(one);
        free(one);
    }
    rmdir(c->folder);
}

/* Waits until the names in a folder have reached the disk; some file systems cannot, and say EINVAL. */
static int flush_folder(const char *folder)
{
    int file = open(folder, O_RDONLY | O_DIRECTORY | O_CLOEXEC), status = DONE;
    if (file < 0 || (fsync(file) && errno != EINVAL)) status = fail_system(folder);
    if (file >= 0) close(file);
    return status;
}

static int flush_all(const copy *c)
{
    int status = flush_folder(c->folder);
    for (size_t i = 0; i < c->list.count && !status; i++) {
        char *one = outside(c, i);
        if (view_is_directory(&c->list.items[i].entry)) status = flush_folder(one);
        free(one);
    }
    return status;
}

static int flush_above(const char *folder)
{
    char *above = joined(folder, "/..");
    int status = flush_folder(above);
    if (status) say("%s is whole, but may not have reached the disk", folder);
    free(above);
    return status;
}

static int fill(copy *c, const char *folder)
{
    int status = DONE;
    while (c->made < c->list.count && !status) {
        status = copy_entry(c, c->made);
        if (!status) progress(++c->made);
    }
    progress_end();
    if (!status) status = flush_all(c);
    if (!status && rename(c->folder, folder)) status = fail_system(folder);
    if (status) take_away(c);
    return status ? status : flush_above(folder);
}

/* Everything is written under another name first. */
static int copy_all(copy *c, const char *folder)
{
    struct stat about;
    if (!lstat(folder, &about)) {
        say("%s is there already; nothing was changed", folder);
        return REFUSED;
    }
    if (!good_names(c)) return REFUSED;
    if (mkdir(c->folder, 0777)) return fail_system(c->folder);
    return fill(c, folder);
}

int get_tree(const bytes *image, const char *path, const char *folder)
{
    copy c = { image, { NULL, 0, 0 }, strlen(path), NULL, 0 };
    entry found;
    char *target;
    int status;
    if (view_find(image, path, &found)) return refuse_path_in(image, view_refusal(image, path), path);
    if (!view_is_directory(&found)) {
        say("%s is a file: get it without -r; nothing was changed", path);
        return REFUSED;
    }
    while (c.skip && path[c.skip - 1] == '/') c.skip--;
    c.list = listing_below(image, path);
    target = joined(folder, "");
    for (size_t end = strlen(target); end > 1 && target[end - 1] == '/'; end--) target[end - 1] = 0;
    c.folder = joined(target, ".bulgefs-new");
    status = copy_all(&c, target);
    free(c.folder);
    free(target);
    listing_free(&c.list);
    return status;
}
