/* path.c - what is wrong with a path that the library refused. */
#include <string.h>

#include "look.h"

static int has_long_name(const char *path)
{
    while (*path == '/') {
        size_t length = strcspn(path + 1, "/");
        if (length > BULGEFS_MAX_NAME) return 1;
        path += 1 + length;
    }
    return 0;
}

static const char *bad_form(const char *path)
{
    size_t length = strlen(path);
    if (path[0] != '/') return "a path begins with /";
    if (length == 1) return "this is the root: a name is missing";
    if (path[length - 1] == '/' || strstr(path, "//")) return "a name is empty";
    return has_long_name(path) ? "a name has at most 80 bytes" : NULL;
}

static const char *bad_kind(const bytes *image, const char *path)
{
    entry found;
    if (view_find(image, path, &found)) return NULL;
    return view_is_directory(&found) ? "it is a folder, and a file is wanted" : "it is a file, and a folder is wanted";
}

static const char *taken_by(const bytes *image, const char *path)
{
    entry found;
    if (view_find(image, path, &found)) return NULL;
    return view_is_directory(&found) ? "a folder has this name" : "a file has this name";
}

int refuse_path_in(const bytes *image, uint32_t number, const char *path)
{
    const char *why = number == BULGEFS_BAD_ARGUMENT ? bad_form(path) : number == BULGEFS_NOT_FOUND ? bad_kind(image, path)
        : number == BULGEFS_NAME_TAKEN ? taken_by(image, path) : NULL;
    return why ? refuse_because(number, path, why) : refuse(number, path);
}

int refuse_path(const store *s, uint32_t number, const char *path)
{
    return refuse_path_in(&s->image, number, path);
}
