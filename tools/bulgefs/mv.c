/* mv.c - moves a file to another path. */
#include <string.h>

#include "look.h"

/* The path that the file gets: the new one, or its own name in the directory that the new one leads to. */
static int new_path(const store *s, const char *path, const char *to, char *into)
{
    const char *name = strrchr(path, '/');
    size_t length = strlen(to), more = name ? strlen(name) : 0;
    entry found;
    int root = !strcmp(to, "/");
    int directory = root || (!view_find(&s->image, to, &found) && view_is_directory(&found));
    if (root) length = 0;
    if (!directory) more = 0;
    if (length + more > BULGEFS_MAX_PATH) return refuse(BULGEFS_BAD_ARGUMENT, to);
    memcpy(into, to, length);
    if (more) memcpy(into + length, name, more);
    into[length + more] = 0;
    return DONE;
}

int command_mv(int argc, char **argv, const options *o)
{
    char into[BULGEFS_MAX_PATH + 1];
    store s;
    int status;
    if (!good_arguments(&argc, argv, 3, 3)) return usage("mv VOLUME PATH NEW");
    status = store_open(&s, argv[1], CHANGE, o);
    if (status) return status;
    status = new_path(&s, argv[2], argv[3], into);
    if (!status) {
        bulgefs_created moved = bulgefs_move(s.image.bytes, s.image.length, s.journal.bytes, s.journal.length,
                                             (const uint8_t *)argv[2], strlen(argv[2]), (const uint8_t *)into, strlen(into));
        if (moved.number) status = refuse_path(&s, moved.number, moved.number == BULGEFS_NOT_FOUND ? argv[2] : into);
    }
    return store_finish(&s, status);
}
