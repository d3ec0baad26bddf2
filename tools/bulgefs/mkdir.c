/* mkdir.c - makes a folder, and with -p those above it. */
#include <string.h>

#include "tree.h"

enum { USUAL_BLOCKS = 4 };

int make_folder(store *s, const char *path, uint32_t blocks, uint64_t time)
{
    bulgefs_created made = bulgefs_create_directory(s->image.bytes, s->image.length, s->journal.bytes, s->journal.length, (const uint8_t *)path,
                                                    strlen(path), BULGEFS_PLAIN_DIRECTORY, 0, 0, 0, 0, blocks, time);
    return made.number ? refuse_path(s, made.number, path) : DONE;
}

/* Makes each folder of the path that is not there. */
static int make_all(store *s, char *path, uint32_t blocks, uint64_t time)
{
    char *end = path;
    int status = DONE;
    while (end && !status) {
        entry found;
        end = end[0] ? strchr(end + 1, '/') : NULL;
        if (end) *end = 0;
        if (view_find(&s->image, path, &found) || !view_is_directory(&found)) status = make_folder(s, path, blocks, time);
        if (end) *end = '/';
    }
    return status;
}

int command_mkdir(int argc, char **argv, const options *o)
{
    uint64_t blocks = USUAL_BLOCKS, time;
    store s;
    int all = take_flag(&argc, argv, "-p"), status;
    if (!good_arguments(&argc, argv, 2, 3)) return usage("mkdir [-p] VOLUME PATH [BLOCKS]");
    if (argc > 3 && read_number(argv[3], "BLOCKS", BULGEFS_MIN_DIRECTORY_BLOCKS, BULGEFS_MAX_DIRECTORY_BLOCKS, &blocks)) return FAILED;
    if (read_time(&time)) return FAILED;
    status = store_open(&s, argv[1], CHANGE, o);
    if (status) return status;
    status = all ? make_all(&s, argv[2], (uint32_t)blocks, time) : make_folder(&s, argv[2], (uint32_t)blocks, time);
    return store_finish(&s, status);
}
