/* rm.c - deletes files, and empty directories. */
#include <string.h>

#include "look.h"

typedef bulgefs_changed (*deletion)(uint8_t *, size_t, uint8_t *, size_t, const uint8_t *, size_t);

static int delete_all(deletion call, int argc, char **argv, const options *o)
{
    store s;
    int status = store_open(&s, argv[1], CHANGE, o);
    if (status) return status;
    for (int i = 2; i < argc && !status; i++) {
        bulgefs_changed done = call(s.image.bytes, s.image.length, s.journal.bytes, s.journal.length, (const uint8_t *)argv[i], strlen(argv[i]));
        if (done.number) status = refuse_path(&s, done.number, argv[i]);
    }
    return store_finish(&s, status);
}

int command_rm(int argc, char **argv, const options *o)
{
    if (!good_arguments(&argc, argv, 2, argc)) return usage("rm VOLUME PATH...");
    return delete_all(bulgefs_delete, argc, argv, o);
}

int command_rmdir(int argc, char **argv, const options *o)
{
    if (!good_arguments(&argc, argv, 2, argc)) return usage("rmdir VOLUME PATH...");
    return delete_all(bulgefs_delete_directory, argc, argv, o);
}
