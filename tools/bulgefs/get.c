/* get.c - copies a file out of the volume: get to a new file, cat to standard output. */
#include <stdlib.h>
#include <string.h>

#include "tree.h"

int get_bytes(const bytes *image, const char *path, bytes *into)
{
    const uint8_t *name = (const uint8_t *)path;
    bulgefs_found found = bulgefs_lookup(image->bytes, image->length, name, strlen(path));
    bulgefs_filled filled;
    if (found.number) return refuse_path_in(image, found.number, path);
    into->bytes = take_memory(found.size);
    filled = bulgefs_read(image->bytes, image->length, name, strlen(path), 0, into->bytes, found.size);
    into->length = filled.count;
    return filled.number ? refuse(filled.number, path) : DONE;
}

static int copy_out(const store *s, const char *path, const char *to)
{
    bytes content = { NULL, 0 };
    int status = get_bytes(&s->image, path, &content);
    if (!status) status = write_output(to, content.bytes, content.length);
    free(content.bytes);
    return status;
}

static int run(char **argv, const char *to, int tree, const options *o)
{
    store s;
    int status = tree ? open_sound(&s, argv[1], o) : store_open(&s, argv[1], LOOK, o);
    if (status) return status;
    status = tree ? get_tree(&s.image, argv[2], to) : copy_out(&s, argv[2], to);
    store_close(&s);
    return status;
}

int command_get(int argc, char **argv, const options *o)
{
    int tree = take_flag(&argc, argv, "-r");
    if (!good_arguments(&argc, argv, 3, 3)) return usage("get [-r] VOLUME PATH FILE");
    return run(argv, argv[3], tree, o);
}

int command_cat(int argc, char **argv, const options *o)
{
    if (!good_arguments(&argc, argv, 2, 2)) return usage("cat VOLUME PATH");
    return run(argv, "-", 0, o);
}
