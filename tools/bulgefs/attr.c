/* attr.c - a file's attributes: how many, get, set, clear. */
#include <stdlib.h>
#include <string.h>

#include "look.h"

enum { MOST = BULGEFS_MAX_ATTRIBUTE_BLOCKS * BULGEFS_BLOCK_SIZE };

/* Says how many blocks there are, or writes them to a file. */
static int look(const char *volume, const char *path, const char *to, const options *o)
{
    uint8_t content[MOST];
    bulgefs_filled filled;
    store s;
    int status = store_open(&s, volume, LOOK, o);
    if (status) return status;
    filled = bulgefs_read_attributes(s.image.bytes, s.image.length, (const uint8_t *)path, strlen(path), content, sizeof content);
    status = filled.number ? refuse_path(&s, filled.number, path) : DONE;
    store_close(&s);
    if (status) return status;
    if (to && filled.count) return write_output(to, content, filled.count);
    if (to) {
        say("%s has no attributes", path);
        return REFUSED;
    }
    printf("%u\n", (unsigned)(filled.count / BULGEFS_BLOCK_SIZE));
    return DONE;
}

static int set(const char *volume, const char *path, const char *from, const options *o)
{
    bytes data;
    size_t length;
    bulgefs_changed done;
    store s;
    int status = read_input(from, MOST, &data);
    if (status) return status;
    length = (data.length + BULGEFS_BLOCK_SIZE - 1) / BULGEFS_BLOCK_SIZE * BULGEFS_BLOCK_SIZE;
    data.bytes = take_more(data.bytes, length);
    memset(data.bytes + data.length, 0, length - data.length);
    status = store_open(&s, volume, CHANGE, o);
    if (!status) {
        done = bulgefs_set_attributes(s.image.bytes, s.image.length, s.journal.bytes, s.journal.length, (const uint8_t *)path, strlen(path),
                                      data.bytes, length);
        status = store_finish(&s, done.number ? refuse_path(&s, done.number, path) : DONE);
    }
    free(data.bytes);
    return status;
}

static int clear(const char *volume, const char *path, const options *o)
{
    bulgefs_changed done;
    store s;
    int status = store_open(&s, volume, CHANGE, o);
    if (status) return status;
    done = bulgefs_clear_attributes(s.image.bytes, s.image.length, s.journal.bytes, s.journal.length, (const uint8_t *)path, strlen(path));
    return store_finish(&s, done.number ? refuse_path(&s, done.number, path) : DONE);
}

int command_attr(int argc, char **argv, const options *o)
{
    int good = good_arguments(&argc, argv, 2, 4);
    if (good && argc == 3) return look(argv[1], argv[2], NULL, o);
    if (good && argc == 5 && !strcmp(argv[3], "get")) return look(argv[1], argv[2], argv[4], o);
    if (good && argc == 5 && !strcmp(argv[3], "set")) return set(argv[1], argv[2], argv[4], o);
    if (good && argc == 4 && !strcmp(argv[3], "clear")) return clear(argv[1], argv[2], o);
    return usage("attr VOLUME PATH [get FILE|set FILE|clear]");
}
