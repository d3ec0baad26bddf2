/* put.c - makes a file of the volume what a file outside is, in one step. */
#include <stdlib.h>
#include <string.h>

#include "tree.h"

enum { ITEM_HEAD = 18 };

typedef struct { store *s; const uint8_t *path; size_t path_length; uint64_t time; const bytes *data; } job;

static uint8_t *put_item(uint8_t *to, const job *j, size_t offset, size_t length)
{
    put_number(to, (uint32_t)(ITEM_HEAD + j->path_length + length));
    put_number(to + 4, (uint32_t)(j->time >> 32));
    put_number(to + 8, (uint32_t)j->time);
    put_number(to + 12, (uint32_t)offset);
    to[16] = (uint8_t)(j->path_length >> 8);
    to[17] = (uint8_t)j->path_length;
    memcpy(to + ITEM_HEAD, j->path, j->path_length);
    memcpy(to + ITEM_HEAD + j->path_length, j->data->bytes + offset, length);
    return to + ITEM_HEAD + j->path_length + length;
}

/* As many writes as a list holds, from offset on; gives the offset behind them, and the refusal. */
static size_t write_some(const job *j, size_t offset, uint32_t *number)
{
    static uint8_t list[BULGEFS_MAX_LIST];
    uint8_t *end = list + BULGEFS_LIST_HEAD;
    bulgefs_listed done;
    do {
        size_t left = j->data->length - offset, length = left < BULGEFS_MAX_DATA ? left : BULGEFS_MAX_DATA;
        end = put_item(end, j, offset, length);
        offset += length;
    } while (offset < j->data->length && (size_t)(list + sizeof list - end) >= ITEM_HEAD + j->path_length + BULGEFS_MAX_DATA);
    list[0] = 1;
    put_number(list + 1, (uint32_t)(end - list));
    done = bulgefs_write_list(j->s->image.bytes, j->s->image.length, j->s->journal.bytes, j->s->journal.length, list, (size_t)(end - list));
    *number = done.number;
    return offset;
}

/* Writes all data; of no data one write, which sets the time. */
static uint32_t write_data(const job *j)
{
    uint32_t number;
    size_t offset = write_some(j, 0, &number);
    while (!number && offset < j->data->length) offset = write_some(j, offset, &number);
    return number;
}

static uint32_t create(const job *j)
{
    return bulgefs_create(j->s->image.bytes, j->s->image.length, j->s->journal.bytes, j->s->journal.length, j->path, j->path_length,
                          BULGEFS_PLAIN_FILE, 0, 0, 0, 0, j->time).number;
}

/* What no single replace can bring: a shorten, where the file becomes shorter, and writes. */
static uint32_t replace_long(const job *j, uint32_t size)
{
    uint32_t number = 0;
    if (j->data->length < size) {
        number = bulgefs_shorten(j->s->image.bytes, j->s->image.length, j->s->journal.bytes, j->s->journal.length, j->path, j->path_length,
                                 j->data->length, j->time).number;
    }
    return number ? number : write_data(j);
}

/* Whether a file of so many bytes holds the data already. */
static int is_same(const job *j, uint32_t size)
{
    bulgefs_filled filled;
    uint8_t *now;
    int same;
    if (size != j->data->length) return 0;
    now = take_memory(size);
    filled = bulgefs_read(j->s->image.bytes, j->s->image.length, j->path, j->path_length, 0, now, size);
    same = !filled.number && filled.count == size && !memcmp(now, j->data->bytes, size);
    free(now);
    return same;
}

static uint32_t put(const job *j, int *unchanged)
{
    bytes *image = &j->s->image, *journal = &j->s->journal;
    bulgefs_found found = bulgefs_lookup(image->bytes, image->length, j->path, j->path_length);
    uint32_t number = found.number;
    *unchanged = !number && is_same(j, found.size);
    if (*unchanged) return BULGEFS_OK;
    if (number == BULGEFS_NOT_FOUND) {
        number = create(j);
        return number || !j->data->length ? number : write_data(j);
    }
    if (number) return number;
    if (j->data->length > BULGEFS_MAX_DATA) return replace_long(j, found.size);
    return bulgefs_replace(image->bytes, image->length, journal->bytes, journal->length, j->path, j->path_length,
                           j->data->bytes, j->data->length, j->time).number;
}

int put_bytes(store *s, const char *path, const bytes *data, uint64_t time, int *unchanged)
{
    job j = { s, (const uint8_t *)path, strlen(path), time, data };
    uint32_t number = j.path_length > BULGEFS_MAX_PATH ? BULGEFS_BAD_ARGUMENT : data->length > LONGEST_FILE ? BULGEFS_VOLUME_FULL : put(&j, unchanged);
    return number ? refuse_path(s, number, path) : DONE;
}

/* A change is made only if there is one. */
static int finish(store *s, int status, int unchanged)
{
    if (status || !unchanged) return store_finish(s, status);
    store_close(s);
    puts("unchanged");
    return DONE;
}

int command_put(int argc, char **argv, const options *o)
{
    int tree = take_flag(&argc, argv, "-r"), unchanged = 0, status;
    bytes data = { NULL, 0 };
    uint64_t time;
    store s;
    if (!good_arguments(&argc, argv, 3, 3)) return usage("put [-r] VOLUME PATH FILE|-");
    if (read_time(&time) || (!tree && read_input(argv[3], LONGEST_FILE, &data))) return FAILED;
    status = store_open(&s, argv[1], CHANGE, o);
    if (!status) {
        status = tree ? put_tree(&s, argv[2], argv[3], time, &unchanged) : put_bytes(&s, argv[2], &data, time, &unchanged);
        status = finish(&s, status, unchanged);
    }
    free(data.bytes);
    return status;
}
