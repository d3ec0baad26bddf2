/* format.c - makes a new volume and its journal. */
#include <ctype.h>
#include <stdlib.h>
#include <string.h>

#include "look.h"

typedef struct { uint64_t blocks, root, journal, time; bulgefs_uuid uuid; uint8_t name[BULGEFS_VOLUME_NAME_SIZE]; } plan;

static int hex_digit(int letter)
{
    const char *digits = "0123456789abcdef", *found = letter ? strchr(digits, tolower(letter)) : NULL;
    return found ? (int)(found - digits) : -1;
}

static int bad_uuid(void)
{
    say("--uuid must be 32 hexadecimal digits");
    return FAILED;
}

/* 32 hexadecimal digits, with any dashes between. */
static int read_uuid(const char *text, bulgefs_uuid *uuid)
{
    int count = 0;
    memset(uuid, 0, sizeof *uuid);
    for (; *text; text++) {
        int digit = hex_digit((unsigned char)*text);
        if (*text == '-') continue;
        if (digit < 0 || count == 32) return bad_uuid();
        uuid->bytes[count / 2] = (uint8_t)(uuid->bytes[count / 2] << 4 | digit);
        count++;
    }
    return count == 32 ? DONE : bad_uuid();
}

/* A random UUID, version 4. */
static int random_uuid(bulgefs_uuid *uuid)
{
    FILE *random = fopen("/dev/urandom", "rb");
    size_t count = random ? fread(uuid->bytes, 1, sizeof uuid->bytes, random) : 0;
    if (random) fclose(random);
    if (count != sizeof uuid->bytes) return fail_system("/dev/urandom");
    uuid->bytes[6] = (uint8_t)((uuid->bytes[6] & 0x0F) | 0x40);
    uuid->bytes[8] = (uint8_t)((uuid->bytes[8] & 0x3F) | 0x80);
    return DONE;
}

static int read_name(const char *text, uint8_t *name)
{
    size_t length = strlen(text);
    if (length <= BULGEFS_VOLUME_NAME_SIZE) {
        memcpy(name, text, length);
        return DONE;
    }
    say("--name must have at most 128 bytes");
    return FAILED;
}

static uint64_t usual_root(uint64_t blocks)
{
    uint64_t root = blocks / 16;
    return root < 1 ? 1 : root > BULGEFS_MAX_DIRECTORY_BLOCKS ? BULGEFS_MAX_DIRECTORY_BLOCKS : root;
}

static int read_plan(int *argc, char **argv, plan *p)
{
    const char *root = NULL, *name = "", *uuid = NULL, *journal = NULL;
    int good = take_value(argc, argv, "--root", &root) && take_value(argc, argv, "--name", &name)
        && take_value(argc, argv, "--uuid", &uuid) && take_value(argc, argv, "--journal", &journal);
    if (!good || !good_arguments(argc, argv, 2, 2))
        return usage("format VOLUME BLOCKS [--root D] [--name TEXT] [--uuid UUID] [--journal BYTES]");
    memset(p, 0, sizeof *p);
    if (read_number(argv[2], "BLOCKS", BULGEFS_MIN_BLOCKS, BULGEFS_MAX_BLOCKS, &p->blocks)) return FAILED;
    p->root = usual_root(p->blocks);
    p->journal = usual_journal((size_t)p->blocks * BULGEFS_BLOCK_SIZE);
    if (root && read_number(root, "--root", 1, BULGEFS_MAX_DIRECTORY_BLOCKS, &p->root)) return FAILED;
    if (journal && read_number(journal, "--journal", BULGEFS_MIN_JOURNAL, BULGEFS_MAX_JOURNAL, &p->journal)) return FAILED;
    if (read_name(name, p->name) || read_time(&p->time)) return FAILED;
    return uuid ? read_uuid(uuid, &p->uuid) : random_uuid(&p->uuid);
}

static int make(const plan *p, const char *path, bytes *image)
{
    uint32_t number;
    image->length = (size_t)p->blocks * BULGEFS_BLOCK_SIZE;
    image->bytes = take_memory(image->length);
    number = bulgefs_format(image->bytes, image->length, (uint32_t)p->root, p->time, p->uuid, p->name, sizeof p->name);
    return number ? refuse(number, path) : DONE;
}

int command_format(int argc, char **argv, const options *o)
{
    plan p;
    bytes image;
    int status = read_plan(&argc, argv, &p);
    if (status) return status;
    status = make(&p, argv[1], &image);
    if (!status) status = store_start(argv[1], &image, (size_t)p.journal, o);
    free(image.bytes);
    return status;
}
