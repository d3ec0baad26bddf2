/*
 * Makes the calls of docs/FORMAT.md, B.3 and B.4, over the archive.
 *
 * Usage: vectors FOLDER
 *
 * For each row of B.3 it prints the row and its answer, and writes image and
 * journal to FOLDER/NN.image and FOLDER/NN.journal.  The image and the journal of
 * B.4 go to FOLDER/small.image and FOLDER/small.journal, as lines of an offset and
 * a byte, without the bytes that are 0.
 */
#include "bulgefs.h"

#include <stdio.h>
#include <stdlib.h>
#include <string.h>

#define TEXT(s) (const uint8_t *)(s), sizeof(s) - 1

static uint8_t image[BULGEFS_IMAGE_SIZE(16)], journal[32768];
static const char *folder;
static int row;

static FILE *open_in(const char *name)
{
    char path[4096];
    FILE *file;

    if ((size_t)snprintf(path, sizeof path, "%s/%s", folder, name) >= sizeof path || !(file = fopen(path, "wb"))) {
        perror(name);
        exit(2);
    }
    return file;
}

static void store(const char *name, const uint8_t *bytes, size_t length)
{
    FILE *file = open_in(name);

    if (fwrite(bytes, 1, length, file) != length || fclose(file)) {
        perror(name);
        exit(2);
    }
}

/* The bytes other than 0, each with its offset, as B.4 has them. */
static void store_text(const char *name, const uint8_t *bytes, size_t length)
{
    FILE *file = open_in(name);
    size_t i;

    for (i = 0; i < length; i++)
        if (bytes[i])
            fprintf(file, "%04X %02X\n", (unsigned)i, bytes[i]);
    if (fclose(file)) {
        perror(name);
        exit(2);
    }
}

/* A row of B.3: what was called, what it answered, and what image and journal are then. */
static void done(const char *call, const char *answer)
{
    char name[32];

    row++;
    printf("%02d %s: %s\n", row, call, answer);
    snprintf(name, sizeof name, "%02d.image", row);
    store(name, image, sizeof image);
    snprintf(name, sizeof name, "%02d.journal", row);
    store(name, journal, sizeof journal);
}

static const char *answer_of(const char *fields, uint32_t a, uint32_t b, uint32_t c)
{
    static char text[128];

    snprintf(text, sizeof text, fields, (unsigned)a, (unsigned)b, (unsigned)c);
    return text;
}

static const char *created(bulgefs_created a)
{
    return answer_of("%u, slot %u, record %u", a.number, a.slot, a.record);
}

static const char *changed(bulgefs_changed a)
{
    return answer_of("%u, record %u", a.number, a.record, 0);
}

static const char *put(bulgefs_put a)
{
    return answer_of("%u, revision %u, record %u", a.number, a.revision, a.record);
}

#define IMAGE image, sizeof image
#define BOTH  IMAGE, journal, sizeof journal

/* B.3 */
static void vectors(bulgefs_uuid uuid, const uint8_t *label)
{
    /* two writes at 0, of "B" to /stage/SN2 with time 8 and of 602 bytes of 0x42 to /A with time 9 */
    static const uint8_t head[] = { 1, 0, 0, 2, 0x90 };
    static const uint8_t first[] = { 0, 0, 0, 0x1D, 0, 0, 0, 0, 0, 0, 0, 8, 0, 0, 0, 0, 0, 10 };
    static const uint8_t second[] = { 0, 0, 2, 0x6E, 0, 0, 0, 0, 0, 0, 0, 9, 0, 0, 0, 0, 0, 2 };
    static uint8_t data[513], purchase[512], list[656];
    uint32_t made;
    bulgefs_listed listed;
    bulgefs_listed backed;
    size_t i;

    for (i = 0; i < sizeof data; i++)
        data[i] = (uint8_t)(i % 251);
    memset(purchase, 0xAA, sizeof purchase);
    memcpy(list, head, 5);
    memcpy(list + 5, first, 18);
    memcpy(list + 23, "/stage/SN2", 10);
    list[33] = 'B';
    memcpy(list + 34, second, 18);
    memcpy(list + 52, "/A", 2);
    memset(list + 54, 0x42, 602);

    made = bulgefs_format(IMAGE, 2, 1, uuid, label, BULGEFS_VOLUME_NAME_SIZE);
    done("format, d 2, time 1; start", answer_of("%u, %u", made, bulgefs_journal_start(journal, sizeof journal), 0));
    done("create /A, type 0x60, user 1, group 2, permissions 0x3F, flags 0, time 2", created(bulgefs_create(BOTH, TEXT("/A"), 0x60, 1, 2, 0x3F, 0, 2)));
    done("write /A at 0, 513 bytes, byte i is i mod 251, time 3", changed(bulgefs_write(BOTH, TEXT("/A"), 0, data, sizeof data, 3)));
    done("set attributes of /A, 512 bytes 0xAA", changed(bulgefs_set_attributes(BOTH, TEXT("/A"), purchase, sizeof purchase)));
    done("create directory /stage, type 0x20, user 3, group 4, permissions 0x0F, flags 0, d 1, time 4", created(bulgefs_create_directory(BOTH, TEXT("/stage"), 0x20, 3, 4, 0x0F, 0, 1, 4)));
    done("put settings SN1, \"abc\", time 5", put(bulgefs_put_settings(BOTH, TEXT("SN1"), TEXT("abc"), 5)));
    done("put settings in /stage SN2, \"x=1\", time 6", put(bulgefs_put_settings_in(BOTH, TEXT("/stage"), TEXT("SN2"), TEXT("x=1"), 6)));
    done("append to /A \"!\", time 7", changed(bulgefs_append(BOTH, TEXT("/A"), TEXT("!"), 7)));
    listed = bulgefs_write_list(BOTH, list, sizeof list);
    done("list of two writes at 0: \"B\" to /stage/SN2, time 8; 602 bytes 0x42 to /A, time 9", answer_of("%u, done %u", listed.number, listed.done, 0));
    done("delete /A", changed(bulgefs_delete(BOTH, TEXT("/A"))));
    done("undo", changed(bulgefs_undo(BOTH)));
    backed = bulgefs_undo_to(BOTH, 3109);
    done("undo to the mark 3109", answer_of("%u, done %u", backed.number, backed.done, 0));
    backed = bulgefs_undo_to(BOTH, 5);
    done("undo to the mark 5", answer_of("%u, done %u", backed.number, backed.done, 0));
}

/* B.4 */
static int small(bulgefs_uuid uuid, const uint8_t *label)
{
    static uint8_t four[BULGEFS_IMAGE_SIZE(4)], log[4096];
    bulgefs_created made;
    bulgefs_changed written;

    if (bulgefs_format(four, sizeof four, 1, 1, uuid, label, BULGEFS_VOLUME_NAME_SIZE) || bulgefs_journal_start(log, sizeof log))
        return 1;
    made = bulgefs_create(four, sizeof four, log, sizeof log, TEXT("/SN1"), 0x60, 1, 2, 0x3F, 0, 2);
    store_text("small.journal", log, sizeof log);
    written = bulgefs_write(four, sizeof four, log, sizeof log, TEXT("/SN1"), 0, TEXT("baud=9600"), 3);
    store_text("small.image", four, sizeof four);
    return made.number || written.number;
}

int main(int count, char **words)
{
    static uint8_t label[BULGEFS_VOLUME_NAME_SIZE] = "van 3";
    bulgefs_uuid uuid;
    uint8_t i;

    if (count != 2)
        return 2;
    folder = words[1];
    for (i = 0; i < 16; i++)
        uuid.bytes[i] = i;
    vectors(uuid, label);
    return small(uuid, label);
}
