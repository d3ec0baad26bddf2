/*
 * A small installer: keeps one settings file per serial number on a volume, in
 * a folder for each venue, with the box's purchase beside it as attributes,
 * notes a mark of the journal, and changes some of them.  It takes the last change
 * back by an undo, and all others since the mark in one call.  Then it salvages
 * what is whole of another volume, which was half written, and keeps the past of
 * a box's settings by its serial number.
 *
 * Usage: installer [FOLDER]
 * With a folder, both are saved there as a volume file, settings.volume, once for
 * each stage.  Image and journal are also left there by themselves, to look at:
 * changed.img and changed.journal before the undo, settings.img and
 * settings.journal after it.
 *
 * Build: cc -Iinclude examples/installer.c file/bulgefs_file.c file/bulgefs_system.c
 *           target/staticlib/libbulgefs.a -o installer
 */
#include "bulgefs_file.h"

#include <assert.h>
#include <stdbool.h>
#include <stdio.h>
#include <stdlib.h>
#include <string.h>

enum { BLOCKS = 32, ROOT_BLOCKS = 2, FOLDER_BLOCKS = 2, JOURNAL = 65536 };

static uint8_t image[BULGEFS_IMAGE_SIZE(BLOCKS)];
static uint8_t journal[JOURNAL];

/* The settings of a box are one line. */
enum { LINE = 23 };

/* The boxes of a venue come one after the other.  The last venue comes with the changes. */
static const char *const venues[] = {"/stage", "/studio", "/cellar"};
static const struct { const char *path, *baud, *parity; } boxes[] = {
    {"/stage/SN1001", "9600", "none"},   {"/stage/SN1002", "9600", "even"},
    {"/studio/SN1003", "19200", "none"}, {"/studio/SN1004", "115200", "none"},
    {"/cellar/SN1005", "57600", "none"},
};
enum { VENUES = 3, BOXES = 5, BOXES_OF_VENUE = 2 };

static const char inventory[] = "/inventory", scenes[] = "/stage/scenes";

/* Ends the program if a call was refused. */
static void require(uint32_t number, const char *what, const char *path)
{
    if (number == BULGEFS_OK)
        return;
    fprintf(stderr, "installer: %s %s: refused, %s (%u)\n", what, path, bulgefs_text(number),
            (unsigned)number);
    exit(EXIT_FAILURE);
}

static const uint8_t *bytes(const char *text)
{
    return (const uint8_t *)text;
}

/* ---- changes ---- */

/* The changes that stand, the last one last, as the journal has them. */
static struct { const char *what, *path; } made[40];
static size_t made_count;

static void note_change(const char *what, const char *path, uint32_t record)
{
    assert(made_count < sizeof made / sizeof made[0]);
    made[made_count].what = what;
    made[made_count].path = path;
    made_count++;
    printf("  %-16s %-14s record of %4u bytes\n", what, path, (unsigned)record);
}

static void open_venue(const char *path, uint64_t time)
{
    bulgefs_created c = bulgefs_create_directory(image, sizeof image, journal, sizeof journal,
                                                 bytes(path), strlen(path),
                                                 BULGEFS_PLAIN_DIRECTORY, 0, 0, 0, 0,
                                                 FOLDER_BLOCKS, time);
    require(c.number, "create folder", path);
    note_change("create folder", path, c.record);
}

static void close_venue(const char *path)
{
    bulgefs_changed c = bulgefs_delete_directory(image, sizeof image, journal, sizeof journal,
                                                 bytes(path), strlen(path));
    require(c.number, "delete folder", path);
    note_change("delete folder", path, c.record);
}

static void create(const char *path, uint64_t time)
{
    bulgefs_created c = bulgefs_create(image, sizeof image, journal, sizeof journal, bytes(path),
                                       strlen(path), BULGEFS_PLAIN_FILE, 0, 0, 0, 0, time);
    require(c.number, "create", path);
    note_change("create", path, c.record);
}

static void put(const char *path, uint64_t offset, const char *text, size_t len, uint64_t time)
{
    bulgefs_changed c = bulgefs_write(image, sizeof image, journal, sizeof journal, bytes(path),
                                      strlen(path), offset, bytes(text), len, time);
    require(c.number, "write", path);
    note_change("write", path, c.record);
}

static void drop(const char *path)
{
    bulgefs_changed c = bulgefs_delete(image, sizeof image, journal, sizeof journal, bytes(path),
                                       strlen(path));
    require(c.number, "delete", path);
    note_change("delete", path, c.record);
}

/*
 * What the bookkeeper keeps beside a box: a text, filled up with zeros to whole
 * blocks.  The box's own bytes and times stay as they are.
 */
static void set_purchase(const char *path, const char *text)
{
    uint8_t block[BULGEFS_BLOCK_SIZE] = {0};
    assert(strlen(text) < sizeof block);
    memcpy(block, text, strlen(text));
    bulgefs_changed c = bulgefs_set_attributes(image, sizeof image, journal, sizeof journal,
                                               bytes(path), strlen(path), block, sizeof block);
    require(c.number, "set attributes", path);
    note_change("set attributes", path, c.record);
}

static void clear_purchase(const char *path)
{
    bulgefs_changed c = bulgefs_clear_attributes(image, sizeof image, journal, sizeof journal,
                                                 bytes(path), strlen(path));
    require(c.number, "clear attributes", path);
    note_change("clear attributes", path, c.record);
}

/* An older installer wrote the number of a USB port into a box's system flags. */
static void clear_port(const char *path)
{
    bulgefs_changed c = bulgefs_clear_flags(image, sizeof image, journal, sizeof journal,
                                            bytes(path), strlen(path));
    require(c.number, "clear flags", path);
    note_change("clear flags", path, c.record);
}

/*
 * A write never shortens a file: "300" written over "9600" leaves "3000".  A
 * replace gives the file exactly these bytes.
 */
static void replace(const char *path, const char *text, uint64_t time)
{
    bulgefs_changed c = bulgefs_replace(image, sizeof image, journal, sizeof journal, bytes(path),
                                        strlen(path), bytes(text), strlen(text), time);
    require(c.number, "replace", path);
    note_change("replace", path, c.record);
}

static void set(const char *path, const char *baud, const char *parity, uint64_t time)
{
    char line[LINE + 1];
    int len = snprintf(line, sizeof line, "baud=%s parity=%s", baud, parity);
    assert(len <= LINE);
    replace(path, line, time);
}

static void add_box(int i, uint64_t time)
{
    create(boxes[i].path, time);
    set(boxes[i].path, boxes[i].baud, boxes[i].parity, time);
}

/* ---- what is on the volume ---- */

/* What the three stages of the program have in each box, and the image then. */
enum { INSTALLED, CHANGED, UNDONE, STAGES };
static const char *const stage_names[STAGES] = {"installed", "changed", "after undo"};
static char lines[STAGES][BOXES][LINE + 1];
static uint8_t images[STAGES][sizeof image], journals[STAGES][sizeof journal];

/* Keeps image, journal and the line of every box that is there. */
static void keep(int stage)
{
    require(bulgefs_check(image, sizeof image), "check", "the volume");
    memcpy(images[stage], image, sizeof image);
    memcpy(journals[stage], journal, sizeof journal);
    for (int i = 0; i < BOXES; i++) {
        bulgefs_filled r = bulgefs_read(image, sizeof image, bytes(boxes[i].path),
                                        strlen(boxes[i].path), 0, (uint8_t *)lines[stage][i], LINE);
        if (r.number != BULGEFS_NOT_FOUND)
            require(r.number, "read", boxes[i].path);
        lines[stage][i][r.count] = 0;
        if (r.number == BULGEFS_NOT_FOUND)
            strcpy(lines[stage][i], "-");
    }
}

static void show_boxes(void)
{
    printf("\nThe boxes\n  %-14s  %-23s  %-23s  %s\n", "", stage_names[INSTALLED],
           stage_names[CHANGED], stage_names[UNDONE]);
    for (int i = 0; i < BOXES; i++)
        printf("  %-14s  %-23s  %-23s  %s\n", boxes[i].path, lines[INSTALLED][i],
               lines[CHANGED][i], lines[UNDONE][i]);
}

/* A sign for each block: # if a byte of it differs from the installed image. */
static void show_blocks(void)
{
    printf("\nThe image's %d blocks: # differs from the installed one\n", BLOCKS);
    for (int stage = 0; stage < STAGES; stage++) {
        printf("  %-14s  ", stage_names[stage]);
        for (size_t at = 0; at < sizeof image; at += BULGEFS_BLOCK_SIZE)
            putchar(memcmp(images[stage] + at, images[INSTALLED] + at, BULGEFS_BLOCK_SIZE) == 0
                        ? '.' : '#');
        putchar('\n');
    }
}

/* The text of a file, which is not copied. */
static void show_text(const char *path)
{
    enum { SHOWN = 40 };
    bulgefs_found f = bulgefs_lookup(image, sizeof image, bytes(path), strlen(path));
    require(f.number, "look up", path);
    bulgefs_part p = bulgefs_look_in_place(image, sizeof image, bytes(path), strlen(path), 0);
    printf("  %s now has %u bytes: %.*s%s\n", path, (unsigned)f.size,
           p.length < SHOWN ? (int)p.length : SHOWN, (const char *)image + p.start,
           f.size > SHOWN ? "..." : "");
}

/* The volume's name and counts, and what its root holds, slot by slot. */
static void show_volume(void)
{
    uint8_t labels[BULGEFS_LABELS_SIZE], name[BULGEFS_MAX_NAME + 1] = {0};
    bulgefs_volume v = bulgefs_info(image, sizeof image, labels, sizeof labels);
    require(v.number, "info", "the volume");
    printf("  \"%.*s\": %u of %u blocks used\n", (int)BULGEFS_VOLUME_NAME_SIZE,
           (const char *)labels + sizeof(bulgefs_uuid), (unsigned)v.used, (unsigned)v.blocks);
    bulgefs_slot e = bulgefs_entry(image, sizeof image, bytes("/"), 1, 1, name, BULGEFS_MAX_NAME);
    while (e.slot != 0) {
        printf("  slot %u: %-9s %u bytes, %u blocks, time %u\n", (unsigned)e.slot,
               (const char *)name, (unsigned)e.size, (unsigned)e.blocks, (unsigned)e.modified);
        e = bulgefs_entry(image, sizeof image, bytes("/"), 1, e.slot + 1, name, BULGEFS_MAX_NAME);
    }
    require(e.number, "entry", "/");
}

/* The purchases of all boxes that have one. */
static void show_purchases(void)
{
    for (int i = 0; i < BOXES; i++) {
        uint8_t block[BULGEFS_BLOCK_SIZE];
        bulgefs_filled r = bulgefs_read_attributes(image, sizeof image, bytes(boxes[i].path),
                                                   strlen(boxes[i].path), block, sizeof block);
        if (r.number == BULGEFS_NOT_FOUND)
            continue;
        require(r.number, "read attributes", boxes[i].path);
        if (r.count > 0)
            printf("  %s has beside it: %s\n", boxes[i].path, (const char *)block);
    }
}

/* Whether a text stands anywhere in the image, as an editor would find it. */
static void look_for(const char *text)
{
    size_t len = strlen(text), at = 0;
    while (at + len <= sizeof image && memcmp(image + at, text, len) != 0)
        at++;
    printf("  \"%s\" %s in the image\n", text, at + len <= sizeof image ? "stands" : "is nowhere");
}

/* ---- install, change, undo ---- */

/* What is deleted by the changes. */
static const char *const deleted[] = {"baud=115200", "98 99 100", "invoice 4471"};

static void look_for_deleted(void)
{
    for (size_t i = 0; i < sizeof deleted / sizeof deleted[0]; i++)
        look_for(deleted[i]);
}

/* A text that is longer than a block. */
static const char *scene_list(void)
{
    static char text[800] = "scenes:";
    size_t len = strlen(text);
    for (int i = 1; i <= 180; i++)
        len += (size_t)snprintf(text + len, sizeof text - len, " %d", i);
    return text;
}

static void install(void)
{
    static const uint8_t volume_name[BULGEFS_VOLUME_NAME_SIZE] = "settings";
    bulgefs_uuid uuid = {{0x4D, 0x6F, 0x6B, 0x6C, 0x61, 0x79, 0x75, 0x74}};
    require(bulgefs_format(image, sizeof image, ROOT_BLOCKS, 1000, uuid, volume_name,
                           sizeof volume_name),
            "format", "the volume");
    require(bulgefs_journal_start(journal, sizeof journal), "start", "the journal");
    printf("Install: %d blocks, room for %u files and venues, and %u in each venue\n", BLOCKS,
           BULGEFS_MAX_FILES(ROOT_BLOCKS), BULGEFS_MAX_FILES(FOLDER_BLOCKS));
    create(inventory, 1000);
    put(inventory, 0, "boxes=4", 7, 1000);
    for (int v = 0; v < VENUES - 1; v++) {
        open_venue(venues[v], 1001);
        for (int i = v * BOXES_OF_VENUE; i < (v + 1) * BOXES_OF_VENUE; i++)
            add_box(i, 1002);
    }
    create(scenes, 1003);
    replace(scenes, scene_list(), 1003);
    set_purchase(boxes[0].path, "bought 2024-05-13, invoice 4471");
    set_purchase(boxes[2].path, "bought 2025-01-30, invoice 5120");
    show_volume();
    show_text(scenes);
    show_purchases();
    look_for_deleted();
}

static void change(void)
{
    printf("\nChange\n");
    set(boxes[0].path, "300", boxes[0].parity, 2001);
    set(boxes[1].path, boxes[1].baud, "odd", 2002);
    clear_port(boxes[1].path);
    clear_purchase(boxes[0].path);
    set_purchase(boxes[1].path, "bought 2024-06-02, invoice 4502");
    set_purchase(boxes[2].path, "bought 2025-02-01, invoice 5121");
    replace(scenes, "scenes: 1 2", 2003);
    drop(boxes[2].path);
    drop(boxes[3].path);
    close_venue(venues[1]);
    open_venue(venues[2], 2004);
    add_box(4, 2005);
    put(inventory, 6, "3", 1, 2006);
    show_text(scenes);
    show_purchases();
    look_for_deleted();
}

/* What stands in the journal, whose changes are all in made.  Its used length is a mark. */
static uint32_t mark_now(void)
{
    bulgefs_journal j = bulgefs_journal_info(image, sizeof image, journal, sizeof journal);
    require(j.number, "journal info", "the volume");
    assert(j.records == made_count);
    printf("  mark %u: %u changes stand, the last one is %s %s, record of %u bytes\n",
           (unsigned)j.used, (unsigned)j.records, made[made_count - 1].what,
           made[made_count - 1].path, (unsigned)j.last);
    return j.used;
}

/* This morning's mark: the way back to how the boxes are now. */
static uint32_t note_morning(void)
{
    printf("\nThis morning's mark\n");
    return mark_now();
}

/* Takes the last change back, and then all others since this morning, in one call. */
static void take_back(uint32_t morning)
{
    printf("\nUndo\n");
    bulgefs_changed u = bulgefs_undo(image, sizeof image, journal, sizeof journal);
    require(u.number, "undo", "the last change");
    made_count--;
    printf("  undo %s %s, record of %u bytes\n", made[made_count].what, made[made_count].path,
           (unsigned)u.record);
    bulgefs_listed b = bulgefs_undo_to(image, sizeof image, journal, sizeof journal, morning);
    require(b.number, "undo to", "this morning's mark");
    made_count -= b.done;
    printf("  undo to this morning's mark, %u changes\n", (unsigned)b.done);
    mark_now();
    show_text(scenes);
    show_purchases();
    look_for_deleted();
}

static void show_refusal(const char *what, const char *path, uint32_t number)
{
    printf("  %-14s %-20s %s (%u)\n", what, path, bulgefs_text(number), (unsigned)number);
}

/*
 * A name is not found by its first bytes, nor by more than its bytes, nor as a
 * file if it is a folder's; a path begins with a slash; a folder that is not
 * empty stays; attributes have no more than 8 blocks; nothing is created with
 * the number of a port; no record ends one byte behind a mark.
 */
static void try_refusals(uint32_t morning)
{
    static const uint8_t nine[9 * BULGEFS_BLOCK_SIZE];
    static const char *const paths[] = {"/stage/SN100", "/stage/SN10011", "/stage", "SN1001",
                                        "/a/b/c/d/e/f/g/h/i/j"};
    printf("\nRefused\n");
    for (int i = 0; i < 5; i++) {
        bulgefs_found f = bulgefs_lookup(image, sizeof image, bytes(paths[i]), strlen(paths[i]));
        show_refusal("look up", paths[i], f.number);
    }
    bulgefs_changed d = bulgefs_delete_directory(image, sizeof image, journal, sizeof journal,
                                                 bytes(venues[0]), strlen(venues[0]));
    show_refusal("delete folder", venues[0], d.number);
    bulgefs_changed s = bulgefs_set_attributes(image, sizeof image, journal, sizeof journal,
                                               bytes(inventory), strlen(inventory), nine,
                                               sizeof nine);
    show_refusal("set attributes", inventory, s.number);
    bulgefs_created c = bulgefs_create(image, sizeof image, journal, sizeof journal, bytes("/port"),
                                       5, BULGEFS_PLAIN_FILE, 0, 0, 0, 3, 2007);
    show_refusal("create", "/port", c.number);
    bulgefs_listed b = bulgefs_undo_to(image, sizeof image, journal, sizeof journal, morning + 1);
    show_refusal("undo to", "a byte behind a mark", b.number);
}

/* ---- a volume that was half written ---- */

static uint8_t laptop[BULGEFS_IMAGE_SIZE(16)], laptop_journal[16384];

/* Makes a file in the laptop's root, with so many bytes of these. */
static void store(const char *path, const char *data, size_t len)
{
    bulgefs_created c = bulgefs_create(laptop, sizeof laptop, laptop_journal,
                                       sizeof laptop_journal, bytes(path), strlen(path),
                                       BULGEFS_PLAIN_FILE, 0, 0, 0, 0, 1);
    require(c.number, "create", path);
    bulgefs_changed w = bulgefs_write(laptop, sizeof laptop, laptop_journal,
                                      sizeof laptop_journal, bytes(path), strlen(path), 0,
                                      bytes(data), len, 2);
    require(w.number, "write", path);
}

/* Three files; the table, block 1, is left as it was when there was one. */
static void write_half(void)
{
    static const uint8_t volume_name[BULGEFS_VOLUME_NAME_SIZE] = "laptop";
    static const char list[600] = "boxes";
    bulgefs_uuid uuid = {{1}};
    uint8_t table[BULGEFS_BLOCK_SIZE];
    require(bulgefs_format(laptop, sizeof laptop, ROOT_BLOCKS, 0, uuid, volume_name,
                           sizeof volume_name), "format", "the laptop");
    require(bulgefs_journal_start(laptop_journal, sizeof laptop_journal), "start", "the laptop");
    store("/SN2001", "baud=9600", 9);
    memcpy(table, laptop + sizeof table, sizeof table);
    store("/SN2002", "baud=19200", 10);
    store("/list", list, sizeof list);
    memcpy(laptop + sizeof table, table, sizeof table);
}

/* A journal of before is not the salvaged image's own: it is started anew. */
static void salvage(void)
{
    static const char *const words[] = {"kept", "entry lost", "file lost", "end mended",
                                        "attributes lost"};
    static const char *const paths[] = {"/SN2001", "/SN2002", "/list"};
    uint8_t report[BULGEFS_MAX_REPORT];
    printf("\nSalvage of a volume whose table is older than the rest\n");
    write_half();
    show_refusal("check", "the laptop", bulgefs_check(laptop, sizeof laptop));
    require(bulgefs_salvage(laptop, sizeof laptop, report, sizeof report), "salvage",
            "the laptop");
    require(bulgefs_journal_start(laptop_journal, sizeof laptop_journal), "start", "the laptop");
    show_refusal("check", "the laptop", bulgefs_check(laptop, sizeof laptop));
    for (int i = 0; i < 3; i++) {
        bulgefs_part p = bulgefs_look_in_place(laptop, sizeof laptop, bytes(paths[i]),
                                               strlen(paths[i]), 0);
        printf("  slot %d %-7s %-11s %.*s\n", i + 1, paths[i], words[report[i + 1]],
               p.length > 0 ? (int)p.length : 1,
               p.length > 0 ? (const char *)laptop + p.start : "-");
    }
}

/* Shows a revision of the settings of a box, or why there is none. */
static void show_revision(const char *what, bulgefs_got got, const uint8_t *data)
{
    if (got.number != BULGEFS_OK)
        printf("  get %-11s %s (%u)\n", what, bulgefs_text(got.number), (unsigned)got.number);
    else
        printf("  get %-11s revision %u, %.*s\n", what, (unsigned)got.revision, (int)got.length,
               (const char *)data);
}

/*
 * Settings by serial number keep their lengths, so that a shorter one leaves
 * nothing of the one before, and their past: the last 16 can be had again.
 */
static void past(void)
{
    static const uint8_t volume_name[BULGEFS_VOLUME_NAME_SIZE] = "box";
    static uint8_t box[BULGEFS_IMAGE_SIZE(16)], box_journal[8192], data[BULGEFS_MAX_SETTINGS];
    static const char *const revisions[] = {"baud=9600", "baud=300", "baud=19200"};
    const uint8_t *serial = bytes("SN1001");
    bulgefs_uuid uuid = {{0}};
    printf("\nSettings with a past\n");
    require(bulgefs_format(box, sizeof box, 1, 0, uuid, volume_name, sizeof volume_name), "format",
            "the box");
    require(bulgefs_journal_start(box_journal, sizeof box_journal), "start", "the box");
    for (int i = 0; i < 3; i++) {
        bulgefs_put p = bulgefs_put_settings(box, sizeof box, box_journal, sizeof box_journal,
                                             serial, 6, bytes(revisions[i]), strlen(revisions[i]),
                                             3000 + (uint64_t)i);
        require(p.number, "put", "SN1001");
        printf("  put %-11s revision %u, record of %u bytes\n", revisions[i], (unsigned)p.revision,
               (unsigned)p.record);
    }
    show_revision("revision 1",
                  bulgefs_get_settings(box, sizeof box, serial, 6, 1, data, sizeof data), data);
    show_revision("latest",
                  bulgefs_get_latest_settings(box, sizeof box, serial, 6, data, sizeof data), data);
    require(bulgefs_undo(box, sizeof box, box_journal, sizeof box_journal).number, "undo", "put");
    printf("  undo\n");
    show_revision("latest",
                  bulgefs_get_latest_settings(box, sizeof box, serial, 6, data, sizeof data), data);
    show_revision("revision 3",
                  bulgefs_get_settings(box, sizeof box, serial, 6, 3, data, sizeof data), data);
}

static bool same(const char *what, const uint8_t *now, const uint8_t *then, size_t len)
{
    bool equal = memcmp(now, then, len) == 0;
    printf("  %-14s  %6zu bytes %s\n", what, len, equal ? "equal" : "DIFFERENT");
    return equal;
}

/* Ends the program if a volume file could not be made, opened or saved. */
static void require_file(bulgefs_volume_result r, const char *what, const char *path)
{
    if (r.error == BULGEFS_VOLUME_OK)
        return;
    fprintf(stderr, "installer: %s %s: %s (%u)\n", what, path, bulgefs_volume_text(r.error),
            (unsigned)r.system);
    exit(EXIT_FAILURE);
}

/*
 * Saves the pair of each stage in one volume file, and reads the last one back.
 * Whenever power fails here, the file holds one of these pairs, whole.
 */
static bool save(const char *folder)
{
    char path[4096];
    bulgefs_volume_file v;
    snprintf(path, sizeof path, "%s/settings.volume", folder);
    remove(path);
    require_file(bulgefs_volume_create(path, images[INSTALLED], sizeof image, journals[INSTALLED],
                                       sizeof journal, NULL, 0, NULL), "create", path);
    require_file(bulgefs_volume_open(&v, path, BULGEFS_VOLUME_CHANGE, NULL), "open", path);
    for (int stage = CHANGED; stage < STAGES; stage++) {
        memcpy(v.image, images[stage], v.image_len);
        memcpy(v.journal, journals[stage], v.journal_len);
        require_file(bulgefs_volume_save(&v), "save", path);
    }
    bulgefs_volume_close(&v);
    require_file(bulgefs_volume_open(&v, path, BULGEFS_VOLUME_LOOK, NULL), "open", path);
    printf("\nSaved in a volume file, and read back\n");
    bool equal = same("image", v.image, images[UNDONE], sizeof image);
    equal = same("journal", v.journal, journals[UNDONE], sizeof journal) && equal;
    bulgefs_volume_close(&v);
    return equal;
}

/* Leaves a file to look at. */
static void leave(const char *folder, const char *name, const uint8_t *content, size_t len)
{
    char path[4096];
    snprintf(path, sizeof path, "%s/%s", folder, name);
    FILE *f = fopen(path, "wb");
    if (f == NULL || fwrite(content, 1, len, f) != len || fclose(f) != 0) {
        fprintf(stderr, "installer: cannot write %s\n", path);
        exit(EXIT_FAILURE);
    }
}

int main(int argc, char **argv)
{
    install();
    keep(INSTALLED);
    uint32_t morning = note_morning();
    change();
    keep(CHANGED);
    try_refusals(morning);
    take_back(morning);
    keep(UNDONE);

    show_boxes();
    show_blocks();
    printf("\nInstalled, and after undo\n");
    bool equal = same("image", images[UNDONE], images[INSTALLED], sizeof image);
    equal = same("journal", journals[UNDONE], journals[INSTALLED], sizeof journal) && equal;
    salvage();
    past();

    if (argc > 1) {
        equal = save(argv[1]) && equal;
        leave(argv[1], "changed.img", images[CHANGED], sizeof image);
        leave(argv[1], "changed.journal", journals[CHANGED], sizeof journal);
        leave(argv[1], "settings.img", images[UNDONE], sizeof image);
        leave(argv[1], "settings.journal", journals[UNDONE], sizeof journal);
    }
    return equal ? EXIT_SUCCESS : EXIT_FAILURE;
}
