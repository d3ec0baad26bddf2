/*
 * walk.c - a long walk of calls, the same on every machine: pseudo-random calls
 * of every function of the header on sound and damaged images, and one hash of
 * every answer and of the buffers after it.  Two machines that disagree anywhere
 * have another hash.  It needs no C library.
 *
 * C leaves open in which order the arguments of a call are worked out, so each
 * random number is drawn in a statement of its own.
 */
#include "bulgefs.h"
#include "walk.h"

enum {
    SMALL_IMAGE = 4200 * 512,  /* above 4,096 blocks the check goes another way */
    LARGE_IMAGE = 65536 * 512, /* the most bytes of an image                    */
    JOURNAL = 1 << 17,
    WORLDS = 4                 /* the last one has large images                 */
};

uint32_t walk_seen[WALK_KINDS][WALK_NUMBERS], walk_fitted[WALK_KINDS];
static uint64_t seed, hash, calls_made;
static unsigned last_kind;   /* of the call that was made last                 */
static uint32_t last_number; /* its number                                     */
static size_t begun;         /* the steps with which the walk has begun so far */

/* Random numbers. */

static uint64_t next(void)
{
    uint64_t z = (seed += 0x9E3779B97F4A7C15u);
    z = (z ^ (z >> 30)) * 0xBF58476D1CE4E5B9u;
    z = (z ^ (z >> 27)) * 0x94D049BB133111EBu;
    return z ^ (z >> 31);
}

static uint32_t below(uint32_t n)
{
    return (uint32_t)(((next() >> 32) * n) >> 32);
}

static int one_in(uint32_t n)
{
    return below(n) == 0;
}

/* At times with one more bit above the low ones, so that a number that is cut on its way is seen. */
static uint64_t wide(uint64_t v)
{
    if (!one_in(12)) return v;
    return v | (uint64_t)1 << (16 + below(48));
}

static uint32_t wide32(uint32_t v)
{
    if (!one_in(12)) return v;
    return v | (uint32_t)1 << (8 + below(24));
}

/* A compiler makes one load or store of the eight bytes, so that large images take little time under an emulator. */
static void put_eight(uint8_t *bytes, uint64_t v)
{
    for (int k = 0; k < 8; k++) bytes[k] = (uint8_t)(v >> (8 * k));
}

static uint64_t get_eight(const uint8_t *bytes)
{
    uint64_t v = 0;
    for (int k = 0; k < 8; k++) v |= (uint64_t)bytes[k] << (8 * k);
    return v;
}

static void fill(uint8_t *bytes, size_t n)
{
    uint64_t v = next();
    size_t i = 0;
    for (; i + 8 <= n; i += 8) {
        v = v * 0x9E3779B97F4A7C15u + i;
        put_eight(bytes + i, v);
    }
    v = v * 0x9E3779B97F4A7C15u + i;
    for (size_t k = 0; i + k < n; k++) bytes[i + k] = (uint8_t)(v >> (8 * k));
}

static void flip(uint8_t *bytes, size_t n)
{
    uint32_t at = below((uint32_t)n);
    bytes[at] ^= (uint8_t)(1u << below(8));
}

static void copy(uint8_t *to, const uint8_t *from, size_t n)
{
    for (size_t i = 0; i < n; i++) to[i] = from[i];
}

/* The hash. */

static void put(uint64_t v)
{
    hash = (hash ^ v) * 0x9E3779B97F4A7C15u;
    hash ^= hash >> 29;
}

static void put_bytes(const uint8_t *bytes, size_t n)
{
    uint64_t v = 0;
    size_t i = 0;
    put(n);
    for (; i + 8 <= n; i += 8) put(get_eight(bytes + i));
    for (size_t k = 0; i + k < n; k++) v |= (uint64_t)bytes[i + k] << (8 * k);
    if (i < n) put(v);
}

static void answer(unsigned kind, uint32_t number)
{
    calls_made++;
    last_kind = kind;
    last_number = number;
    put(number);
    walk_seen[kind][number < WALK_NUMBERS ? number : WALK_NUMBERS - 1]++;
}

/* A world: an image with its journal, and both as they were before they were damaged. */

typedef struct {
    uint8_t *image_room, *image_kept, *image;
    uint8_t journal_room[JOURNAL + 8], journal_kept[JOURNAL], *journal;
    size_t image_len, journal_len;
    int damaged;
    uint64_t position; /* of bulgefs_read_next                     */
    uint32_t revision; /* the last one that was put, if it stands  */
    uint32_t mark;     /* a used length that the journal once had  */
} world;

static uint8_t small_rooms[WORLDS - 1][2][SMALL_IMAGE + 8], large_room[2][LARGE_IMAGE + 8];
static world worlds[WORLDS], *w;

/* What is lent to the next call: the world's buffers, or a part of them. */
static uint8_t *image, *journal;
static size_t image_len, journal_len;
#define IMAGE image, image_len
#define BOTH image, image_len, journal, journal_len

static uint8_t data[5000], buffer[5000], list[70000], path[1200], serial[300], directory[1200];
static size_t path_len, serial_len, directory_len;
static uint32_t entries[LARGE_IMAGE / 512 + 100];
#define PATH path, path_len
#define SERIAL serial, serial_len
#define DIRECTORY directory, directory_len

/* Of an image above 600 blocks mostly the front, and at times all of it. */
static void put_buffers(void)
{
    size_t n = w->image_len;
    if (n > 600 * 512 && calls_made % (n > SMALL_IMAGE ? 256 : 32) != 0) n = 60 * 512;
    put_bytes(w->image, n);
    put_bytes(w->journal, w->journal_len);
}

static void keep(void)
{
    if (w->damaged) return;
    copy(w->image_kept, w->image, w->image_len);
    copy(w->journal_kept, w->journal, w->journal_len);
    w->damaged = 1;
}

static void give_back(void)
{
    copy(w->image, w->image_kept, w->image_len);
    copy(w->journal, w->journal_kept, w->journal_len);
    w->damaged = 0;
}

static void lend(void)
{
    image = w->image;
    journal = w->journal;
    image_len = w->image_len;
    journal_len = w->journal_len;
}

/* At times other lengths than the whole, and no bytes at all. */
static void lend_less(void)
{
    uint32_t n;
    switch (below(6)) {
    case 0: image_len -= below(600); break;
    case 1: image_len = 0; image = 0; break;
    case 2: journal_len = 0; journal = 0; break;
    case 3: journal_len = below((uint32_t)journal_len + 1); break;
    case 4: n = below(20); if (n < journal_len) journal_len = n; break;
    case 5: image_len = 512 * (size_t)below((uint32_t)(image_len / 512) + 1); break;
    }
}

static uint32_t blocks_of_a_new_image(void)
{
    if (w == &worlds[WORLDS - 1]) return one_in(2) ? 65536 : 32700 + below(32800);
    if (one_in(24)) return 4080 + below(120);
    if (one_in(5)) return 100 + below(500);
    return 3 + below(60);
}

static void start_journal(void)
{
    answer(K_journal_start, bulgefs_journal_start(journal, journal_len));
    w->mark = BULGEFS_FIRST_MARK;
    w->revision = 0;
    put_buffers();
}

static void format(void)
{
    bulgefs_uuid uuid;
    uint8_t label[384];
    uint32_t number = 1, root;
    uint64_t time;
    size_t label_len;
    fill(uuid.bytes, sizeof uuid.bytes);
    fill(label, sizeof label);
    for (int tries = 0; number != 0 && tries < 60; tries++) {
        root = one_in(6) ? below(66) : 1 + below(5);
        if (one_in(3)) root |= (uint32_t)1 << (8 + below(24));
        time = next();
        label_len = one_in(9) ? 127 + below(3) : one_in(9) ? 128 + 256 : 128;
        number = bulgefs_format(IMAGE, root, time, uuid, label, label_len);
        answer(K_format, number);
    }
    put_buffers();
}

static void make_world(size_t image_bytes, size_t journal_bytes)
{
    w->image_len = image_bytes;
    w->journal_len = journal_bytes;
    w->image = w->image_room + below(8);
    w->journal = w->journal_room + below(8);
    w->damaged = 0;
    w->position = 0;
    fill(w->image, w->image_len);
    fill(w->journal, w->journal_len);
    lend();
    format();
    start_journal();
}

static void new_world(void)
{
    uint32_t blocks = blocks_of_a_new_image();
    make_world((size_t)512 * blocks, one_in(10) ? 5 + below(3000) : 5 + below(JOURNAL - 5));
}

/* Damage. */

/* A link of the table becomes a small number, or one outside the volume. */
static void damage_table(uint32_t blocks)
{
    uint32_t at = 512 + 4 * below(blocks);
    w->image[at] = w->image[at + 1] = 0;
    w->image[at + 2] = (uint8_t)(one_in(2) ? 0 : below(3));
    w->image[at + 3] = (uint8_t)below(256);
}

/* An entry of the root is put over another. */
static void damage_root(uint32_t root)
{
    uint32_t slots = (uint32_t)(w->image_len - root) / 128, to, from;
    if (slots > 12) slots = 12;
    to = below(slots);
    from = below(slots);
    copy(w->image + root + 128 * to, w->image + root + 128 * from, 128);
}

static void damage(void)
{
    uint32_t blocks = (uint32_t)(w->image_len / 512), table = (blocks + 127) / 128;
    uint32_t front = 4 + table, root = 512 * (1 + table), at;
    if (front > blocks) front = blocks;
    keep();
    for (uint32_t times = 1 + below(2); times > 0; times--) {
        at = below(512 * front);
        switch (below(9)) {
        case 0: flip(w->image + at, 1); break;
        case 1: w->image[at] = (uint8_t)next(); break;
        case 2: w->image[at] = 0; break;
        case 3: damage_table(blocks); break;
        case 4: damage_root(root); break;
        case 5: at = root + below(512); w->image[at] = (uint8_t)below(4); break;
        case 6: flip(w->image + root + 128, 384); break;
        case 7: flip(w->journal, w->journal_len < 900 ? w->journal_len : 900); break;
        case 8: flip(w->image, one_in(2) ? 64 : w->image_len); break;
        }
    }
}

/* Paths and serial numbers. */

static size_t add_name(uint8_t *to, size_t at, const char *name, uint32_t digit)
{
    to[at++] = '/';
    while (*name) to[at++] = (uint8_t)*name++;
    to[at++] = (uint8_t)('0' + digit);
    return at;
}

static size_t add_long_name(uint8_t *to, size_t at)
{
    uint32_t n = 78 + below(4);
    to[at++] = '/';
    for (uint32_t i = 0; i < n; i++) to[at++] = (uint8_t)('A' + i % 26);
    return at;
}

static size_t spoil(uint8_t *to, size_t n)
{
    switch (below(6)) {
    case 0: return 0;
    case 1: to[0] = 'x'; return n;
    case 2: to[n] = '/'; return n + 1;
    case 3: to[below((uint32_t)n)] = 0; return n;
    case 4: return 1;
    default: to[1] = '/'; return n;
    }
}

/* 256 bytes more: if its length is cut to a byte, a path or a serial number is then the one of before. */
static size_t lengthen(uint8_t *to, size_t n)
{
    for (size_t i = 0; i < 256; i++) to[n + i] = (uint8_t)(i % 64 == 0 ? '/' : 'a' + i % 26);
    return n + 256;
}

static size_t directories(uint8_t *to)
{
    size_t n = 0;
    uint32_t depth = one_in(4) ? below(3) : 0;
    if (one_in(60)) depth = 7 + below(4);
    for (uint32_t i = 0; i < depth; i++) {
        uint32_t digit = one_in(4) ? below(3) : 0;
        n = add_name(to, n, "d", digit);
    }
    return n;
}

static void path_of_file(void)
{
    path_len = directories(path);
    if (one_in(40)) path_len = add_long_name(path, path_len);
    else if (one_in(8)) path_len = add_name(path, path_len, "SN447", below(3));
    else if (one_in(12)) path_len = add_name(path, path_len, "d", below(3));
    else path_len = add_name(path, path_len, "f", below(4));
    if (one_in(50)) path_len = spoil(path, path_len);
    if (one_in(8)) path_len = lengthen(path, path_len);
}

static void path_of_directory(void)
{
    uint32_t digit = one_in(3) ? below(3) : 0;
    path_len = directories(path);
    path_len = add_name(path, path_len, "d", digit);
    if (one_in(50)) path_len = spoil(path, path_len);
    if (one_in(8)) path_len = lengthen(path, path_len);
}

static void box(void)
{
    static const char base[] = "SN447";
    directory[0] = '/';
    directory_len = directories(directory);
    if (directory_len == 0) directory_len = 1;
    if (one_in(30)) directory_len = spoil(directory, directory_len);
    if (one_in(12)) directory_len = lengthen(directory, directory_len);
    for (serial_len = 0; base[serial_len]; serial_len++) serial[serial_len] = (uint8_t)base[serial_len];
    serial[serial_len++] = (uint8_t)('0' + below(3));
    if (one_in(12)) serial_len = lengthen(serial, serial_len);
    if (!one_in(30)) return;
    switch (below(4)) {
    case 0: serial_len = 0; break;
    case 1: while (serial_len < 17) serial[serial_len++] = 'Z'; break;
    case 2: serial[below((uint32_t)serial_len)] = '-'; break;
    case 3: serial[0] = 'd'; serial[1] = '0'; serial_len = 2; break;
    }
}

/* Changes. */

/* At times too short to be a journal. */
static void restart_journal(void)
{
    if (one_in(4) && journal_len > 4) journal_len = below(5);
    start_journal();
}

static void put_created(unsigned kind, bulgefs_created c)
{
    answer(kind, c.number);
    put(c.slot);
    put(c.record);
    put_buffers();
}

static void put_changed(unsigned kind, bulgefs_changed c)
{
    answer(kind, c.number);
    put(c.record);
    put_buffers();
}

static void create(void)
{
    uint8_t type = (uint8_t)(one_in(20) ? below(256) : 0x60 + below(64));
    uint8_t user = (uint8_t)next(), group = (uint8_t)next(), permissions = (uint8_t)next();
    uint32_t flags = one_in(12) ? (uint32_t)1 << below(32) : 0;
    uint64_t time = next();
    path_of_file();
    put_created(K_create, bulgefs_create(BOTH, PATH, type, user, group, permissions, flags, time));
}

static void create_directory(void)
{
    uint8_t type = (uint8_t)(one_in(20) ? below(256) : 0x20 + below(64));
    uint8_t user = (uint8_t)next(), group = (uint8_t)next(), permissions = (uint8_t)next();
    uint32_t flags = one_in(12) ? (uint32_t)1 << below(32) : 0;
    uint32_t blocks = one_in(20) ? below(70) : 1 + below(3);
    uint64_t time = next();
    blocks = wide32(blocks);
    path_of_directory();
    put_created(K_create_directory, bulgefs_create_directory(BOTH, PATH, type, user, group, permissions, flags, blocks, time));
}

static void write_file(void)
{
    size_t n = one_in(4) ? below(4099) : below(700);
    uint64_t offset = one_in(2) ? 0 : one_in(40) ? next() : below(700), time = next();
    offset = wide(offset);
    path_of_file();
    fill(data, n);
    put_changed(K_write, bulgefs_write(BOTH, PATH, offset, n ? data : 0, n, time));
}

/* A file of settings of one revision, whose number is one of the last three that there are. */
static void write_settings(void)
{
    size_t n = 10 + below(20);
    uint64_t time = next();
    fill(data, n);
    data[0] = 1;
    data[1] = data[2] = data[3] = 0;
    data[4] = (uint8_t)n;
    data[5] = (uint8_t)(n - 10);
    data[6] = data[7] = data[8] = 0xFF;
    data[9] = (uint8_t)(0xFF - below(3));
    path_len = add_name(path, 0, "SN447", below(3));
    put_changed(K_write, bulgefs_write(BOTH, PATH, 0, data, n, time));
}

static void append(void)
{
    size_t n = one_in(4) ? below(4099) : below(300);
    uint64_t time = next();
    path_of_file();
    fill(data, n);
    put_changed(K_append, bulgefs_append(BOTH, PATH, data, n, time));
}

static void shorten(void)
{
    uint64_t size = one_in(2) ? below(9) : below(900), time = next();
    size = wide(size);
    path_of_file();
    put_changed(K_shorten, bulgefs_shorten(BOTH, PATH, size, time));
}

static void replace(void)
{
    size_t n = one_in(4) ? below(4099) : below(700);
    uint64_t time = next();
    path_of_file();
    fill(data, n);
    put_changed(K_replace, bulgefs_replace(BOTH, PATH, n ? data : 0, n, time));
}

static void big_endian(uint8_t *to, unsigned bytes, uint64_t v)
{
    for (unsigned i = 0; i < bytes; i++) to[i] = (uint8_t)(v >> (8 * (bytes - 1 - i)));
}

static size_t add_item(size_t at)
{
    size_t n = below(900);
    uint32_t offset = one_in(2) ? 0 : below(300);
    uint8_t *item = list + at;
    path_of_file();
    big_endian(item, 4, 18 + path_len + n);
    big_endian(item + 4, 8, next());
    big_endian(item + 12, 4, offset);
    big_endian(item + 16, 2, path_len);
    copy(item + 18, path, path_len);
    fill(item + 18 + path_len, n);
    return at + 18 + path_len + n;
}

static void write_list(void)
{
    size_t n = 5;
    bulgefs_listed l;
    for (uint32_t items = below(5); items > 0; items--) n = add_item(n);
    list[0] = 1;
    big_endian(list + 1, 4, n);
    if (one_in(9)) flip(list, n < 30 ? n : 30);
    if (one_in(60)) n = 65537;
    l = bulgefs_write_list(BOTH, list, n);
    answer(K_write_list, l.number);
    put(l.done);
    put_buffers();
}

static void delete_file(void)
{
    path_of_file();
    put_changed(K_delete, bulgefs_delete(BOTH, PATH));
}

static void move_file(void)
{
    static uint8_t to[sizeof path];
    size_t to_len;
    path_of_file();
    copy(to, PATH);
    to_len = path_len;
    path_of_file();
    put_created(K_move, bulgefs_move(BOTH, PATH, to, to_len));
}

static void delete_directory(void)
{
    path_of_directory();
    put_changed(K_delete_directory, bulgefs_delete_directory(BOTH, PATH));
}

static void set_attributes(void)
{
    size_t n = one_in(15) ? below(5000) : 512 * (size_t)(one_in(15) ? 9 : below(9));
    path_of_file();
    fill(data, n);
    put_changed(K_set_attributes, bulgefs_set_attributes(BOTH, PATH, data, n));
}

static void clear_attributes(void)
{
    path_of_file();
    put_changed(K_clear_attributes, bulgefs_clear_attributes(BOTH, PATH));
}

static void clear_flags(void)
{
    path_of_file();
    put_changed(K_clear_flags, bulgefs_clear_flags(BOTH, PATH));
}

static void put_of_a_box(int in)
{
    size_t n = one_in(4) ? 200 : one_in(12) ? 256 + below(200) : below(203);
    uint64_t time = next();
    bulgefs_put p;
    box();
    fill(data, n);
    p = in ? bulgefs_put_settings_in(BOTH, DIRECTORY, SERIAL, data, n, time) : bulgefs_put_settings(BOTH, SERIAL, data, n, time);
    answer(in ? K_put_settings_in : K_put_settings, p.number);
    put(p.revision);
    put(p.record);
    if (p.number == 0) w->revision = p.revision;
    put_buffers();
}

static void put_settings(void)
{
    put_of_a_box(0);
}

static void put_settings_in(void)
{
    put_of_a_box(1);
}

static void get_of_a_box(int in)
{
    size_t room = one_in(9) ? below(210) : 200 + below(90);
    uint32_t revision = one_in(3) ? below(30) : w->revision;
    bulgefs_got g;
    revision = wide32(revision);
    box();
    g = in ? bulgefs_get_settings_in(IMAGE, DIRECTORY, SERIAL, revision, buffer, room)
           : bulgefs_get_settings(IMAGE, SERIAL, revision, buffer, room);
    answer(in ? K_get_settings_in : K_get_settings, g.number);
    put(g.revision);
    put(g.length);
    put_bytes(buffer, 400);
}

static void get_settings(void)
{
    get_of_a_box(0);
}

static void get_settings_in(void)
{
    get_of_a_box(1);
}

static void get_latest_of_a_box(int in)
{
    size_t room = one_in(9) ? below(210) : 200 + below(90);
    bulgefs_got g;
    box();
    g = in ? bulgefs_get_latest_settings_in(IMAGE, DIRECTORY, SERIAL, buffer, room) : bulgefs_get_latest_settings(IMAGE, SERIAL, buffer, room);
    answer(in ? K_get_latest_settings_in : K_get_latest_settings, g.number);
    put(g.revision);
    put(g.length);
    put_bytes(buffer, 400);
}

static void get_latest_settings(void)
{
    get_latest_of_a_box(0);
}

static void get_latest_settings_in(void)
{
    get_latest_of_a_box(1);
}

/* At times with the journal of another image. */
static void lend_journal(void)
{
    world *other = &worlds[below(WORLDS)];
    if (!one_in(30) || other == w || !other->image) return;
    keep();
    journal = other->journal;
    journal_len = other->journal_len;
}

static void put_journal(void)
{
    put_bytes(journal, journal ? journal_len : 0);
    put_buffers();
}

static void undo(void)
{
    bulgefs_changed c;
    lend_journal();
    c = bulgefs_undo(BOTH);
    answer(K_undo, c.number);
    put(c.record);
    put_journal();
}

static void journal_info(void)
{
    bulgefs_journal j = bulgefs_journal_info(BOTH);
    answer(K_journal_info, j.number);
    put(j.used);
    put(j.records);
    put(j.last);
    if (j.number == 0 && one_in(2)) w->mark = j.used;
}

static void undo_to(void)
{
    uint32_t mark = one_in(9) ? below(4000) : w->mark;
    mark = wide32(mark);
    lend_journal();
    bulgefs_listed b = bulgefs_undo_to(BOTH, mark);
    answer(K_undo_to, b.number);
    put(b.done);
    put_journal();
}

/* Looks. */

static void version(void)
{
    uint32_t v = bulgefs_version();
    answer(K_version, v == BULGEFS_VERSION ? 0 : 1);
    put(v);
}

static void check(void)
{
    answer(K_check, bulgefs_check(IMAGE));
}

/* Its time grows with blocks times chains; the large images hold a few files. */
static void plain_check(void)
{
    if (image_len > 100 * 512 && image_len <= SMALL_IMAGE && !one_in(image_len > 600 * 512 ? 90 : 20)) return;
    answer(K_plain_check, bulgefs_plain_check(IMAGE));
}

static void lookup(void)
{
    bulgefs_found f;
    path_of_file();
    f = bulgefs_lookup(IMAGE, PATH);
    answer(K_lookup, f.number);
    put(f.slot);
    put(f.size);
    put(f.blocks);
}

static void put_filled(unsigned kind, bulgefs_filled f)
{
    answer(kind, f.number);
    put(f.count);
    put_bytes(buffer, sizeof buffer);
}

static void read_file(void)
{
    size_t room = one_in(2) ? below(40) : below(5001);
    uint64_t offset = one_in(40) ? next() : one_in(2) ? 0 : below(3000);
    offset = wide(offset);
    path_of_file();
    put_filled(K_read, bulgefs_read(IMAGE, PATH, offset, buffer, room));
}

static void read_next(void)
{
    size_t room = one_in(2) ? below(40) : below(1500);
    if (one_in(6)) w->position = one_in(9) ? next() : below(700);
    if (one_in(6)) w->position = wide(w->position);
    path_of_file();
    put_filled(K_read_next, bulgefs_read_next(IMAGE, PATH, &w->position, buffer, room));
    put(w->position);
}

static void read_attributes(void)
{
    size_t room = below(5001);
    path_of_file();
    put_filled(K_read_attributes, bulgefs_read_attributes(IMAGE, PATH, buffer, room));
}

/* It gives no number: an empty part counts as a refusal. */
static void look_at(uint64_t index)
{
    bulgefs_part p = bulgefs_look_in_place(IMAGE, PATH, index);
    answer(K_look_in_place, p.length == 0);
    put(p.start);
    put(p.length);
    put_bytes(image + p.start, p.length);
}

static void look_in_place(void)
{
    uint64_t index = one_in(30) ? next() : below(3);
    if (one_in(6)) index |= (uint64_t)1 << (32 + below(32));
    path_of_file();
    look_at(index);
}

/* A part that is not empty: the other calls tell a refusal from another, and this one does not. */
static void look_at_a_new_file(void)
{
    path_len = add_name(path, 0, "f", 0);
    put_created(K_create, bulgefs_create(BOTH, PATH, BULGEFS_PLAIN_FILE, 0, 0, 0, 0, 1));
    fill(data, 600);
    put_changed(K_write, bulgefs_write(BOTH, PATH, 0, data, 600, 2));
    look_at(0);
}

static void info(void)
{
    size_t room = one_in(6) ? 256 + below(100) : below(150);
    bulgefs_volume v = bulgefs_info(IMAGE, buffer, room);
    answer(K_info, v.number);
    put(v.blocks);
    put(v.used);
    put(v.free);
    put(v.root_blocks);
    put_bytes(buffer, 160);
}

static void put_entry(bulgefs_slot e)
{
    answer(K_entry, e.number);
    put(e.slot);
    put(e.type);
    put(e.user);
    put(e.group);
    put(e.permissions);
    put(e.flags);
    put(e.created);
    put(e.modified);
    put(e.first);
    put(e.size);
    put(e.blocks);
    put(e.attribute_block);
    put(e.attribute_size);
    put_bytes(buffer, 90);
}

static void list_directory(void)
{
    uint32_t slot = one_in(30) ? (uint32_t)next() : 0;
    bulgefs_slot e;
    path_of_directory();
    if (one_in(2)) {
        path[0] = '/';
        path_len = 1;
    }
    slot = wide32(slot);
    do {
        size_t room = one_in(6) ? 256 + below(70) : below(90);
        e = bulgefs_entry(IMAGE, PATH, slot, buffer, room);
        put_entry(e);
        slot = e.slot + 1;
    } while (e.slot != 0);
}

/* The table. */

static void load_table(void)
{
    size_t n = image_len / 512;
    if (one_in(9)) n = below((uint32_t)n + 100);
    answer(K_load_table, bulgefs_load_table(IMAGE, entries, n));
    for (size_t i = 0; i < 600; i++) put(entries[i]);
}

static void store_table(void)
{
    size_t n = image_len / 512;
    load_table();
    if (one_in(2)) {
        uint32_t at = below(600);
        keep();
        entries[at] = one_in(2) ? (uint32_t)next() : below(50);
    }
    if (one_in(9)) n = below((uint32_t)n + 100);
    answer(K_store_table, bulgefs_store_table(IMAGE, entries, n));
    put_buffers();
}

static void salvage(void)
{
    size_t room = one_in(9) ? below(257) : 256;
    keep();
    if (one_in(2)) damage();
    answer(K_salvage, bulgefs_salvage(IMAGE, buffer, room));
    put_bytes(buffer, 256);
    put_buffers();
    check();
}

/* The same of a volume with directories, which may be damaged more. */
static void salvage_tree(void)
{
    static uint8_t report[4 * (LARGE_IMAGE / 512)];
    size_t room = 4 * (image_len / 512);
    bulgefs_salvaged s;
    if (one_in(9)) room = below((uint32_t)room + 9);
    if (room > sizeof report) room = sizeof report;
    keep();
    for (uint32_t times = below(4); times > 0; times--) damage();
    s = bulgefs_salvage_tree(IMAGE, report, room);
    answer(K_salvage_tree, s.number);
    put(s.dropped);
    put(s.freed);
    put_bytes(report, room);
    put_buffers();
    check();
}

/* The volume file: its bytes, and the parts that are saved into it. */

enum { IMAGE_SECTORS = 30, JOURNAL_SECTORS = 20, OWN_SECTORS = 4 };
static uint8_t file[BULGEFS_FILE_LENGTH(IMAGE_SECTORS, JOURNAL_SECTORS, OWN_SECTORS)], parts[3][512 * IMAGE_SECTORS];
static size_t file_len, parts_len[3];
#define FILE_BYTES file, file_len

/* At times a length or a sector too many; a size of 0 counts as a refusal. */
static void file_begin(void)
{
    uint32_t n = 3 + below(IMAGE_SECTORS - 2), m = 1 + below(JOURNAL_SECTORS), x = below(OWN_SECTORS + 1);
    uint64_t size;
    parts_len[0] = 512 * (size_t)n;
    parts_len[1] = 512 * (size_t)m;
    parts_len[2] = 512 * (size_t)x;
    n = wide32(n);
    m = wide32(m);
    x = wide32(x);
    size = bulgefs_file_size(n, m, x);
    answer(K_file_size, size == 0);
    put(size);
    file_len = size <= sizeof file && !one_in(9) ? (size_t)size : below(sizeof file);
    fill(file, sizeof file);
    answer(K_file_begin, bulgefs_file_begin(FILE_BYTES, n, m, x));
    put_bytes(file, sizeof file);
}

static void file_look(void)
{
    uint32_t index = one_in(4) ? below(60) : below(3);
    bulgefs_file_places p = bulgefs_file_parts(FILE_BYTES);
    bulgefs_part home;
    index = wide32(index);
    answer(K_file_check, bulgefs_file_check(FILE_BYTES));
    answer(K_file_parts, p.number);
    put(p.waits);
    put(p.image_start);
    put(p.image_length);
    put(p.journal_start);
    put(p.journal_length);
    put(p.own_start);
    put(p.own_length);
    home = bulgefs_file_home(FILE_BYTES, index);
    answer(K_file_home, home.length == 0);
    put(home.start);
    put(home.length);
}

/* Parts of which a few bytes changed, at times of another length. */
static void file_prepare(void)
{
    size_t lengths[3];
    bulgefs_file_prepared p;
    for (int i = 0; i < 3; i++) {
        flip(parts[i], sizeof parts[i]);
        lengths[i] = one_in(30) ? 512 * (size_t)below(20) : parts_len[i];
    }
    p = bulgefs_file_prepare(FILE_BYTES, parts[0], lengths[0], parts[1], lengths[1], parts[2], lengths[2]);
    answer(K_file_prepare, p.number);
    put(p.sectors);
    put(p.numbers_start);
    put(p.numbers_length);
    put(p.sectors_start);
    put(p.sectors_length);
    put_bytes(file, sizeof file);
}

static void file_commit(void)
{
    answer(K_file_commit, bulgefs_file_commit(FILE_BYTES));
    put_bytes(file, sizeof file);
}

static void file_recover(void)
{
    bulgefs_file_recovered r = bulgefs_file_recover(FILE_BYTES);
    answer(K_file_recover, r.number);
    put(r.waited);
    put(r.sectors);
    put_bytes(file, sizeof file);
}

static void file_damage(void)
{
    flip(file, one_in(2) ? 1200 : sizeof file);
}

/* The walk. */

enum { CHANGES = 16, STEPS = 45 };

/* The first CHANGES steps are those that add records to the journal. */
static const struct {
    void (*make)(void);
    uint32_t weight;
} steps[STEPS] = {
    {create, 14},        {write_file, 13},       {write_settings, 1},   {append, 7},         {write_list, 4},
    {shorten, 4},        {replace, 5},
    {delete_file, 5},    {create_directory, 7},  {delete_directory, 3}, {set_attributes, 3}, {clear_attributes, 1},
    {move_file, 5},
    {clear_flags, 2},    {put_settings, 5},      {put_settings_in, 4},
    {get_settings, 3},   {get_settings_in, 3},   {get_latest_settings, 2}, {get_latest_settings_in, 2},
    {undo, 3},           {journal_info, 3},      {undo_to, 1},          {version, 1},        {check, 2},
    {plain_check, 1},    {lookup, 5},            {read_file, 4},        {read_next, 4},      {read_attributes, 2},
    {look_in_place, 6},  {info, 2},              {list_directory, 4},   {load_table, 1},     {store_table, 1},
    {salvage, 2},        {salvage_tree, 2},      {damage, 3},           {restart_journal, 1},
    {file_begin, 1},     {file_look, 3},         {file_prepare, 3},     {file_commit, 2},    {file_recover, 3},    {file_damage, 1},
};

/* The journal's used length, or 0 where it is refused. */
static uint32_t used(void)
{
    bulgefs_journal j = bulgefs_journal_info(BOTH);
    answer(K_journal_info, j.number);
    put(j.used);
    return j.used;
}

static void back_to(uint32_t mark)
{
    bulgefs_listed b = bulgefs_undo_to(BOTH, mark);
    answer(K_undo_to, b.number);
    put(b.done);
}

/*
 * A change in a journal that lacks one byte for its records, and in one that has
 * exactly their length.  How long they are is seen when it is made and taken back
 * first; each time it draws the same random numbers.
 */
static int fit(size_t change)
{
    uint64_t from = seed;
    uint32_t before = used(), after;
    unsigned kind;
    steps[change].make();
    kind = last_kind;
    after = used();
    if (before == 0 || after <= before) return 0;
    journal_len = after - 1;
    used();
    answer(K_undo, bulgefs_undo(BOTH).number);
    back_to(before);
    journal_len = after;
    used();
    back_to(before);
    for (journal_len = after - 1; journal_len <= after; journal_len++) {
        seed = from;
        steps[change].make();
    }
    walk_fitted[kind]++;
    return 1;
}

/* The walk begins with every step; each is tried until it is accepted, and a change in a journal of exactly its length. */
static void begin_with(size_t i)
{
    int done = 0;
    w = &worlds[0];
    if (w->image == 0) {
        make_world(100 * 512, JOURNAL);
        for (int files = 0; files < 12; files++) create();
    }
    for (int tries = 0; !done && tries < 40; tries++) {
        if (w->damaged) give_back();
        lend();
        if (i < CHANGES) {
            done = fit(i);
        } else {
            steps[i].make();
            done = last_number == 0;
        }
    }
}

static void make_a_step(void)
{
    uint32_t all = 0, at;
    size_t i = 0;
    for (size_t k = 0; k < STEPS; k++) all += steps[k].weight;
    for (at = below(all); at >= steps[i].weight; i++) at -= steps[i].weight;
    if (i < CHANGES && one_in(12)) fit(i);
    else steps[i].make();
}

/* Each step once, on a large image that was just made. */
static void all_steps(void)
{
    lend();
    look_at_a_new_file();
    for (size_t i = 0; i < STEPS; i++) {
        lend();
        steps[i].make();
    }
}

static void step(void)
{
    int large;
    if (begun < STEPS) {
        begin_with(begun++);
        return;
    }
    large = one_in(150);
    w = &worlds[large ? WORLDS - 1 : below(WORLDS - 1)];
    if (w->image == 0 || one_in(large ? 20 : 150)) {
        new_world();
        if (large) all_steps();
    }
    if (w->damaged && one_in(6)) give_back();
    lend();
    if (one_in(60)) lend_less();
    make_a_step();
}

void walk_begin(uint64_t s)
{
    seed = s;
    hash = 0xCBF29CE484222325u;
    calls_made = 0;
    begun = 0;
    for (int i = 0; i < WORLDS; i++) {
        int large = i == WORLDS - 1;
        worlds[i].image = 0;
        worlds[i].image_room = large ? large_room[0] : small_rooms[i][0];
        worlds[i].image_kept = large ? large_room[1] : small_rooms[i][1];
    }
    for (int i = 0; i < WALK_KINDS; i++) {
        walk_fitted[i] = 0;
        for (int k = 0; k < WALK_NUMBERS; k++) walk_seen[i][k] = 0;
    }
    for (size_t i = 0; i < sizeof buffer; i++) buffer[i] = data[i] = 0;
    for (size_t i = 0; i < sizeof list; i++) list[i] = 0;
    for (size_t i = 0; i < sizeof entries / sizeof entries[0]; i++) entries[i] = 0;
}

uint64_t walk_to(uint64_t calls)
{
    while (calls_made < calls) step();
    put(calls_made);
    return hash;
}
