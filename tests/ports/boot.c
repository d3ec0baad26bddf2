/*
 * boot.c - what a boot loader does, as a Linux program without a C library: it
 * takes an image from standard input, checks it, finds /boot/config, reads it and
 * looks at its blocks in place, and prints what it found.  It is linked with the
 * boot loader's archive, and gives it memset and nothing else.
 *
 * It also prints the stack that each call took: the stack below is painted before
 * the call, and what is not painted any more was used.
 */
#include "bare.h"
#include "bulgefs.h"

enum { MOST = 65536 * 512, ROOM = 320 * 1024, PAINT = 0xA5 };

static uint8_t image[MOST], buffer[1024];
static size_t image_len;
#define CONFIG (const uint8_t *)"/boot/config", 12

static void print_text(const char *text)
{
    long n = 0;
    while (text[n]) n++;
    print(text, n);
}

static void print_number(uint64_t v)
{
    char digits[21];
    int at = 20;
    digits[20] = 0;
    do digits[--at] = (char)('0' + v % 10);
    while (v /= 10);
    print_text(digits + at);
}

static void say(const char *what, uint64_t v)
{
    print_text(what);
    print_text(" ");
    print_number(v);
    print_text("\n");
}

__attribute__((noinline)) static void paint(void)
{
    volatile uint8_t room[ROOM];
    for (int i = 0; i < ROOM; i++) room[i] = PAINT;
}

__attribute__((noinline)) static uint32_t used(void)
{
    volatile uint8_t room[ROOM];
    uint32_t clean = 0;
    __asm__ volatile("" : : "r"(room) : "memory");
    while (clean < ROOM && room[clean] == PAINT) clean++;
    return ROOM - clean;
}

/* Whether the file's blocks, seen in place, are the bytes that were read. */
static int same_in_place(uint32_t size)
{
    uint32_t at = 0;
    bulgefs_part p = bulgefs_look_in_place(image, image_len, CONFIG, 0);
    for (uint64_t index = 1; p.length != 0; index++) {
        for (uint32_t i = 0; i < p.length; i++, at++)
            if (at >= size || image[p.start + i] != buffer[at]) return 0;
        p = bulgefs_look_in_place(image, image_len, CONFIG, index);
    }
    return at == size;
}

/* Makes each call on a painted stack; gives whether all of them were accepted. */
static int stacks(void)
{
    static uint32_t stack[4], number[4];
    paint();
    number[0] = bulgefs_check(image, image_len);
    stack[0] = used();
    paint();
    number[1] = bulgefs_lookup(image, image_len, CONFIG).number;
    stack[1] = used();
    paint();
    number[2] = bulgefs_read(image, image_len, CONFIG, 0, buffer, sizeof buffer).number;
    stack[2] = used();
    paint();
    number[3] = bulgefs_look_in_place(image, image_len, CONFIG, 0).length != 512;
    stack[3] = used();
    say("stack of check", stack[0]);
    say("stack of lookup", stack[1]);
    say("stack of read", stack[2]);
    say("stack of look_in_place", stack[3]);
    return (number[0] | number[1] | number[2] | number[3]) == 0;
}

__attribute__((used)) void begin(void)
{
    long n = read_in(image, MOST);
    bulgefs_found f;
    bulgefs_filled r;
    image_len = (size_t)n;
    say("check", bulgefs_check(image, image_len));
    f = bulgefs_lookup(image, image_len, CONFIG);
    say("lookup", f.number);
    say("size", f.size);
    r = bulgefs_read(image, image_len, CONFIG, 0, buffer, sizeof buffer);
    say("read", r.number);
    print((const char *)buffer, 17);
    say("in place", (uint64_t)same_in_place(r.count));
    say("accepted", (uint64_t)stacks());
    image[512] ^= 1;
    say("damaged", bulgefs_check(image, image_len));
    end(0);
}
