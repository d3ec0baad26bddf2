/* say.c - words for the user, numbers, time and memory. */
#include <errno.h>
#include <stdarg.h>
#include <stdlib.h>
#include <string.h>
#include <time.h>
#include <unistd.h>

#include "tool.h"

static int as_json;

void say_json(void)
{
    as_json = 1;
}

static void no_memory(void)
{
    static const char words[] = "bulgefs: not enough memory\n";
    ssize_t written = write(STDERR_FILENO, words, sizeof words - 1);
    (void)written;
    _exit(FAILED);
}

void text_begin(memory_text *t)
{
    t->text = NULL;
    t->length = 0;
    t->out = open_memstream(&t->text, &t->length);
    if (!t->out) no_memory();
}

void text_end(memory_text *t)
{
    if (ferror(t->out) | fclose(t->out)) no_memory();
}

/* Words on standard error, in one write. */
static void write_words(const memory_text *t)
{
    size_t done = 0;
    while (done < t->length) {
        ssize_t count = write(STDERR_FILENO, t->text + done, t->length - done);
        if (count < 0 && errno == EINTR) continue;
        if (count <= 0) return;
        done += (size_t)count;
    }
}

/* The words as a line, or with the refusal's number, if it is not 0, as JSON. */
static void tell(uint32_t refusal, const char *form, va_list list)
{
    memory_text words, line;
    text_begin(&words);
    vfprintf(words.out, form, list);
    text_end(&words);
    text_begin(&line);
    fputs(as_json ? "{\"error\":" : "bulgefs: ", line.out);
    if (as_json) json_text(line.out, words.text);
    else put_text(line.out, (const uint8_t *)words.text, words.length);
    if (as_json && refusal) fprintf(line.out, ",\"refusal\":%u", (unsigned)refusal);
    fputs(as_json ? "}\n" : "\n", line.out);
    text_end(&line);
    write_words(&line);
    free(words.text);
    free(line.text);
}

void say(const char *form, ...)
{
    va_list list;
    va_start(list, form);
    tell(0, form, list);
    va_end(list);
}

static void say_refusal(uint32_t refusal, const char *form, ...)
{
    va_list list;
    va_start(list, form);
    tell(refusal, form, list);
    va_end(list);
}

/* What can be done about a refusal, or NULL. */
static const char *advice(uint32_t number)
{
    switch (number) {
    case BULGEFS_BAD_JOURNAL:
        return "`bulgefs start` begins it anew (no step of before can then be taken back)";
    case BULGEFS_JOURNAL_FULL:
        return "`bulgefs grow` makes it longer, `bulgefs start` begins it anew (no step of before can then be taken back)";
    case BULGEFS_VOLUME_FULL:
        return "delete files, or format a volume of more blocks";
    case BULGEFS_DIRECTORY_FULL:
        return "a folder does not grow: use another one, or delete files of it";
    default:
        return number >= BULGEFS_BAD_LENGTH && number <= BULGEFS_BAD_COUNTS ? "`bulgefs check` says where" : NULL;
    }
}

/* The library's words, with folder for directory. */
static const char *words_for(uint32_t number)
{
    switch (number) {
    case BULGEFS_BAD_SELF:       return "a folder is damaged";
    case BULGEFS_BAD_SLOT:       return "a slot of a folder is damaged";
    case BULGEFS_DIRECTORY_FULL: return "no free slot in the folder";
    case BULGEFS_TOO_DEEP:       return "too many folders in the path";
    case BULGEFS_NOT_EMPTY:      return "folder is not empty";
    default:                     return bulgefs_text(number);
    }
}

int refuse_because(uint32_t number, const char *what, const char *why)
{
    say_refusal(number, "%s: refused (%u): %s%s%s", what, (unsigned)number, words_for(number), why ? "; " : "", why ? why : "");
    return REFUSED;
}

int refuse(uint32_t number, const char *what)
{
    return refuse_because(number, what, advice(number));
}

int fail_system(const char *what)
{
    say("%s: %s", what, strerror(errno));
    return FAILED;
}

int usage(const char *words)
{
    say("usage: bulgefs %s", words);
    return FAILED;
}

int read_number(const char *text, const char *name, uint64_t low, uint64_t high, uint64_t *number)
{
    char *end = NULL;
    unsigned long long value = 0;
    int digit = text[0] >= '0' && text[0] <= '9';
    errno = 0;
    if (digit) value = strtoull(text, &end, 10);
    if (!digit || *end || errno || value < low || value > high) {
        say("%s must be a number from %llu to %llu", name, (unsigned long long)low, (unsigned long long)high);
        return FAILED;
    }
    *number = value;
    return DONE;
}

int read_time(uint64_t *time)
{
    const char *fixed = getenv("BULGEFS_TIME");
    struct timespec now;
    if (fixed) return read_number(fixed, "BULGEFS_TIME", 0, UINT64_MAX, time);
    if (clock_gettime(CLOCK_REALTIME, &now)) return fail_system("clock");
    *time = (uint64_t)now.tv_sec * 1000 + (uint64_t)(now.tv_nsec / 1000000);
    return DONE;
}

void *take_more(void *old, size_t length)
{
    void *memory = realloc(old, length ? length : 1);
    if (!memory) no_memory();
    return memory;
}

void *take_memory(size_t length)
{
    return memset(take_more(NULL, length), 0, length);
}

bytes copy_bytes(const bytes *from)
{
    bytes copy = { NULL, 0 };
    if (!from->bytes) return copy;
    copy.bytes = take_more(NULL, from->length);
    copy.length = from->length;
    memcpy(copy.bytes, from->bytes, from->length);
    return copy;
}

char *joined(const char *first, const char *second)
{
    size_t a = strlen(first), b = strlen(second);
    char *both = take_memory(a + b + 1);
    memcpy(both, first, a);
    memcpy(both + a, second, b);
    return both;
}

uint32_t number_at(const uint8_t *from)
{
    return (uint32_t)from[0] << 24 | (uint32_t)from[1] << 16 | (uint32_t)from[2] << 8 | from[3];
}

uint64_t time_at(const uint8_t *from)
{
    return (uint64_t)number_at(from) << 32 | number_at(from + 4);
}

void put_number(uint8_t *to, uint32_t number)
{
    to[0] = (uint8_t)(number >> 24);
    to[1] = (uint8_t)(number >> 16);
    to[2] = (uint8_t)(number >> 8);
    to[3] = (uint8_t)number;
}
