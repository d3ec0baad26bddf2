/* json: whether standard input is one JSON value (RFC 8259) in UTF-8, and nothing else; status 0 if so. */
#include <stdio.h>
#include <stdlib.h>
#include <string.h>

static unsigned char text[1 << 22];
static size_t length, at;

static void wrong(const char *what)
{
    fprintf(stderr, "no JSON at byte %zu: %s\n", at, what);
    exit(1);
}

static void blank(void)
{
    while (at < length && strchr(" \t\r\n", text[at]) && text[at])
        at++;
}

static int take(unsigned char c)
{
    if (at >= length || text[at] != c)
        return 0;
    at++;
    return 1;
}

static void need(unsigned char c, const char *what)
{
    if (!take(c))
        wrong(what);
}

static void escape(void)
{
    if (!take('u')) {
        if (at >= length || !text[at] || !strchr("\"\\/bfnrt", text[at]))
            wrong("escape");
        at++;
        return;
    }
    for (int i = 0; i < 4; i++, at++)
        if (at >= length || !text[at] || !strchr("0123456789abcdefABCDEF", text[at]))
            wrong("four digits");
}

/* The bytes of one character above 0x7F; overlong forms, halves of pairs and numbers above 0x10FFFF are none. */
static void character(void)
{
    unsigned char c = text[at++];
    int more = c >= 0xC2 && c < 0xE0 ? 1 : c >= 0xE0 && c < 0xF0 ? 2 : c >= 0xF0 && c < 0xF5 ? 3 : 0;
    unsigned char next = at < length ? text[at] : 0;
    if (!more || (c == 0xE0 && next < 0xA0) || (c == 0xED && next > 0x9F) || (c == 0xF0 && next < 0x90) || (c == 0xF4 && next > 0x8F))
        wrong("UTF-8");
    for (; more; more--, at++)
        if (at >= length || (text[at] & 0xC0) != 0x80)
            wrong("UTF-8");
}

static void string(void)
{
    need('"', "a string");
    while (!take('"')) {
        if (at >= length || text[at] < 0x20)
            wrong("a string's end");
        if (text[at] >= 0x80)
            character();
        else if (take('\\'))
            escape();
        else
            at++;
    }
}

static void digits(void)
{
    size_t from = at;
    while (at < length && text[at] >= '0' && text[at] <= '9')
        at++;
    if (at == from)
        wrong("a digit");
}

static void number(void)
{
    take('-');
    if (!take('0'))
        digits();
    if (take('.'))
        digits();
}

static void value(void);

static void members(unsigned char end, int named)
{
    blank();
    if (take(end))
        return;
    do {
        blank();
        if (named) {
            string();
            blank();
            need(':', "a colon");
        }
        value();
        blank();
    } while (take(','));
    need(end, "the end of a list");
}

static int word(const char *is)
{
    size_t size = strlen(is);
    if (length - at < size || memcmp(text + at, is, size) != 0)
        return 0;
    at += size;
    return 1;
}

static void value(void)
{
    blank();
    if (take('{'))
        members('}', 1);
    else if (take('['))
        members(']', 0);
    else if (at < length && text[at] == '"')
        string();
    else if (!word("true") && !word("false") && !word("null"))
        number();
}

int main(void)
{
    length = fread(text, 1, sizeof text, stdin);
    if (length == sizeof text)
        wrong("too long");
    value();
    blank();
    if (at != length)
        wrong("more behind the value");
    return 0;
}
