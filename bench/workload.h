/* What the C programs of bench/serial and bench/files share: how they read a workload text, and how they write its replies.
 *
 * The texts are those of docs/FORMATS.md with regions in memory and in files, and without prefetches. They are trusted. Their
 * lines are read one by one, as the program runs them, and the replies are kept till the end.
 */
#ifndef WORKLOAD_H
#define WORKLOAD_H

#include <stdbool.h>
#include <stdint.h>
#include <stdio.h>
#include <stdlib.h>
#include <string.h>
#include <unistd.h>

/* The most regions of a text, and the most bytes of one load or store. */
enum { MOST_REGIONS = 64, MOST_ACCESS = 65536 };

static void fail(const char *why)
{
    fprintf(stderr, "%s\n", why);
    exit(1);
}

static void *zeros(size_t count, size_t size)
{
    void *room = calloc(count, size);
    if (!room)
        fail("out of memory");
    return room;
}

/* ---- the text ---- */

struct span {
    const char *bytes;
    size_t length;
};

enum kind { MAP, SCRIPT, LOAD, STORE, FLUSH, UNMAP };

struct line {
    enum kind kind;
    struct span whole;  /* with its line feed */
    uint32_t region;    /* by its number in the order of the map lines; a script and a flush have none */
    uint64_t off;       /* of a load and a store */
    uint64_t length;    /* of the region that is mapped, of a load and of a store, in bytes */
    struct span path;   /* of the region that is mapped: its file; of no bytes where it is in memory */
    const char *digits; /* of a store: two for each byte */
};

struct text {
    const char *at, *end; /* what is still to be read */
    struct span names[MOST_REGIONS];
    uint32_t regions;
};

static struct text read_text(void)
{
    size_t room = 1 << 20, used = 0;
    char *bytes = malloc(room);
    for (;;) {
        if (!bytes)
            fail("out of memory");
        ssize_t got = read(0, bytes + used, room - used);
        if (got < 0)
            fail("input failed");
        if (got == 0)
            break;
        used += (size_t)got;
        if (used == room)
            bytes = realloc(bytes, room *= 2);
    }
    if (used > 0 && bytes[used - 1] != '\n')
        fail("unended line");
    return (struct text){.at = bytes, .end = bytes + used};
}

static const char *line_feed(const struct text *text, const char *at)
{
    return memchr(at, '\n', (size_t)(text->end - at));
}

/* The field that begins at `*at`, which is moved behind it and the byte that ends it. */
static struct span field(const char **at)
{
    const char *end = *at;
    while (*end != ' ' && *end != '\n')
        end++;
    struct span found = {*at, (size_t)(end - *at)};
    *at = end + 1;
    return found;
}

static bool is_same(struct span a, struct span b)
{
    return a.length == b.length && memcmp(a.bytes, b.bytes, a.length) == 0;
}

static bool is_word(struct span field, const char *word)
{
    return field.length == strlen(word) && memcmp(field.bytes, word, strlen(word)) == 0;
}

/* The number of the field that begins at `*at`, which is moved behind it and the byte that ends it. */
static uint64_t number(const char **at)
{
    uint64_t value = 0;
    while (**at >= '0')
        value = value * 10 + (uint64_t)(*(*at)++ - '0');
    ++*at;
    return value;
}

static uint32_t add_region(struct text *text, struct span name)
{
    if (text->regions == MOST_REGIONS)
        fail("too many regions");
    text->names[text->regions] = name;
    return text->regions++;
}

static uint32_t region_named(const struct text *text, struct span name)
{
    uint32_t region = 0;
    while (region < text->regions && !is_same(text->names[region], name))
        region++;
    if (region == text->regions)
        fail("unknown region");
    return region;
}

/* Reads the next line that says something. False where there is none. */
static bool next_line(struct text *text, struct line *line)
{
    const char *at = text->at;
    while (at < text->end && (*at == '#' || *at == '\n'))
        at = line_feed(text, at) + 1;
    if (at == text->end)
        return false;
    const char *feed = line_feed(text, at);
    line->whole = (struct span){at, (size_t)(feed + 1 - at)};
    text->at = feed + 1;
    struct span word = field(&at);
    if (is_word(word, "load")) { /* load NAME OFF LEN */
        line->kind = LOAD;
        line->region = region_named(text, field(&at));
        line->off = number(&at);
        line->length = number(&at);
    } else if (is_word(word, "store")) { /* store NAME OFF HEX */
        line->kind = STORE;
        line->region = region_named(text, field(&at));
        line->off = number(&at);
        line->digits = at;
        line->length = (uint64_t)(feed - at) / 2;
    } else if (is_word(word, "script")) { /* script NAME */
        line->kind = SCRIPT;
    } else if (is_word(word, "flush")) { /* flush */
        line->kind = FLUSH;
    } else if (is_word(word, "unmap")) { /* unmap NAME */
        line->kind = UNMAP;
        line->region = region_named(text, field(&at));
    } else if (is_word(word, "map")) { /* map NAME memory LENGTH MODE, map NAME file PATH LENGTH MODE */
        line->kind = MAP;
        line->region = add_region(text, field(&at));
        struct span kind = field(&at);
        if (!is_word(kind, "memory") && !is_word(kind, "file"))
            fail("a region is neither in memory nor in a file");
        line->path = is_word(kind, "file") ? field(&at) : (struct span){0};
        line->length = number(&at);
    } else {
        fail("a line is none of map, script, load, store, flush and unmap");
    }
    return true;
}

/* Whether a line goes to bytes or pages of its region, so that it can't be run once the region is unmapped. */
static bool wants_region(const struct line *line)
{
    return line->kind == STORE || line->kind == UNMAP || (line->kind == LOAD && line->length > 0);
}

static unsigned digit(char c)
{
    return c <= '9' ? (unsigned)(c - '0') : (unsigned)(c - 'a' + 10);
}

/* Writes the bytes that a store stores. */
static void put_stored(uint8_t *to, const struct line *line)
{
    const char *at = line->digits;
    for (uint8_t *end = to + line->length; to < end; at += 2)
        *to++ = (uint8_t)(digit(at[0]) << 4 | digit(at[1]));
}

/* ---- the replies ---- */

struct replies {
    char *bytes;
    size_t used, room;
};

static char *room_for(struct replies *replies, size_t more)
{
    if (replies->used + more > replies->room) {
        while (replies->used + more > replies->room)
            replies->room = replies->room ? replies->room * 2 : 1 << 20;
        replies->bytes = realloc(replies->bytes, replies->room);
        if (!replies->bytes)
            fail("out of memory");
    }
    return replies->bytes + replies->used;
}

static void put(struct replies *replies, struct span bytes)
{
    memcpy(room_for(replies, bytes.length), bytes.bytes, bytes.length);
    replies->used += bytes.length;
}

static void reply_script(struct replies *replies, const struct line *line)
{
    put(replies, line->whole);
}

static void reply_load(struct replies *replies, const uint8_t *loaded, uint64_t length)
{
    static const char digits[] = "0123456789abcdef";
    char *to = room_for(replies, 6 + 2 * length);
    memcpy(to, "load", 4);
    to += 4;
    if (length > 0)
        *to++ = ' ';
    for (uint64_t i = 0; i < length; i++) {
        *to++ = digits[loaded[i] >> 4];
        *to++ = digits[loaded[i] & 15];
    }
    *to++ = '\n';
    replies->used = (size_t)(to - replies->bytes);
}

static void reply_ok(struct replies *replies)
{
    put(replies, (struct span){"ok\n", 3});
}

static void reply_unmapped(struct replies *replies)
{
    put(replies, (struct span){"unmapped\n", 9});
}

static void write_replies(const struct replies *replies)
{
    for (size_t done = 0; done < replies->used;) {
        ssize_t count = write(1, replies->bytes + done, replies->used - done);
        if (count <= 0)
            fail("output failed");
        done += (size_t)count;
    }
}

#endif
