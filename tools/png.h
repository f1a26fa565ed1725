/* Pictures: red, green and blue of 8 bits, lines, short texts, and PNG files without a library. Deflate's
 * fixed codes and two places to copy from pack drawn and scaled pictures well enough. */
#ifndef PNG_H
#define PNG_H

#include <stdbool.h>
#include <stddef.h>
#include <stdint.h>
#include <stdio.h>
#include <stdlib.h>
#include <string.h>
#include <unistd.h>

typedef struct {
    uint8_t r, g, b;
} colour;

typedef struct {
    int32_t width, height;
    colour *dots;
} picture;

/* ---- drawing */

static inline void dot(picture *p, int32_t x, int32_t y, colour c) {
    if (x >= 0 && y >= 0 && x < p->width && y < p->height) p->dots[(size_t)y * (size_t)p->width + (size_t)x] = c;
}

static inline void box(picture *p, int32_t x, int32_t y, int32_t w, int32_t h, colour c) {
    for (int32_t j = y; j < y + h; j++)
        for (int32_t i = x; i < x + w; i++) dot(p, i, j, c);
}

/* the frame of a box, so many dots thick, inwards */
static inline void outline(picture *p, int32_t x, int32_t y, int32_t w, int32_t h, int32_t thick, colour c) {
    box(p, x, y, w, thick, c);
    box(p, x, y + h - thick, w, thick, c);
    box(p, x, y, thick, h, c);
    box(p, x + w - thick, y, thick, h, c);
}

/* 5 by 7 dots a letter: a byte a column, the lowest bit on top */
static const struct {
    char letter;
    uint8_t columns[5];
} letters[] = {
    {'A', {0x7e, 0x09, 0x09, 0x09, 0x7e}}, {'B', {0x7f, 0x49, 0x49, 0x49, 0x36}}, {'C', {0x3e, 0x41, 0x41, 0x41, 0x22}},
    {'D', {0x7f, 0x41, 0x41, 0x41, 0x3e}}, {'E', {0x7f, 0x49, 0x49, 0x49, 0x41}}, {'F', {0x7f, 0x09, 0x09, 0x09, 0x01}},
    {'G', {0x3e, 0x41, 0x49, 0x49, 0x3a}}, {'H', {0x7f, 0x08, 0x08, 0x08, 0x7f}}, {'I', {0x00, 0x41, 0x7f, 0x41, 0x00}},
    {'J', {0x20, 0x40, 0x41, 0x3f, 0x01}}, {'K', {0x7f, 0x08, 0x14, 0x22, 0x41}}, {'L', {0x7f, 0x40, 0x40, 0x40, 0x40}},
    {'M', {0x7f, 0x02, 0x0c, 0x02, 0x7f}}, {'N', {0x7f, 0x06, 0x08, 0x30, 0x7f}}, {'O', {0x3e, 0x41, 0x41, 0x41, 0x3e}},
    {'P', {0x7f, 0x09, 0x09, 0x09, 0x06}}, {'Q', {0x3e, 0x41, 0x51, 0x21, 0x5e}}, {'R', {0x7f, 0x09, 0x19, 0x29, 0x46}},
    {'S', {0x46, 0x49, 0x49, 0x49, 0x31}}, {'T', {0x01, 0x01, 0x7f, 0x01, 0x01}}, {'U', {0x3f, 0x40, 0x40, 0x40, 0x3f}},
    {'V', {0x1f, 0x20, 0x40, 0x20, 0x1f}}, {'W', {0x7f, 0x20, 0x18, 0x20, 0x7f}}, {'X', {0x63, 0x14, 0x08, 0x14, 0x63}},
    {'Y', {0x03, 0x04, 0x78, 0x04, 0x03}}, {'Z', {0x61, 0x51, 0x49, 0x45, 0x43}}, {'0', {0x3e, 0x51, 0x49, 0x45, 0x3e}},
    {'1', {0x00, 0x42, 0x7f, 0x40, 0x00}}, {'2', {0x62, 0x51, 0x49, 0x49, 0x46}}, {'3', {0x22, 0x41, 0x49, 0x49, 0x36}},
    {'4', {0x18, 0x14, 0x12, 0x7f, 0x10}}, {'5', {0x27, 0x45, 0x45, 0x45, 0x39}}, {'6', {0x3e, 0x49, 0x49, 0x49, 0x30}},
    {'7', {0x01, 0x01, 0x71, 0x0d, 0x03}}, {'8', {0x36, 0x49, 0x49, 0x49, 0x36}}, {'9', {0x06, 0x49, 0x49, 0x49, 0x3e}},
    {':', {0x00, 0x00, 0x36, 0x00, 0x00}}, {',', {0x00, 0x40, 0x30, 0x00, 0x00}}, {'.', {0x00, 0x00, 0x60, 0x00, 0x00}},
    {'-', {0x08, 0x08, 0x08, 0x08, 0x08}}, {'(', {0x00, 0x1c, 0x22, 0x41, 0x00}}, {')', {0x00, 0x41, 0x22, 0x1c, 0x00}},
};

#define LETTER_WIDTH 6

/* a text, each of its dots a square of size by size */
static inline void text(picture *p, int32_t x, int32_t y, int32_t size, colour c, const char *words) {
    for (; *words; words++, x += LETTER_WIDTH * size)
        for (size_t k = 0; k < sizeof letters / sizeof *letters; k++)
            for (int32_t column = 0; letters[k].letter == *words && column < 5; column++)
                for (int32_t row = 0; row < 7; row++)
                    if (letters[k].columns[column] >> row & 1) box(p, x + column * size, y + row * size, size, size, c);
}

/* ---- deflate (RFC 1951), zlib (RFC 1950) */

typedef struct {
    uint8_t *bytes;
    size_t count, space;
    uint32_t bits, held; /* bits that make no byte yet */
} stream;

static inline void put_byte(stream *s, uint8_t byte) {
    if (s->count == s->space) {
        s->space = 2 * s->space + 4096;
        s->bytes = realloc(s->bytes, s->space);
        if (!s->bytes) printf("png: no memory\n"), exit(2);
    }
    s->bytes[s->count++] = byte;
}

static inline void put_number(stream *s, uint32_t n) { /* high byte first */
    for (int shift = 24; shift >= 0; shift -= 8) put_byte(s, (uint8_t)(n >> shift));
}

static inline void put_bits(stream *s, uint32_t value, uint32_t n) { /* lowest bit first */
    for (uint32_t i = 0; i < n; i++) {
        s->bits |= (value >> i & 1) << s->held++;
        if (s->held == 8) put_byte(s, (uint8_t)s->bits), s->bits = s->held = 0;
    }
}

static inline void put_code(stream *s, uint32_t code, uint32_t n) { /* highest bit first */
    while (n-- > 0) put_bits(s, code >> n & 1, 1);
}

static inline void put_symbol(stream *s, uint32_t symbol) { /* the fixed codes of 3.2.6 */
    if (symbol < 144) put_code(s, 0x30 + symbol, 8);
    else if (symbol < 256) put_code(s, 0x190 + symbol - 144, 9);
    else if (symbol < 280) put_code(s, symbol - 256, 7);
    else put_code(s, 0xc0 + symbol - 280, 8);
}

typedef struct {
    uint32_t code, extra, rest; /* a code, how many bits follow it, and what they hold */
} grouped;

/* Lengths (in fours) and distances (in twos) of 3.2.5 alike: twice a group of codes with no bits after them, then a group with one, with two, .. */
static inline grouped in_groups(uint32_t group, uint32_t value) {
    grouped g = {0, 0, value};
    while (g.rest >> g.extra) {
        g.rest -= 1u << g.extra, g.code++;
        if (g.code >= 2 * group && g.code % group == 0) g.extra++;
    }
    return g;
}

static inline void put_copy(stream *s, uint32_t length, uint32_t distance) {
    grouped l = in_groups(4, length - 3), d = in_groups(2, distance - 1);
    if (length == 258) l = (grouped){28, 0, 0}; /* the one length with a code of its own */
    put_symbol(s, 257 + l.code);
    put_bits(s, l.rest, l.extra);
    put_code(s, d.code, 5);
    put_bits(s, d.rest, d.extra);
}

static inline size_t equal_run(const uint8_t *bytes, size_t at, size_t n, size_t back) {
    size_t run = 0;
    while (run < 258 && at + run < n && bytes[at + run] == bytes[at + run - back]) run++;
    return run;
}

static inline uint32_t hash_of(const uint8_t *three) { return (three[0] * 2654435761u ^ three[1] * 40503u ^ three[2] * 9176u) & 0x7fff; }

/* Two places to copy from are tried: where such three bytes stood last, and the row above. */
static inline void deflate(stream *s, const uint8_t *bytes, size_t n, size_t row) {
    static size_t seen[1 << 15]; /* where three bytes stood last, and 1 more */
    memset(seen, 0, sizeof seen);
    put_bits(s, 3, 3); /* the last block, fixed codes */
    for (size_t i = 0; i < n;) {
        size_t last = i + 2 < n ? seen[hash_of(bytes + i)] : 0, back = i + 1 - last;
        size_t run = last && back <= 32768 ? equal_run(bytes, i, n, back) : 0, above = i >= row && row <= 32768 ? equal_run(bytes, i, n, row) : 0;
        if (above >= run) run = above, back = row;
        if (run >= 3) put_copy(s, (uint32_t)run, (uint32_t)back);
        else put_symbol(s, bytes[i]);
        for (size_t next = i + (run >= 3 ? run : 1); i < next; i++)
            if (i + 2 < n) seen[hash_of(bytes + i)] = i + 1;
    }
    put_symbol(s, 256);
    if (s->held) put_bits(s, 0, 8 - s->held);
}

static inline void zlib(stream *s, const uint8_t *bytes, size_t n, size_t row) {
    put_byte(s, 0x78), put_byte(s, 1);
    deflate(s, bytes, n, row);
    uint32_t a = 1, b = 0;
    for (size_t i = 0; i < n; i++) a = (a + bytes[i]) % 65521, b = (b + a) % 65521;
    put_number(s, b << 16 | a);
}

/* ---- PNG */

static inline void put_chunk(stream *s, const char *name, const uint8_t *bytes, size_t n) {
    put_number(s, (uint32_t)n);
    size_t first = s->count;
    for (int i = 0; i < 4; i++) put_byte(s, (uint8_t)name[i]);
    for (size_t i = 0; i < n; i++) put_byte(s, bytes[i]);
    uint32_t crc = 0xffffffff;
    for (size_t i = first; i < s->count; i++) {
        crc ^= s->bytes[i];
        for (int k = 0; k < 8; k++) crc = crc >> 1 ^ (crc & 1 ? 0xedb88320 : 0);
    }
    put_number(s, ~crc);
}

/* writes the picture to a file descriptor */
static inline bool write_png(const picture *p, int to) {
    stream rows = {0}, packed = {0}, head = {0}, file = {0};
    for (int32_t y = 0; y < p->height; y++) {
        put_byte(&rows, 0); /* no filter: rows that repeat pack best as they are */
        for (int32_t x = 0; x < p->width; x++) {
            colour c = p->dots[(size_t)y * (size_t)p->width + (size_t)x];
            put_byte(&rows, c.r), put_byte(&rows, c.g), put_byte(&rows, c.b);
        }
    }
    zlib(&packed, rows.bytes, rows.count, 3 * (size_t)p->width + 1);
    put_number(&head, (uint32_t)p->width), put_number(&head, (uint32_t)p->height);
    put_byte(&head, 8), put_byte(&head, 2), put_byte(&head, 0), put_byte(&head, 0), put_byte(&head, 0);
    static const uint8_t mark[8] = {0x89, 'P', 'N', 'G', '\r', '\n', 0x1a, '\n'};
    for (int i = 0; i < 8; i++) put_byte(&file, mark[i]);
    put_chunk(&file, "IHDR", head.bytes, head.count);
    put_chunk(&file, "IDAT", packed.bytes, packed.count);
    put_chunk(&file, "IEND", NULL, 0);
    for (size_t done = 0; done < file.count;) {
        long n = write(to, file.bytes + done, file.count - done);
        if (n <= 0) return false;
        done += (size_t)n;
    }
    return true;
}

#endif
