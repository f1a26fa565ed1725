/* A decoder's trace on standard input and its frames on file descriptor 3 (traces/README.md tells the lines): words, the lines of frames (F) and
 * of block predictions (P), and a P line put through the compiled library. */
#ifndef TRACE_H
#define TRACE_H

#include <stdbool.h>
#include <stddef.h>
#include <stdint.h>
#include <stdio.h>
#include <stdlib.h>
#include <string.h>
#include <unistd.h>

#include "knobspindle.h"

/* ---- words */

static uint8_t input[1 << 16];
static long have, used;
static bool broken; /* something was asked for that does not stand there, or makes no sense */

static inline int peek(void) {
    if (used == have) {
        have = read(0, input, sizeof input);
        used = 0;
        if (have <= 0) return have = 0, -1;
    }
    return input[used];
}

static inline bool line_ends(void) {
    while (peek() == ' ') used++;
    return peek() == '\n' || peek() < 0;
}

static inline void next_line(void) {
    while (peek() >= 0 && peek() != '\n') used++;
    if (peek() == '\n') used++;
}

static inline int64_t long_number(void) {
    if (line_ends()) return broken = true, 0;
    bool minus = peek() == '-';
    if (minus) used++;
    int64_t n = 0;
    if (peek() < '0' || peek() > '9') broken = true;
    while (peek() >= '0' && peek() <= '9') {
        if (n > (1ll << 50)) return broken = true, 0;
        n = n * 10 + (peek() - '0'), used++;
    }
    return minus ? -n : n;
}

static inline int32_t number(void) {
    int64_t n = long_number();
    if (n < INT32_MIN || n > INT32_MAX) return broken = true, 0;
    return (int32_t)n;
}

static inline int32_t within(int32_t low, int32_t high) {
    int32_t n = number();
    if (n < low || n > high) return broken = true, low;
    return n;
}

static inline knobspindle_mv vector(void) {
    int32_t row = number(), col = number();
    return (knobspindle_mv){row, col};
}

static inline uint64_t hex_number(void) {
    if (line_ends()) return broken = true, 0;
    uint64_t n = 0;
    for (; peek() > ' '; used++) {
        int c = peek(), digit = c >= '0' && c <= '9' ? c - '0' : c >= 'a' && c <= 'f' ? c - 'a' + 10 : -1;
        if (digit < 0) return broken = true, 0;
        n = n << 4 | (uint64_t)digit;
    }
    return n;
}

/* room for n things of a size, what it held before kept */
static inline void *grown(void *old, size_t n, size_t size) {
    void *room = realloc(old, n * size);
    if (!room) printf("trace: no memory\n"), exit(2);
    return room;
}

/* ---- frames */

typedef struct {
    bool known;
    int32_t width, height, chroma_width, chroma_height;
    uint32_t depth;
    int64_t offset; /* in bytes */
} trace_frame;

#define FRAMES 65536
static trace_frame frame_of[FRAMES];
static uint16_t *samples;
static size_t sample_count;

static inline void read_frames(void) {
    size_t space = 0, bytes = 0;
    for (;;) {
        if (space - bytes < 1 << 16) space = 2 * space + (1 << 20), samples = grown(samples, space, 1);
        long got = read(3, (uint8_t *)samples + bytes, space - bytes);
        if (got <= 0) break;
        bytes += (size_t)got;
    }
    sample_count = bytes / 2;
}

static inline void frame_line(void) {
    trace_frame *f = &frame_of[within(0, FRAMES - 1)];
    f->width = within(1, 65536), f->height = within(1, 65536);
    f->chroma_width = within(1, 65536), f->chroma_height = within(1, 65536);
    within(0, 1), within(0, 1); /* halved or not: the sizes say it */
    f->depth = (uint32_t)within(8, 12);
    f->offset = long_number();
    int64_t length = (int64_t)f->width * f->height + 2ll * f->chroma_width * f->chroma_height;
    if (f->offset < 0 || f->offset % 2 != 0 || f->offset / 2 + length > (int64_t)sample_count) broken = true;
    f->known = !broken;
}

static inline int32_t plane_width(const trace_frame *f, size_t plane) { return plane == 0 ? f->width : f->chroma_width; }
static inline int32_t plane_height(const trace_frame *f, size_t plane) { return plane == 0 ? f->height : f->chroma_height; }

static inline const uint16_t *plane_samples(const trace_frame *f, size_t plane) {
    const uint16_t *first = samples + f->offset / 2;
    size_t luma = (size_t)f->width * (size_t)f->height, chroma = (size_t)f->chroma_width * (size_t)f->chroma_height;
    return plane == 0 ? first : first + luma + (plane - 1) * chroma;
}

/* ---- block predictions */

typedef struct {
    int32_t frame, list, ref;
    knobspindle_inter_pred_args args;
    knobspindle_block_grid grid;
    knobspindle_frame_geom geom;
    knobspindle_mv mvs[4];
    int32_t visible_w, visible_h;
    uint64_t whole, visible; /* hashes */
} prediction;

/* the size of the frame's plane that a block is in */
static inline knobspindle_dest_geom dest_of(const prediction *p) {
    bool chroma = p->args.plane > 0, half_x = chroma && p->geom.subsampling_x, half_y = chroma && p->geom.subsampling_y;
    return (knobspindle_dest_geom){(size_t)(p->geom.width + half_x) >> half_x, (size_t)(p->geom.height + half_y) >> half_y};
}

static inline prediction prediction_line(void) {
    prediction p = {.frame = within(0, FRAMES - 1)};
    p.args.plane = (size_t)within(0, 2), p.list = within(0, 1);
    p.args.x = within(0, 65535), p.args.y = within(0, 65535);
    p.args.w = (size_t)within(1, 64), p.args.h = (size_t)within(1, 64);
    p.args.block = (size_t)within(0, 3), p.args.filter = (size_t)within(0, 3), p.args.depth = (uint32_t)within(8, 12);
    number(); /* scaled or not: the sizes say it */
    p.ref = within(0, FRAMES - 1);
    p.geom.width = within(1, 65536), p.geom.height = within(1, 65536);
    p.grid.mi_row = number(), p.grid.mi_col = number(), p.grid.mi_rows = number(), p.grid.mi_cols = number();
    p.grid.mi_size = (uint8_t)within(0, 12);
    p.geom.subsampling_x = within(0, 1), p.geom.subsampling_y = within(0, 1);
    vector(), number(); /* the selected vector, which the call selects itself, and a spare number */
    for (int b = 0; b < 4; b++) p.mvs[b] = vector();
    number(), number(); /* the steps, which the call finds itself */
    p.visible_w = within(0, 64), p.visible_h = within(0, 64);
    p.whole = hex_number(), p.visible = hex_number();
    knobspindle_dest_geom plane = dest_of(&p);
    if (!frame_of[p.ref].known || (p.visible_w > 0 && (size_t)(p.args.x + p.visible_w) > plane.width) ||
        (p.visible_h > 0 && (size_t)(p.args.y + p.visible_h) > plane.height))
        broken = true;
    return p;
}

/* Predicts from list 0 or, with a second line, from both and averaged. Each plane is lent in two bands, parted at a row that part picks. */
static inline uint32_t predict(const prediction *p, const prediction *second, uint32_t part, uint16_t *out, size_t out_len,
                               knobspindle_dest_geom dest) {
    static uint16_t room[KNOBSPINDLE_ROOM];
    const prediction *of[2] = {p, second};
    knobspindle_ref_geom geom[2] = {{0, 0, 0, 0}, {0, 0, 0, 0}};
    const uint16_t *upper[2] = {NULL, NULL}, *lower[2] = {NULL, NULL};
    size_t upper_len[2] = {0, 0}, lower_len[2] = {0, 0};
    for (int list = 0; list < 2 && of[list]; list++) {
        const trace_frame *f = &frame_of[of[list]->ref];
        size_t stride = (size_t)plane_width(f, p->args.plane), rows = (size_t)plane_height(f, p->args.plane), above = part % (rows + 1);
        geom[list] = (knobspindle_ref_geom){f->width, f->height, stride, above};
        upper[list] = plane_samples(f, p->args.plane), upper_len[list] = above * stride;
        lower[list] = upper[list] + above * stride, lower_len[list] = (rows - above) * stride;
    }
    knobspindle_block_mvs mvs = {{{0, 0}}, {{0, 0}}};
    memcpy(mvs.list0, p->mvs, sizeof mvs.list0);
    if (second) memcpy(mvs.list1, second->mvs, sizeof mvs.list1);
    knobspindle_inter_pred_args args = p->args;
    args.average = second != NULL;
    return knobspindle_predict_inter(args, p->grid, p->geom, mvs, geom[0], upper[0], upper_len[0], lower[0], lower_len[0], geom[1], upper[1],
                                     upper_len[1], lower[1], lower_len[1], room, KNOBSPINDLE_ROOM, out, out_len, dest);
}

static inline bool same_block(const prediction *p, const prediction *q) {
    return p->frame == q->frame && p->args.plane == q->args.plane && p->args.x == q->args.x && p->args.y == q->args.y && p->args.w == q->args.w &&
           p->args.h == q->args.h && p->args.block == q->args.block && p->grid.mi_row == q->grid.mi_row && p->grid.mi_col == q->grid.mi_col;
}

/* The list 0 line of a list 1 line: the last one of the same block. A block below 8x8 may have all its list 0 lines before its first list 1 line,
 * up to four a plane. */
static inline const prediction *first_list(const prediction *p) {
    static prediction last[12];
    static uint32_t next;
    if (p->list == 0) return last[next++ % 12] = *p, p;
    for (uint32_t back = 1; back <= 12 && back <= next; back++)
        if (same_block(&last[(next - back) % 12], p)) return &last[(next - back) % 12];
    broken = true;
    return p;
}

#endif
