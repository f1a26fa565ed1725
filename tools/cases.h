/* Files of oracle/'s cases on standard input, one after the other (oracle/README.md has the format): their headers, their scenes and records, and the two
 * predictions, made through the compiled library as their records say. */
#ifndef CASES_H
#define CASES_H

#include <stdbool.h>
#include <stdint.h>
#include <stdio.h>
#include <string.h>
#include <unistd.h>

#include "knobspindle.h"

#define CELLS 8192
#define SAMPLES 65537
#define GUARD 64 /* samples and numbers beyond a lent buffer that no call may touch */

/* ---- reading */

static uint8_t input[1 << 16];
static size_t have, used;

static inline bool take(void *to, size_t n) {
    uint8_t *out = to;
    while (n > 0) {
        if (used == have) {
            long got = read(0, input, sizeof input);
            if (got <= 0) return false;
            have = (size_t)got;
            used = 0;
        }
        size_t k = have - used < n ? have - used : n;
        memcpy(out, input + used, k);
        used += k, out += k, n -= k;
    }
    return true;
}

static inline uint32_t u32(const uint8_t *r) { uint32_t v; memcpy(&v, r, 4); return v; }
static inline int32_t i32(const uint8_t *r) { int32_t v; memcpy(&v, r, 4); return v; }
static inline uint64_t u64(const uint8_t *r) { uint64_t v; memcpy(&v, r, 8); return v; }

static inline knobspindle_mv mv(const uint8_t *r) { return (knobspindle_mv){i32(r), i32(r + 4)}; }

/* ---- scenes of lent tables */

static struct {
    uint8_t modes[CELLS];
    int8_t frames[2 * CELLS], prev_frames[2 * CELLS];
    int16_t mvs[4 * CELLS], subs[16 * CELLS], prev_mvs[4 * CELLS];
} tables;

/* element j of a lent table with k elements a cell is element j mod (p x k) of the scene's */
static inline void repeat(void *to, const uint8_t *from, size_t width, size_t period, size_t n) {
    for (size_t j = 0; j < n; j++) memcpy((uint8_t *)to + j * width, from + j % period * width, width);
}

static inline bool table_scene(uint32_t *queries) {
    static uint8_t s[3408];
    if (!take(s, sizeof s)) return false;
    size_t p = u32(s), n = u32(s + 4);
    if (p < 1 || p > 64 || n > CELLS) return false;
    repeat(tables.modes, s + 8, 1, p, n);
    repeat(tables.frames, s + 72, 1, 2 * p, 2 * n);
    repeat(tables.mvs, s + 200, 2, 4 * p, 4 * n);
    repeat(tables.subs, s + 712, 2, 16 * p, 16 * n);
    repeat(tables.prev_frames, s + 2760, 1, 2 * p, 2 * n);
    repeat(tables.prev_mvs, s + 2888, 2, 4 * p, 4 * n);
    *queries = u32(s + 3400);
    return true;
}

/* ---- scenes of planes */

static uint16_t bands[4][SAMPLES]; /* reference 0's upper and lower band, reference 1's */

static inline bool plane_scene(uint32_t *queries) {
    static uint8_t s[8208];
    if (!take(s, sizeof s)) return false;
    size_t longest = u32(s);
    if (longest > SAMPLES) return false;
    for (int b = 0; b < 4; b++) repeat(bands[b], s + 8 + 2048 * b, 2, 1024, longest);
    *queries = u32(s + 8200);
    return true;
}

/* ---- files */

typedef struct {
    const char *name;
    size_t length; /* of a record */
    bool (*scene)(uint32_t *queries);
} kind;

static const kind kinds[] = {
    {"select_mv", 96, 0},
    {"clamp_mv", 48, 0},
    {"scale_mv", 64, 0},
    {"find_best_ref_mvs", 64, 0},
    {"find_mv_refs", 88, table_scene},
    {"append_sub8x8_mvs", 120, table_scene},
    {"row_read", 64, plane_scene},
    {"block_inter_predict", 160, plane_scene},
    {"predict_inter", 248, plane_scene},
    {"block_reach", 80, 0},
    {"inter_reach", 192, 0},
};

#define KINDS (sizeof kinds / sizeof *kinds)
#define LONGEST_RECORD 248

/* The next record, and before it the scene that it begins, if any; left counts what is left of the scene. What follows the record is not read. */
static inline bool next_record(const kind *k, uint32_t *left, uint8_t *record) {
    if (k->scene && *left == 0 && !k->scene(left)) return false;
    --*left;
    return take(record, k->length);
}

enum outcome { PASSED, FAILED, BROKEN };

/* Each file is handed over with its kind and its count of records, up to the first that can't be read. The exit status: 0 if all passed. */
static inline int each_file(enum outcome (*file)(const kind *k, uint32_t count)) {
    uint8_t header[16];
    enum outcome all = BROKEN; /* no file at all is no success */
    for (bool any = false; take(header, sizeof header); any = true) {
        uint32_t call = u32(header + 4);
        bool known = memcmp(header, "KNOB", 4) == 0 && call >= 1 && call <= KINDS && u32(header + 8) == kinds[call - 1].length;
        if (!known) printf("not a file of cases that this program knows (call %u)\n", call);
        enum outcome one = known ? file(&kinds[call - 1], u32(header + 12)) : BROKEN;
        all = any && all > one ? all : one;
        if (one == BROKEN) break;
    }
    return all == PASSED ? 0 : 1;
}

/* ---- arguments */

static inline knobspindle_block_mvs block_mvs(const uint8_t *r) {
    knobspindle_block_mvs of;
    for (int b = 0; b < 4; b++) of.list0[b] = mv(r + 8 * b), of.list1[b] = mv(r + 32 + 8 * b);
    return of;
}

static inline knobspindle_plane_geom plane(const uint8_t *r) { return (knobspindle_plane_geom){i32(r), i32(r + 4), u64(r + 8), u64(r + 16)}; }
static inline knobspindle_stepping stepping(const uint8_t *r) { return (knobspindle_stepping){i32(r), i32(r + 4), i32(r + 8), i32(r + 12)}; }
static inline knobspindle_ref_geom reference(const uint8_t *r) { return (knobspindle_ref_geom){i32(r), i32(r + 4), u64(r + 8), u64(r + 16)}; }

/* of predict_inter */
static inline knobspindle_inter_pred_args pred_args(const uint8_t *r) {
    return (knobspindle_inter_pred_args){u64(r + 128), i32(r + 184), i32(r + 188), u64(r + 136), u64(r + 144), u64(r + 152), u64(r + 160), u32(r + 216),
                                         r[223]};
}

static inline knobspindle_block_grid pred_grid(const uint8_t *r) {
    return (knobspindle_block_grid){i32(r + 192), i32(r + 196), i32(r + 200), i32(r + 204), r[220]};
}

static inline knobspindle_frame_geom pred_frame(const uint8_t *r) { return (knobspindle_frame_geom){i32(r + 208), i32(r + 212), r[221], r[222]}; }

/* ---- the two predictions */

/* How the records of both predictions end: the lengths of output and room, the answer, and where the run of samples begins that follows the record. */
typedef struct {
    size_t out, room;
    uint32_t answer;
    size_t first, run;
} ending;

static inline ending ending_at(const uint8_t *r) { return (ending){u32(r), u32(r + 4), u32(r + 8), u32(r + 12), u32(r + 16)}; }
static inline ending block_ending(const uint8_t *r) { return ending_at(r + 136); }
static inline ending pred_ending(const uint8_t *r) { return ending_at(r + 228); }

/* Whether buffers of SAMPLES and of KNOBSPINDLE_ROOM + 1 numbers are long enough. */
static inline bool fits(const ending *e) { return e->out <= SAMPLES && e->room <= KNOBSPINDLE_ROOM + 1 && e->first + e->run <= e->out; }

/* the run itself */
static inline bool take_run(uint16_t *to, size_t run) {
    uint8_t padding[8];
    return take(to, 2 * run) && take(padding, (8 - 2 * run % 8) % 8);
}

/* what stands in the output before a call */
static inline void pattern(uint16_t *to, size_t n) {
    for (size_t i = 0; i < n; i++) to[i] = (uint16_t)((i * 37 + 11) % 1021);
}

static inline uint32_t predict_block(const uint8_t *r, uint16_t from[4][SAMPLES], uint16_t *room, uint16_t *out) {
    knobspindle_block_shape shape = {u64(r + 104), u64(r + 112), u64(r + 96), u32(r + 128), r[132]};
    ending e = block_ending(r);
    return knobspindle_block_inter_predict(shape, plane(r), stepping(r + 32), from[0], u32(r + 24), from[1], u32(r + 28), plane(r + 48),
                                           stepping(r + 80), from[2], u32(r + 72), from[3], u32(r + 76), room, e.room, out, e.out, u64(r + 120));
}

static inline uint32_t predict_whole(const uint8_t *r, uint16_t from[4][SAMPLES], uint16_t *room, uint16_t *out) {
    knobspindle_dest_geom dest = {u64(r + 168), u64(r + 176)};
    ending e = pred_ending(r);
    return knobspindle_predict_inter(pred_args(r), pred_grid(r), pred_frame(r), block_mvs(r), reference(r + 64), from[0], u32(r + 88), from[1],
                                     u32(r + 92), reference(r + 96), from[2], u32(r + 120), from[3], u32(r + 124), room, e.room, out, e.out, dest);
}

#endif
