/* Runs the same inputs through Knobspindle and through the Rust, in one program, and compares what they give. See tools/speed.
 *
 *   speed        every case on both sides, compared; then once more with a line before and after each call, for a trace to be cut at;
 *                where two filters stand beside each other, our own side alone with each; and alone the calls that the Rust has not
 *   speed steps  the same under tools/steps.c, which counts between the two lines
 *   speed list   the cases: group, name
 *   speed time   nanoseconds of a call: side, case, time
 */
#include "knobspindle.h"
#include "rust_search.h"
#include "steps.h"
#include <stdio.h>
#include <stdlib.h>
#include <string.h>
#include <time.h>
#include <unistd.h>

#define NEVER_INLINE __attribute__((noinline))

/* ---- the arguments, as tools/speed_rust/src/lib.rs lays them out */

struct select {
    int32_t vectors[2][4][2];
    bool second, sub_x, sub_y;
    uint8_t size;
    size_t plane, block;
};

struct clamp {
    int32_t mi_row, mi_col, mi_rows, mi_cols, vector[2];
    size_t plane;
    uint8_t size;
    bool sub_x, sub_y;
};

struct scale {
    int32_t sizes[4], x, y, vector[2];
    size_t plane;
    bool sub_x, sub_y;
};

struct reference {
    int32_t width, height;
    size_t stride;
    const uint16_t *samples;
    int32_t start_x, start_y, step_x, step_y;
};

struct block {
    size_t w, h, filter;
    uint32_t depth;
    bool average;
    struct reference refs[2];
    uint16_t *out;
    size_t stride;
};

struct predict {
    int32_t vectors[2][4][2];
    size_t plane;
    int32_t x, y;
    size_t w, h, block, filter;
    uint32_t depth;
    bool average;
    uint8_t size;
    bool sub_x, sub_y;
    int32_t grid[4], frame_width, frame_height, ref_width, ref_height;
    size_t stride;
    const uint16_t *samples[2];
    size_t dest_width, dest_height;
    const uint16_t *dest;
};

struct ready;

struct ready *rust_predict_ready(const struct predict *);
void rust_predict_inter(const struct predict *, struct ready *);
const uint16_t *rust_predict_dest(const struct ready *);
void rust_predict_done(struct ready *);
void rust_select_mv(const struct select *, int32_t out[2]);
void rust_clamp_mv(const struct clamp *, int32_t out[2]);
void rust_scale_mv(const struct scale *, int32_t out[4]);
void rust_block_inter_predict(const struct block *, int32_t room[64 * 71], int32_t beside[64 * 64]);

/* ---- one case at a time: its arguments, and what each side gave */

enum { OURS, RUST };

static struct select select_args;
static struct clamp clamp_args;
static struct scale scale_args;
static uint32_t answer;
static int32_t given[2][5];

static NEVER_INLINE void ours_select(void)
{
    knobspindle_block_mvs of;
    memcpy(&of, select_args.vectors, sizeof of);
    const struct select *a = &select_args;
    knobspindle_selected_mv r = knobspindle_select_mv(of, a->second, a->plane, a->size, a->block, a->sub_x, a->sub_y);
    answer = r.answer;
    given[OURS][0] = r.mv.row;
    given[OURS][1] = r.mv.col;
}

static NEVER_INLINE void rust_select(void)
{
    rust_select_mv(&select_args, given[RUST]);
}

static NEVER_INLINE void ours_clamp(void)
{
    const struct clamp *a = &clamp_args;
    knobspindle_block_grid grid = {a->mi_row, a->mi_col, a->mi_rows, a->mi_cols, a->size};
    knobspindle_mv v = {a->vector[0], a->vector[1]};
    knobspindle_clamped_mv r = knobspindle_clamp_mv(grid, v, a->plane, a->sub_x, a->sub_y);
    answer = r.answer;
    given[OURS][0] = r.mv.row;
    given[OURS][1] = r.mv.col;
}

static NEVER_INLINE void rust_clamp(void)
{
    rust_clamp_mv(&clamp_args, given[RUST]);
}

static NEVER_INLINE void ours_scale(void)
{
    const struct scale *a = &scale_args;
    knobspindle_scale_geom geom = {a->sizes[0], a->sizes[1], a->sizes[2], a->sizes[3], a->sub_x, a->sub_y};
    knobspindle_plane_mv v = {a->vector[0], a->vector[1]};
    knobspindle_scaled_mv r = knobspindle_scale_mv(geom, a->plane, a->x, a->y, v);
    answer = r.answer;
    given[OURS][0] = r.start_x;
    given[OURS][1] = r.start_y;
    given[OURS][2] = r.step_x;
    given[OURS][3] = r.step_y;
}

static NEVER_INLINE void rust_scale(void)
{
    rust_scale_mv(&scale_args, given[RUST]);
}

#if defined HAVE_knobspindle_find_mv_refs || defined HAVE_knobspindle_block_inter_predict
static uint32_t chance = 1;

static uint32_t next(void)
{
    chance = chance * 1664525 + 1013904223;
    return chance >> 12;
}
#endif

#ifdef HAVE_knobspindle_find_mv_refs
enum { ROWS = 20, COLS = 30, CELLS = ROWS * COLS };

static uint8_t modes[CELLS];
static int8_t frames[2 * CELLS], prev_frames[2 * CELLS];
static int16_t mvs[4 * CELLS], subs[16 * CELLS], prev_mvs[4 * CELLS];
static struct search search_args;

static knobspindle_sub_mvs own_mvs = {{{10, -20}, {-3, 1}, {320, -77}, {0, 2}}};
static const knobspindle_mv best_pair[2] = {{-77, 4001}, {30, -15}};
static bool high_precision;

static inline knobspindle_mv_ref_geometry search_geometry(const struct search *a)
{
    return (knobspindle_mv_ref_geometry){a->mi_row, a->mi_col, a->mi_rows, a->mi_cols, a->size, a->tile_start, a->tile_end};
}

static inline knobspindle_sign_bias search_bias(const struct search *a)
{
    knobspindle_sign_bias bias;
    memcpy(&bias, a->sign_bias, sizeof bias);
    return bias;
}

static inline void give_pair(knobspindle_mv_pair r)
{
    answer = r.answer;
    given[OURS][0] = r.first.row;
    given[OURS][1] = r.first.col;
    given[OURS][2] = r.second.row;
    given[OURS][3] = r.second.col;
}

static NEVER_INLINE void ours_append(void)
{
    const struct search *a = &search_args;
    give_pair(knobspindle_append_sub8x8_mvs(a->modes, CELLS, a->frames, 2 * CELLS, a->vectors, 4 * CELLS, a->sub_vectors, 16 * CELLS,
                                            a->prev_frames, 2 * CELLS, a->prev_vectors, 4 * CELLS, search_geometry(a), (size_t)a->block,
                                            a->target, own_mvs, search_bias(a), a->use_prev));
}

static NEVER_INLINE void rust_append(void)
{
    rust_append_sub8x8_mvs(&search_args, own_mvs.mvs, given[RUST]);
}

static NEVER_INLINE void ours_best(void)
{
    give_pair(knobspindle_find_best_ref_mvs(search_geometry(&search_args), best_pair[0], best_pair[1], high_precision));
}

static NEVER_INLINE void rust_best(void)
{
    rust_find_best_ref_mvs(&search_args, best_pair, high_precision, given[RUST]);
}

static NEVER_INLINE void ours_search(void)
{
    const struct search *a = &search_args;
    knobspindle_mv_refs r = knobspindle_find_mv_refs(a->modes, CELLS, a->frames, 2 * CELLS, a->vectors, 4 * CELLS, a->sub_vectors,
                                                     16 * CELLS, a->prev_frames, 2 * CELLS, a->prev_vectors, 4 * CELLS,
                                                     search_geometry(a), a->target, a->block, search_bias(a), a->use_prev);
    answer = r.answer;
    given[OURS][0] = r.first.row;
    given[OURS][1] = r.first.col;
    given[OURS][2] = r.second.row;
    given[OURS][3] = r.second.col;
    given[OURS][4] = r.context;
}

static NEVER_INLINE void rust_search(void)
{
    rust_find_mv_refs(&search_args, given[RUST]);
}

/* Of so many different vectors: few make equal offers, so that a search goes on. */
static int16_t some_vector(uint32_t of)
{
    return (int16_t)(next() % of * 26) - 40;
}

static void fill_tables(uint32_t of)
{
    chance = of;
    for (int i = 0; i < CELLS; i++)
        modes[i] = 10 + next() % 4;
    for (int i = 0; i < 2 * CELLS; i++) {
        frames[i] = i & 1 ? (int8_t)(next() % 4) - 1 : 1 + next() % 3;
        prev_frames[i] = i & 1 ? (int8_t)(next() % 4) - 1 : 1 + next() % 3;
    }
    for (int i = 0; i < 4 * CELLS; i++) {
        mvs[i] = some_vector(of);
        prev_mvs[i] = some_vector(of);
    }
    for (int i = 0; i < 16 * CELLS; i++)
        subs[i] = some_vector(of);
}
#endif

/* ---- planes and outputs of block prediction */

enum { WIDTH = 250, HEIGHT = 240, STRIDE = 256, OUT_STRIDE = 96, OUT = 64 * OUT_STRIDE };

static uint16_t out[2][OUT];

#ifdef HAVE_knobspindle_block_inter_predict
static uint16_t planes[2][HEIGHT * STRIDE];
static struct block block_args;
static uint16_t room[8576];
static int32_t rust_room[64 * 71], rust_beside[64 * 64];

static NEVER_INLINE void ours_block(void)
{
    const struct block *a = &block_args;
    const struct reference *p = &a->refs[0], *q = &a->refs[1];
    knobspindle_block_shape shape = {a->w, a->h, a->filter, a->depth, a->average};
    knobspindle_plane_geom geom = {p->width, p->height, p->stride, p->height}, geom2 = {q->width, q->height, q->stride, q->height};
    knobspindle_stepping from = {p->start_x, p->start_y, p->step_x, p->step_y}, from2 = {q->start_x, q->start_y, q->step_x, q->step_y};
    answer = knobspindle_block_inter_predict(shape, geom, from, p->samples, p->height * p->stride, NULL, 0, geom2, from2, q->samples,
                                             q->height * q->stride, NULL, 0, room, 8576, out[OURS], OUT, a->stride);
}

static NEVER_INLINE void rust_block(void)
{
    rust_block_inter_predict(&block_args, rust_room, rust_beside);
}

static void fill_planes(uint32_t depth)
{
    chance = depth;
    for (int i = 0; i < HEIGHT * STRIDE; i++) {
        planes[0][i] = next() & ((1u << depth) - 1);
        planes[1][i] = next() & ((1u << depth) - 1);
    }
}
#endif

#ifdef HAVE_knobspindle_predict_inter
static uint16_t dest[WIDTH * HEIGHT];
static struct predict predict_args;
static struct ready *ready;

static NEVER_INLINE void ours_predict(void)
{
    const struct predict *a = &predict_args;
    knobspindle_inter_pred_args args = {a->plane, a->x, a->y, a->w, a->h, a->block, a->filter, a->depth, a->average};
    knobspindle_block_grid grid = {a->grid[0], a->grid[1], a->grid[2], a->grid[3], a->size};
    knobspindle_frame_geom frame = {a->frame_width, a->frame_height, a->sub_x, a->sub_y};
    knobspindle_ref_geom geom = {a->ref_width, a->ref_height, a->stride, a->ref_height};
    knobspindle_dest_geom size = {a->dest_width, a->dest_height};
    knobspindle_block_mvs of;
    memcpy(&of, a->vectors, sizeof of);
    size_t n = a->ref_height * a->stride;
    answer = knobspindle_predict_inter(args, grid, frame, of, geom, a->samples[0], n, NULL, 0, geom, a->samples[1], n, NULL, 0, room, 8576, dest,
                                       WIDTH * HEIGHT, size);
}

static NEVER_INLINE void rust_predict(void)
{
    rust_predict_inter(&predict_args, ready);
}
#endif

#ifdef HAVE_knobspindle_inter_reach
static knobspindle_reach told;

static NEVER_INLINE void ours_block_reach(void)
{
    const struct reference *p = &block_args.refs[0];
    knobspindle_stepping from = {p->start_x, p->start_y, p->step_x, p->step_y};
    told = knobspindle_block_reach(block_args.w, block_args.h, p->width, p->height, from);
}

static NEVER_INLINE void ours_inter_reach(void)
{
    const struct predict *a = &predict_args;
    knobspindle_inter_pred_args args = {a->plane, a->x, a->y, a->w, a->h, a->block, a->filter, a->depth, a->average};
    knobspindle_block_grid grid = {a->grid[0], a->grid[1], a->grid[2], a->grid[3], a->size};
    knobspindle_frame_geom frame = {a->frame_width, a->frame_height, a->sub_x, a->sub_y};
    knobspindle_block_mvs of;
    memcpy(&of, a->vectors, sizeof of);
    told = knobspindle_inter_reach(args, grid, frame, of, false, a->ref_width, a->ref_height);
}
#endif

static void fill_outputs(void)
{
    answer = 99;
    memset(given, 0, sizeof given);
    for (int i = 0; i < OUT; i++)
        out[OURS][i] = out[RUST][i] = (i * 37 + 11) % 1021;
#ifdef HAVE_knobspindle_predict_inter
    for (int i = 0; i < WIDTH * HEIGHT; i++)
        dest[i] = (i * 37 + 11) % 251;
#endif
}

static bool same(void)
{
#ifdef HAVE_knobspindle_predict_inter
    if (ready && memcmp(dest, rust_predict_dest(ready), sizeof dest))
        return false;
#endif
    return answer == 0 && !memcmp(given[OURS], given[RUST], sizeof given[0]) && !memcmp(out[OURS], out[RUST], sizeof out[0]);
}

/* ---- what is done with a case */

static int number, differ;
static bool list, timing, stepped;

static void mark(const char *line)
{
    write(1, line, strlen(line));
}

static NEVER_INLINE void nothing(void)
{
    __asm__ volatile("");
}

/* The trace between the two lines is the call, and what an empty case costs; not inlined, so that this is the same wherever it is asked for. */
static NEVER_INLINE void traced(const char *side, const char *name, void (*run)(void))
{
    char line[100];
    snprintf(line, sizeof line, "@%s %s\n", side, name);
    mark(line);
    if (stepped)
        begun();
    run();
    ended();
    mark("@end\n");
}

static long nanoseconds(void (*run)(void), long calls)
{
    struct timespec first, last;
    clock_gettime(CLOCK_MONOTONIC, &first);
    for (long i = 0; i < calls; i++)
        run();
    clock_gettime(CLOCK_MONOTONIC, &last);
    return (last.tv_sec - first.tv_sec) * 1000000000 + last.tv_nsec - first.tv_nsec;
}

static long so_many(void (*run)(void)) /* calls that take two milliseconds */
{
    long calls = 1;
    while (nanoseconds(run, calls) < 2000000)
        calls *= 2;
    return calls;
}

/* The least of some batches of each side, the two in turn, since a machine is not equally fast all the time. */
static void timed(const char *name, void (*ours)(void), void (*rust)(void))
{
    long n = so_many(ours), m = so_many(rust), least = 0, least_rust = 0;
    for (int i = 0; i < 15; i++) {
        long one = nanoseconds(ours, n) / n, other = nanoseconds(rust, m) / m;
        least = i && least < one ? least : one;
        least_rust = i && least_rust < other ? least_rust : other;
    }
    printf("ours ns\t%s\t%ld\nrust ns\t%s\t%ld\n", name, least, name, least_rust);
}

static void compared(const char *name, void (*ours)(void), void (*rust)(void))
{
    number++;
    fill_outputs();
    ours();
    rust();
    if (!same()) {
        differ++;
        printf("DIFFERENT: %s: our answer is %u\n", name, answer);
    }
}

static void one_case(const char *group, const char *name, void (*ours)(void), void (*rust)(void))
{
    if (list) {
        printf("%s\t%s\n", group, name);
        return;
    }
    if (timing) {
        timed(name, ours, rust);
        return;
    }
    compared(name, ours, rust);
    traced("ours", name, ours);
    traced("rust", name, rust);
}

/* ---- the cases */

static void vectors(void)
{
    static const struct select s = {.vectors = {{{10, -20}, {-3, 1}, {320, -77}, {0, 2}}, {{-1, 1}, {-2, 1}, {-3, 1}, {0, 2}}}};
    select_args = s;
    one_case("vectors", "select_mv, luma", ours_select, rust_select);
    select_args.plane = 1;
    select_args.sub_x = select_args.sub_y = select_args.second = true;
    one_case("vectors", "select_mv, chroma below 8x8 at 4:2:0", ours_select, rust_select);
    clamp_args = (struct clamp){10, 20, 90, 160, {-77, 130}, 0, 9, true, true};
    one_case("vectors", "clamp_mv, luma", ours_clamp, rust_clamp);
    clamp_args.plane = 2;
    clamp_args.vector[0] = -4000;
    one_case("vectors", "clamp_mv, chroma at 4:2:0, held", ours_clamp, rust_clamp);
    scale_args = (struct scale){{1280, 720, 1280, 720}, 320, 200, {-154, 260}, 0, true, true};
    one_case("vectors", "scale_mv, same size", ours_scale, rust_scale);
    scale_args.sizes[0] = 1600;
    scale_args.sizes[1] = 900;
    one_case("vectors", "scale_mv, 5:4", ours_scale, rust_scale);
}

#ifdef HAVE_knobspindle_find_mv_refs
static void searches(void)
{
    search_args = (struct search){10, 12, ROWS, COLS, 0, COLS, 1, -1, 6, {false, false, true, false}, true, modes, frames, mvs, subs,
                                  prev_frames, prev_mvs};
    fill_tables(50);
    one_case("search", "many different vectors, 16x16", ours_search, rust_search);
    search_args.size = 12;
    one_case("search", "many different vectors, 64x64", ours_search, rust_search);
    search_args.size = 0;
    search_args.block = 1;
    one_case("search", "many different vectors, 4x4, sub-block 1", ours_search, rust_search);
    for (int b = 0; b < 4; b++) {
        static const char *const names[] = {"append_sub8x8_mvs, sub-block 0", "append_sub8x8_mvs, sub-block 1", "append_sub8x8_mvs, sub-block 2",
                                            "append_sub8x8_mvs, sub-block 3"};
        search_args.block = b;
        one_case("lists", names[b], ours_append, rust_append);
    }
    search_args.size = 6;
    search_args.block = -1;
    one_case("lists", "find_best_ref_mvs, lowered", ours_best, rust_best);
    high_precision = true;
    one_case("lists", "find_best_ref_mvs, high precision", ours_best, rust_best);
    fill_tables(1);
    one_case("search", "one vector everywhere, 16x16", ours_search, rust_search);
    for (int i = 0; i < CELLS; i++) {
        frames[2 * i] = prev_frames[2 * i] = 0;
        frames[2 * i + 1] = prev_frames[2 * i + 1] = -1;
        modes[i] = i % 10;
    }
    one_case("search", "all intra, 16x16", ours_search, rust_search);
    search_args.mi_row = search_args.mi_col = 0;
    one_case("search", "no place inside, 16x16", ours_search, rust_search);
}
#endif

#ifdef HAVE_knobspindle_block_inter_predict
/* A w x w block whose first sample is (x, y) and the phase; both references alike but for what they hold. */
static void place_block(size_t w, int x, int y, int phase_x, int phase_y, int step, uint32_t depth, bool average)
{
    struct reference r = {WIDTH, HEIGHT, STRIDE, planes[0], 16 * x + phase_x, 16 * y + phase_y, step, step};
    block_args = (struct block){w, w, 0, depth, average, {r, r}, out[RUST], OUT_STRIDE};
    block_args.refs[1].samples = planes[1];
}

static void block_case(const char *group, const char *name, size_t w, int x, int y, int phase_x, int phase_y, int step, uint32_t depth, bool average)
{
    place_block(w, x, y, phase_x, phase_y, step, depth, average);
    one_case(group, name, ours_block, rust_block);
}

/* The block that was placed, with filter 0 and with filter 3: both compared with the Rust, and our own counted. */
static void filter_case(const char *group, const char *name)
{
    if (list)
        printf("%s\t%s\n", group, name);
    if (list || timing)
        return;
    for (size_t filter = 0; filter <= 3; filter += 3) {
        char full[100];
        snprintf(full, sizeof full, "%s, filter %zu", name, filter);
        block_args.filter = filter;
        compared(full, ours_block, rust_block);
        traced(filter ? "filter3" : "filter0", name, ours_block);
    }
}

static const int sizes[] = {4, 8, 16, 64};
static const char *const kinds[] = {"copy", "horizontal", "vertical", "both"};

static void blocks(void)
{
    char name[80];
    fill_planes(8);
    for (int edge = 0; edge < 2; edge++)
        for (int i = 0; i < 4; i++)
            for (int k = 0; k < 4; k++) {
                int at = edge ? -2 : 50;
                snprintf(name, sizeof name, "%dx%d %s, %s", sizes[i], sizes[i], kinds[k], edge ? "edge" : "interior");
                block_case("block", name, sizes[i], at, at, k & 1 ? 5 : 0, k & 2 ? 9 : 0, 16, 8, false);
            }
    for (int i = 2; i < 4; i++)
        for (int step = 20; step <= 32; step += 12) {
            snprintf(name, sizeof name, "%dx%d steps of %d", sizes[i], sizes[i], step);
            block_case("block", name, sizes[i], 50, 50, 5, 9, step, 8, false);
        }
    for (int i = 2; i < 4; i++)
        for (int k = 0; k < 4; k += 3) {
            snprintf(name, sizeof name, "%dx%d %s, interior, averaged", sizes[i], sizes[i], kinds[k]);
            block_case("beside", name, sizes[i], 50, 50, k & 1 ? 5 : 0, k & 2 ? 9 : 0, 16, 8, true);
        }
    fill_planes(10);
    for (int i = 2; i < 4; i++)
        for (int k = 0; k < 4; k++) {
            snprintf(name, sizeof name, "%dx%d %s, interior, 10 bit", sizes[i], sizes[i], kinds[k]);
            block_case("beside", name, sizes[i], 50, 50, k & 1 ? 5 : 0, k & 2 ? 9 : 0, 16, 10, false);
        }
}

/* The kinds of blocks above that filter, in every size, at 8 or at 10 bit; one with steps; at 8 bit also averaged ones. */
static void filters(uint32_t depth)
{
    const char *group = depth == 8 ? "filters, 8 bit" : "filters, 10 bit", *bits = depth == 8 ? "" : ", 10 bit";
    char name[80];
    fill_planes(depth);
    for (int edge = 0; edge < 2; edge++)
        for (int i = 0; i < 4; i++)
            for (int k = 1; k < 4; k++) {
                int at = edge ? -2 : 50;
                snprintf(name, sizeof name, "%dx%d %s, %s%s", sizes[i], sizes[i], kinds[k], edge ? "edge" : "interior", bits);
                place_block(sizes[i], at, at, k & 1 ? 5 : 0, k & 2 ? 9 : 0, 16, depth, false);
                filter_case(group, name);
            }
    snprintf(name, sizeof name, "64x64 steps of 20%s", bits);
    place_block(64, 50, 50, 5, 9, 20, depth, false);
    filter_case(group, name);
    for (int i = 2; i < 4 && depth == 8; i++) {
        snprintf(name, sizeof name, "%dx%d both, interior, averaged", sizes[i], sizes[i]);
        place_block(sizes[i], 50, 50, 5, 9, 16, depth, true);
        filter_case(group, name);
    }
}
#endif

#ifdef HAVE_knobspindle_predict_inter
/* A block of the frame whose size the plane has, its vector in eighths: 3 across and 5 down are phases 6 and 10. */
static void predict_case(const char *name, size_t w, uint8_t size, int at, int row, int col, bool average)
{
    fill_outputs();
    predict_args = (struct predict){.x = at, .y = at, .w = w, .h = w, .depth = 8, .average = average, .size = size,
                                    .sub_x = true, .sub_y = true, .grid = {at / 8, at / 8, (HEIGHT + 7) / 8, (WIDTH + 7) / 8},
                                    .frame_width = WIDTH, .frame_height = HEIGHT, .ref_width = WIDTH, .ref_height = HEIGHT, .stride = STRIDE,
                                    .samples = {planes[0], planes[1]}, .dest_width = WIDTH, .dest_height = HEIGHT, .dest = dest};
    for (int i = 0; i < 8; i++) {
        predict_args.vectors[i / 4][i % 4][0] = row;
        predict_args.vectors[i / 4][i % 4][1] = col;
    }
    ready = rust_predict_ready(&predict_args);
    one_case(average ? "predict beside" : "predict", name, ours_predict, rust_predict);
    rust_predict_done(ready);
    ready = NULL;
}

static void predictions(void)
{
    static const uint8_t of[] = {0, 3, 6, 12};
    char name[80];
    fill_planes(8);
    for (int edge = 0; edge < 2; edge++)
        for (int i = 0; i < 4; i++)
            for (int k = 0; k < 4; k++) {
                int whole = edge ? -16 : 16;
                snprintf(name, sizeof name, "predict_inter, %dx%d %s, %s", sizes[i], sizes[i], kinds[k], edge ? "edge" : "interior");
                predict_case(name, sizes[i], of[i], edge ? 0 : 64, whole + (k & 2 ? 5 : 0), whole + (k & 1 ? 3 : 0), false);
            }
    for (int i = 2; i < 4; i++)
        for (int k = 0; k < 4; k += 3) {
            snprintf(name, sizeof name, "predict_inter, %dx%d %s, interior, averaged", sizes[i], sizes[i], kinds[k]);
            predict_case(name, sizes[i], of[i], 64, 16 + (k & 2 ? 5 : 0), 16 + (k & 1 ? 3 : 0), true);
        }
}
#endif

#ifdef HAVE_knobspindle_inter_reach
/* A call that the Rust has not: the rectangle is compared with its own ends, and our side is counted. */
static void reach_case(const char *name, void (*ours)(void), size_t first_col, size_t last_col, size_t first_row, size_t last_row)
{
    if (list)
        printf("reach\t%s\n", name);
    if (list || timing)
        return;
    number++;
    ours();
    if (told.answer != 0 || told.first_col != first_col || told.last_col != last_col || told.first_row != first_row || told.last_row != last_row) {
        differ++;
        printf("DIFFERENT: %s: our answer is %u\n", name, told.answer);
    }
    traced("ours", name, ours);
}

static void reaches(void)
{
    place_block(16, 50, 50, 5, 9, 16, 8, false);
    reach_case("block_reach, 16x16", ours_block_reach, 47, 69, 47, 69);
    place_block(64, 50, 50, 5, 9, 20, 8, false);
    reach_case("block_reach, 64x64 steps of 20", ours_block_reach, 47, 133, 47, 133);
    predict_args = (struct predict){.x = 64, .y = 64, .w = 16, .h = 16, .size = 6, .sub_x = true, .sub_y = true, .grid = {8, 8, 30, 32},
                                    .frame_width = WIDTH, .frame_height = HEIGHT, .ref_width = WIDTH, .ref_height = HEIGHT};
    reach_case("inter_reach, 16x16", ours_inter_reach, 61, 83, 61, 83);
    predict_args.ref_width = 500, predict_args.ref_height = 480;
    reach_case("inter_reach, 16x16, reference of twice the size", ours_inter_reach, 125, 162, 125, 162);
    predict_args.plane = 1, predict_args.x = predict_args.y = 32, predict_args.w = predict_args.h = 8;
    reach_case("inter_reach, its chroma at 4:2:0", ours_inter_reach, 61, 82, 61, 82);
}
#endif

int main(int argc, char **argv)
{
    list = argc == 2 && !strcmp(argv[1], "list");
    timing = argc == 2 && !strcmp(argv[1], "time");
    stepped = argc == 2 && !strcmp(argv[1], "steps");
    if (!list && !timing) {
        traced("nothing", "nothing", nothing); /* the first print is dearer than the next */
        traced("empty", "empty", nothing);
    }
    vectors();
#ifdef HAVE_knobspindle_find_mv_refs
    searches();
#endif
#ifdef HAVE_knobspindle_block_inter_predict
    blocks();
    filters(8);
    filters(10);
#endif
#ifdef HAVE_knobspindle_predict_inter
    predictions();
#endif
#ifdef HAVE_knobspindle_inter_reach
    reaches();
#endif
    if (!list && !timing)
        printf("%d cases, %d differences\n", number, differ);
    return differ != 0;
}
