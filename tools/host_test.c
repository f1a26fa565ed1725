/* Calls every exported function once or more through the shipped header, and checks what comes back. */
#include "knobspindle.h"
#include <stdio.h>
#include <string.h>

static int checks, failed;

static void check(const char *what, long long got, long long want)
{
    checks++;
    if (got != want) {
        failed++;
        printf("%s: %lld, not %lld\n", what, got, want);
    }
}

static void select_mv(void)
{
    knobspindle_block_mvs of = {
        .list0 = {{10, -20}, {-3, 1}, {32767, -32767}, {0, 2}},
        .list1 = {{-1, 1}, {-2, 1}, {-3, 1}, {0, 2}},
    };
    knobspindle_selected_mv r = knobspindle_select_mv(of, false, 0, 0, 2, false, false);
    check("select, luma: answer", r.answer, KNOBSPINDLE_ACCEPTED);
    check("select, luma: row", r.mv.row, 32767);
    check("select, luma: column", r.mv.col, -32767);
    /* document 01: halved height pairs b with b + 2, ties away from zero */
    r = knobspindle_select_mv(of, false, 1, 0, 1, false, true);
    check("select, 4:4:0: row", r.mv.row, -2);
    check("select, 4:4:0: column", r.mv.col, 2);
    r = knobspindle_select_mv(of, true, 2, 0, 0, true, true);
    check("select, 4:2:0: row", r.mv.row, -2);
    check("select, 4:2:0: column", r.mv.col, 1);
    r = knobspindle_select_mv(of, false, 1, 0, 2, false, true);
    check("select, no partner: answer", r.answer, KNOBSPINDLE_BLOCK);
    check("select, no partner: row", r.mv.row, 0);
    of.list1[3].col = -32768;
    r = knobspindle_select_mv(of, false, 0, 0, 0, false, false);
    check("select, list 1 out of range: answer", r.answer, KNOBSPINDLE_VECTOR);
}

/* docs/HOST.md, 'Blocks below 8x8': a check for each row of its table. The rows' means show which vectors were taken. */
static void below_8x8(void)
{
    static const knobspindle_block_mvs of = {
        .list0 = {{0, 2}, {40, 20}, {400, 200}, {4000, 2000}},
        .list1 = {{1, 1}, {1, 1}, {1, 1}, {1, 1}},
    };
    static const struct {
        size_t plane;
        bool half_x, half_y;
        size_t block;
        int32_t row, col;
    } table[] = {
        {0, true, true, 0, 0, 2},        {0, true, true, 1, 40, 20},      {0, true, true, 2, 400, 200}, {0, true, true, 3, 4000, 2000},
        {1, true, true, 0, 1110, 556},                                                                  /* 4440 / 4 and 2222 / 4 */
        {1, true, false, 0, 20, 11},     {1, true, false, 1, 220, 110},                                 /* 0 and 1; 1 and 2 */
        {1, false, true, 0, 200, 101},   {1, false, true, 1, 2020, 1010},                               /* 0 and 2; 1 and 3 */
        {1, false, false, 0, 0, 2},      {1, false, false, 1, 40, 20},    {1, false, false, 2, 400, 200}, {1, false, false, 3, 4000, 2000},
    };
    for (size_t i = 0; i < sizeof table / sizeof *table; i++)
        for (uint8_t size = KNOBSPINDLE_BLOCK_4X4; size < KNOBSPINDLE_BLOCK_8X8; size++) {
            knobspindle_selected_mv r = knobspindle_select_mv(of, false, table[i].plane, size, table[i].block, table[i].half_x, table[i].half_y);
            check("below 8x8: answer", r.answer, KNOBSPINDLE_ACCEPTED);
            check("below 8x8: row", r.mv.row, table[i].row);
            check("below 8x8: column", r.mv.col, table[i].col);
        }
    /* 4:2:2 with number 2 for the lower block: accepted, and another vector */
    knobspindle_selected_mv r = knobspindle_select_mv(of, false, 1, KNOBSPINDLE_BLOCK_4X4, 2, true, false);
    check("below 8x8, 4:2:2, number 2: answer", r.answer, KNOBSPINDLE_ACCEPTED);
    check("below 8x8, 4:2:2, number 2: row", r.mv.row, 2200);
}

static void clamp_mv(void)
{
    knobspindle_block_grid grid = {.mi_row = 0, .mi_col = 3, .mi_rows = 4, .mi_cols = 5, .mi_size = 3};
    knobspindle_clamped_mv r = knobspindle_clamp_mv(grid, (knobspindle_mv){-7, 9}, 0, true, true);
    check("clamp, near: answer", r.answer, KNOBSPINDLE_ACCEPTED);
    check("clamp, near: row", r.mv.row, -14);
    check("clamp, near: column", r.mv.col, 18);
    /* row: 0 - (4 + 8) x 16; column: (5 - 1 - 3) x 8 x 16 + (4 + 8) x 16 - 16 */
    r = knobspindle_clamp_mv(grid, (knobspindle_mv){-32767, 32767}, 0, true, true);
    check("clamp, far: row", r.mv.row, -192);
    check("clamp, far: column", r.mv.col, 304);
    grid.mi_col = 5;
    r = knobspindle_clamp_mv(grid, (knobspindle_mv){1, 1}, 0, false, false);
    check("clamp, beside the frame: answer", r.answer, KNOBSPINDLE_GRID);
    check("clamp, beside the frame: row", r.mv.row, 0);
}

static void scale_mv(void)
{
    knobspindle_scale_geom geom = {.ref_frame_width = 640, .ref_frame_height = 720, .frame_width = 640, .frame_height = 360};
    knobspindle_scaled_mv r = knobspindle_scale_mv(geom, 0, 100, 50, (knobspindle_plane_mv){-5, 7});
    check("scale: answer", r.answer, KNOBSPINDLE_ACCEPTED);
    check("scale: start_x", r.start_x, 1607);
    check("scale: start_y", r.start_y, 1590);
    check("scale: step_x", r.step_x, 16);
    check("scale: step_y", r.step_y, 32);
    r = knobspindle_scale_mv(geom, 0, -1, 0, (knobspindle_plane_mv){0, 0});
    check("scale, x below 0: answer", r.answer, KNOBSPINDLE_START);
    check("scale, x below 0: step_x", r.step_x, 0);
    geom.frame_height = 359;
    r = knobspindle_scale_mv(geom, 0, 0, 0, (knobspindle_plane_mv){0, 0});
    check("scale, reference too large: answer", r.answer, KNOBSPINDLE_SIZE);
    static const int32_t last[2] = {65536, 65537};
    static const uint32_t answers[2] = {KNOBSPINDLE_ACCEPTED, KNOBSPINDLE_SIZE};
    for (int i = 0; i < 2; i++) {
        geom = (knobspindle_scale_geom){.ref_frame_width = last[i], .ref_frame_height = 1, .frame_width = last[i], .frame_height = 1};
        check("scale, 65536 and 65537 wide: answer", knobspindle_scale_mv(geom, 0, 0, 0, (knobspindle_plane_mv){0, 0}).answer, answers[i]);
    }
}

static void find_mv_refs(void)
{
    /* Two cells in a row; the block is the second, and its left neighbour alone is inside. Mode 13 is NEWMV, frame 1 the target. */
    static uint8_t modes[2] = {13, 0};
    static int8_t frames[4] = {1, 0, 0, 0};
    static const int16_t mvs[8] = {24, -40}, subs[32] = {24, -40, 24, -40, 24, -40, 24, -40};
    knobspindle_mv_ref_geometry g = {.mi_row = 0, .mi_col = 1, .mi_rows = 1, .mi_cols = 2, .mi_size = 3, .mi_col_end = 2};
    knobspindle_sign_bias bias = {{false, false, false, false}};
    knobspindle_mv_refs r = knobspindle_find_mv_refs(modes, 2, frames, 4, mvs, 8, subs, 32, NULL, 0, NULL, 0, g, 1, -1, bias, false);
    check("search: answer", r.answer, KNOBSPINDLE_ACCEPTED);
    check("search: first row", r.first.row, 24);
    check("search: first column", r.first.col, -40);
    check("search: second row", r.second.row, 0);
    check("search: context", r.context, 3); /* one NEWMV: counter 1, context NEW_PLUS_NON_INTRA */
    frames[0] = 2;
    bias.frame[2] = true;
    r = knobspindle_find_mv_refs(modes, 2, frames, 4, mvs, 8, subs, 32, NULL, 0, NULL, 0, g, 1, -1, bias, false);
    check("search, other side: first row", r.first.row, -24);
    r = knobspindle_find_mv_refs(modes, 2, frames, 4, mvs, 8, subs, 32, NULL, 0, NULL, 0, g, 1, -1, bias, true);
    check("search, no previous tables: answer", r.answer, KNOBSPINDLE_SHORT);
    modes[0] = 14;
    r = knobspindle_find_mv_refs(modes, 2, frames, 4, mvs, 8, subs, 32, NULL, 0, NULL, 0, g, 1, -1, bias, false);
    check("search, mode 14: answer", r.answer, KNOBSPINDLE_RECORD);
    r = knobspindle_find_mv_refs(modes, 2, frames, 4, mvs, 8, subs, 32, NULL, 0, NULL, 0, g, 0, -1, bias, false);
    check("search, target 0: answer", r.answer, KNOBSPINDLE_TARGET);
}

/* the context of a block whose neighbours above and on the left have these modes; their frames and vectors as a decoder would write them */
static knobspindle_mv_refs between(uint8_t above, uint8_t left, int8_t frame, int32_t target, int16_t unused)
{
    uint8_t modes[4] = {KNOBSPINDLE_MODE_DC, above, left, KNOBSPINDLE_MODE_DC};
    int8_t frames[8];
    int16_t mvs[16] = {0}, subs[64] = {0};
    for (int i = 0; i < 4; i++) {
        bool inter = modes[i] >= KNOBSPINDLE_MODE_NEAREST;
        frames[2 * i] = inter ? frame : KNOBSPINDLE_FRAME_INTRA;
        frames[2 * i + 1] = KNOBSPINDLE_FRAME_NONE;
        mvs[4 * i] = inter ? 16 : 0;
        for (int b = 0; b < 4; b++)
            subs[16 * i + 2 * b] = inter ? 16 : 0;
    }
    mvs[4 * 2 + 2] = unused; /* list 1 on the left */
    knobspindle_mv_ref_geometry g = {.mi_row = 1, .mi_col = 1, .mi_rows = 2, .mi_cols = 2, .mi_size = KNOBSPINDLE_BLOCK_8X8, .mi_col_end = 2};
    return knobspindle_find_mv_refs(modes, 4, frames, 8, mvs, 16, subs, 64, NULL, 0, NULL, 0, g, target, -1,
                                    (knobspindle_sign_bias){{false, false, false, false}}, false);
}

static void modes_and_frames(void)
{
    /* document 01: contexts of two modes; intra modes are alike, and so are nearest and near */
    enum { Z = KNOBSPINDLE_MODE_ZERO, NEW = KNOBSPINDLE_MODE_NEW, LAST = KNOBSPINDLE_FRAME_LAST };
    check("modes, zero and zero: context", between(Z, Z, LAST, LAST, 0).context, 0);
    check("modes, zero and new: context", between(Z, NEW, LAST, LAST, 0).context, 3);
    check("modes, new and new: context", between(NEW, NEW, LAST, LAST, 0).context, 4);
    for (uint8_t mode = KNOBSPINDLE_MODE_DC; mode <= KNOBSPINDLE_MODE_TM; mode++)
        check("modes, intra and new: context", between(mode, NEW, LAST, LAST, 0).context, 5);
    for (uint8_t mode = KNOBSPINDLE_MODE_NEAREST; mode <= KNOBSPINDLE_MODE_NEAR; mode++)
        check("modes, zero and nearest or near: context", between(Z, mode, LAST, LAST, 0).context, 1);
    /* the constants are the standard's numbers */
    static const int modes[14] = {KNOBSPINDLE_MODE_DC,   KNOBSPINDLE_MODE_V,    KNOBSPINDLE_MODE_H,       KNOBSPINDLE_MODE_D45,  KNOBSPINDLE_MODE_D135,
                                  KNOBSPINDLE_MODE_D117, KNOBSPINDLE_MODE_D153, KNOBSPINDLE_MODE_D207,    KNOBSPINDLE_MODE_D63,  KNOBSPINDLE_MODE_TM,
                                  KNOBSPINDLE_MODE_NEAREST, KNOBSPINDLE_MODE_NEAR, KNOBSPINDLE_MODE_ZERO, KNOBSPINDLE_MODE_NEW};
    for (int i = 0; i < 14; i++)
        check("modes: number", modes[i], i);

    static const int8_t targets[3] = {KNOBSPINDLE_FRAME_LAST, KNOBSPINDLE_FRAME_GOLDEN, KNOBSPINDLE_FRAME_ALTREF};
    for (int i = 0; i < 3; i++) {
        knobspindle_mv_refs r = between(Z, NEW, targets[i], targets[i], 0);
        check("frames, target: number", targets[i], i + 1);
        check("frames, target: answer", r.answer, KNOBSPINDLE_ACCEPTED);
        check("frames, target: first row", r.first.row, 16);
    }
    check("frames, intra as target: answer", between(Z, NEW, LAST, KNOBSPINDLE_FRAME_INTRA, 0).answer, KNOBSPINDLE_TARGET);
    check("frames, none as target: answer", between(Z, NEW, LAST, KNOBSPINDLE_FRAME_NONE, 0).answer, KNOBSPINDLE_TARGET);
    check("frames, rubbish in an unused list: answer", between(Z, NEW, LAST, LAST, -32768).answer, KNOBSPINDLE_RECORD);
}

/* what a size's name says, in cells, shows in how far the clamp lets a vector go: 4 samples and the block itself beyond the frame */
static void block_sizes(void)
{
    static const struct {
        uint8_t size;
        int32_t across, down;
    } table[13] = {
        {KNOBSPINDLE_BLOCK_4X4, 1, 1},   {KNOBSPINDLE_BLOCK_4X8, 1, 1},   {KNOBSPINDLE_BLOCK_8X4, 1, 1},   {KNOBSPINDLE_BLOCK_8X8, 1, 1},
        {KNOBSPINDLE_BLOCK_8X16, 1, 2},  {KNOBSPINDLE_BLOCK_16X8, 2, 1},  {KNOBSPINDLE_BLOCK_16X16, 2, 2}, {KNOBSPINDLE_BLOCK_16X32, 2, 4},
        {KNOBSPINDLE_BLOCK_32X16, 4, 2}, {KNOBSPINDLE_BLOCK_32X32, 4, 4}, {KNOBSPINDLE_BLOCK_32X64, 4, 8}, {KNOBSPINDLE_BLOCK_64X32, 8, 4},
        {KNOBSPINDLE_BLOCK_64X64, 8, 8},
    };
    for (int i = 0; i < 13; i++) {
        knobspindle_block_grid grid = {.mi_rows = 16, .mi_cols = 16, .mi_size = table[i].size};
        knobspindle_clamped_mv r = knobspindle_clamp_mv(grid, (knobspindle_mv){-32767, -32767}, 0, true, true);
        check("sizes: number", table[i].size, i);
        check("sizes: width", r.mv.col, -(4 + 8 * table[i].across) * 16);
        check("sizes: height", r.mv.row, -(4 + 8 * table[i].down) * 16);
    }
}

static void row_read(void)
{
    static const uint16_t upper[8], lower[7];
    knobspindle_plane_geom geom = {.width = 3, .height = 4, .stride = 4, .upper_rows = 2};
    knobspindle_row_place r = knobspindle_row_read(upper, 8, lower, 7, geom, 1);
    check("row read, above: answer", r.answer, KNOBSPINDLE_ACCEPTED);
    check("row read, above: band", r.band, 0);
    check("row read, above: first", r.first, 4);
    check("row read, above: samples", r.samples, 3);
    r = knobspindle_row_read(upper, 8, lower, 7, geom, 3);
    check("row read, below: band", r.band, 1);
    check("row read, below: first", r.first, 4);
    r = knobspindle_row_read(upper, 8, lower, 6, geom, 3);
    check("row read, lower band short: answer", r.answer, KNOBSPINDLE_SHORT);
    check("row read, lower band short: samples", r.samples, 0);
    r = knobspindle_row_read(upper, 8, lower, 7, geom, 4);
    check("row read, row 4 of 4: answer", r.answer, KNOBSPINDLE_START);
    geom.height = -1;
    r = knobspindle_row_read(upper, 8, lower, 7, geom, 0);
    check("row read, height -1: answer", r.answer, KNOBSPINDLE_SIZE);
}

static void block_inter_predict(void)
{
    /* document 01: bilinear, half a sample on, is the rounded mean; held at the right edge. Rows 0 and 1 above, row 2 below. */
    static const uint16_t upper[8] = {10, 20, 30, 99, 40, 50, 60, 99}, lower[3] = {70, 81, 255};
    static const uint16_t other[9] = {0, 0, 0, 0, 0, 0, 0, 0, 0};
    static uint16_t room[KNOBSPINDLE_ROOM];
    uint16_t out[10] = {1, 2, 3, 4, 5, 6, 7, 8, 9, 10};
    knobspindle_block_shape shape = {.w = 3, .h = 2, .filter = 3, .depth = 8, .average = false};
    knobspindle_plane_geom geom = {.width = 3, .height = 3, .stride = 4, .upper_rows = 2}, none = {0, 0, 0, 0};
    knobspindle_stepping from = {.start_x = 8, .start_y = 16, .step_x = 16, .step_y = 16}, nowhere = {0, 0, 0, 0};
    uint32_t answer = knobspindle_block_inter_predict(shape, geom, from, upper, 8, lower, 3, none, nowhere, NULL, 0, NULL, 0, room,
                                                      KNOBSPINDLE_ROOM, out, 10, 5);
    static const uint16_t want[10] = {45, 55, 60, 4, 5, 76, 168, 255, 9, 10};
    check("block: answer", answer, KNOBSPINDLE_ACCEPTED);
    for (int i = 0; i < 10; i++)
        check("block: sample", out[i], want[i]);
    /* averaged with a plane of zeros, one row of it above: (45 + 0 + 1) / 2 */
    shape.average = true;
    knobspindle_plane_geom geom2 = {.width = 3, .height = 3, .stride = 3, .upper_rows = 1};
    answer = knobspindle_block_inter_predict(shape, geom, from, upper, 8, lower, 3, geom2, from, other, 3, other + 3, 6, room,
                                             KNOBSPINDLE_ROOM, out, 10, 5);
    check("block, averaged: answer", answer, KNOBSPINDLE_ACCEPTED);
    check("block, averaged: first", out[0], 23);
    check("block, averaged: last", out[7], 128);
    check("block, averaged: between", out[3], 4);
    answer = knobspindle_block_inter_predict(shape, geom, from, upper, 8, lower, 2, geom2, from, other, 3, other + 3, 6, room,
                                             KNOBSPINDLE_ROOM, out, 10, 5);
    check("block, lower band short: answer", answer, KNOBSPINDLE_SHORT);
    check("block, lower band short: first", out[0], 23);
    shape.depth = 9;
    answer = knobspindle_block_inter_predict(shape, geom, from, upper, 8, lower, 2, geom2, from, other, 3, other + 3, 6, room,
                                             KNOBSPINDLE_ROOM, out, 10, 5);
    check("block, depth 9: answer", answer, KNOBSPINDLE_FILTER);
}

/* the last stride and the last width that are taken, and the next ones */
static void far_ends(void)
{
    static const uint16_t plane[65537] = {5};
    static uint16_t room[KNOBSPINDLE_ROOM];
    uint16_t out[1] = {0};
    knobspindle_block_shape shape = {.w = 1, .h = 1, .filter = 0, .depth = 8, .average = false};
    knobspindle_stepping from = {.start_x = 0, .start_y = 0, .step_x = 16, .step_y = 16}, nowhere = {0, 0, 0, 0};
    static const struct {
        int32_t width;
        size_t stride, out_stride;
        uint32_t answer;
    } table[] = {
        {1, 131072, 131072, KNOBSPINDLE_ACCEPTED}, {1, 131073, 131072, KNOBSPINDLE_SHORT},  {1, 131072, 131073, KNOBSPINDLE_SHORT},
        {65536, 65536, 1, KNOBSPINDLE_ACCEPTED},   {65537, 65537, 1, KNOBSPINDLE_SIZE},
    };
    for (size_t i = 0; i < sizeof table / sizeof *table; i++) {
        knobspindle_plane_geom geom = {.width = table[i].width, .height = 1, .stride = table[i].stride, .upper_rows = 1}, none = {0, 0, 0, 0};
        out[0] = 0;
        uint32_t answer = knobspindle_block_inter_predict(shape, geom, from, plane, 65537, NULL, 0, none, nowhere, NULL, 0, NULL, 0, room,
                                                          KNOBSPINDLE_ROOM, out, 1, table[i].out_stride);
        check("block, far ends: answer", answer, table[i].answer);
        check("block, far ends: sample", out[0], table[i].answer == KNOBSPINDLE_ACCEPTED ? 5 : 0);
    }
}

/* each filter by its name: a lone sample, half a sample on, shows the taps of phase 8 one by one, the last first */
static void filters(void)
{
    static const struct {
        size_t filter;
        int taps[8];
    } table[4] = {
        {KNOBSPINDLE_FILTER_REGULAR, {-1, 6, -19, 78, 78, -19, 6, -1}},
        {KNOBSPINDLE_FILTER_SMOOTH, {-1, -4, 14, 55, 55, 14, -4, -1}},
        {KNOBSPINDLE_FILTER_SHARP, {-4, 11, -23, 80, 80, -23, 11, -4}},
        {KNOBSPINDLE_FILTER_BILINEAR, {0, 0, 0, 64, 64, 0, 0, 0}},
    };
    static uint16_t row[16], room[KNOBSPINDLE_ROOM], out[16];
    for (int i = 0; i < 16; i++)
        row[i] = i == 8 ? 192 : 64;
    knobspindle_plane_geom geom = {.width = 16, .height = 1, .stride = 16, .upper_rows = 1}, none = {0, 0, 0, 0};
    knobspindle_stepping from = {.start_x = 8, .start_y = 0, .step_x = 16, .step_y = 16}, nowhere = {0, 0, 0, 0};
    for (int i = 0; i < 4; i++) {
        knobspindle_block_shape shape = {.w = 16, .h = 1, .filter = table[i].filter, .depth = 8, .average = false};
        uint32_t answer = knobspindle_block_inter_predict(shape, geom, from, row, 16, NULL, 0, none, nowhere, NULL, 0, NULL, 0, room,
                                                          KNOBSPINDLE_ROOM, out, 16, 16);
        check("filters: answer", answer, KNOBSPINDLE_ACCEPTED);
        for (int t = 0; t < 8; t++)
            check("filters: tap", out[11 - t] - 64, table[i].taps[t]);
    }
}

/* a frame of one cell, 8 by 8, as the whole prediction wants it; sample (row r, column c) of its reference is 10c + r */
static uint16_t tens[64], nothing[64], room[KNOBSPINDLE_ROOM], dest[64];

static uint32_t whole(knobspindle_inter_pred_args args, knobspindle_block_mvs mvs, size_t lower_len, knobspindle_dest_geom size)
{
    knobspindle_block_grid grid = {.mi_rows = 1, .mi_cols = 1, .mi_size = 3};
    knobspindle_frame_geom frame = {.width = 8, .height = 8, .subsampling_x = true, .subsampling_y = true};
    size_t w = args.plane == 0 ? 8 : 4;
    knobspindle_ref_geom geom = {.frame_width = 8, .frame_height = 8, .stride = w, .upper_rows = 3}, second = geom;
    second.upper_rows = w; /* all of it above */
    for (size_t i = 0; i < 64; i++)
        tens[i] = (uint16_t)(i % w * 10 + i / w), dest[i] = 999;
    return knobspindle_predict_inter(args, grid, frame, mvs, geom, tens, 3 * w, tens + 3 * w, lower_len, second, nothing, w * w, NULL, 0, room,
                                     KNOBSPINDLE_ROOM, dest, size.width * size.height, size);
}

static void predict_inter(void)
{
    knobspindle_inter_pred_args args = {.plane = 0, .x = 5, .y = 2, .w = 3, .h = 4, .block = 0, .filter = 3, .depth = 8, .average = false};
    knobspindle_block_mvs half = {.list0 = {{0, 4}, {0, 4}, {0, 4}, {0, 4}}, .list1 = {{0, 4}, {0, 4}, {0, 4}, {0, 4}}};
    knobspindle_dest_geom size = {8, 4};
    /* half a sample to the right by the bilinear filter, held at the edge; rows 4 and 5 are beyond the destination */
    check("whole: answer", whole(args, half, 40, size), KNOBSPINDLE_ACCEPTED);
    static const uint16_t want[3] = {55 + 2, 65 + 2, 70 + 2};
    for (size_t i = 0; i < 64; i++)
        check("whole: sample", dest[i], i >= 2 * 8 + 5 && i < 4 * 8 && i % 8 >= 5 ? want[i % 8 - 5] + (i >= 24) : 999);
    args.average = true;
    check("whole, averaged: answer", whole(args, half, 40, size), KNOBSPINDLE_ACCEPTED);
    check("whole, averaged: first", dest[21], (57 + 0 + 1) / 2);
    args.average = false;
    /* chroma: four eighths of a luma sample are a quarter of one of its own, (96 x 0 + 32 x 10 + 64) / 128 */
    args = (knobspindle_inter_pred_args){.plane = 1, .x = 0, .y = 0, .w = 4, .h = 4, .filter = 3, .depth = 8};
    size = (knobspindle_dest_geom){4, 4};
    check("whole, chroma: answer", whole(args, half, 4, size), KNOBSPINDLE_ACCEPTED);
    check("whole, chroma: first", dest[0], 3);
    check("whole, chroma: last", dest[15], 33);
    args.x = 4;
    check("whole, beyond the destination: answer", whole(args, half, 4, size), KNOBSPINDLE_ACCEPTED);
    check("whole, beyond the destination: first", dest[0], 999);
    args.x = 0;
    check("whole, lower band short: answer", whole(args, half, 3, size), KNOBSPINDLE_SHORT);
    check("whole, lower band short: first", dest[0], 999);
    half.list1[0].col = 32768; /* of list 1 nothing is judged without averaging */
    check("whole, list 1 not used: answer", whole(args, half, 4, size), KNOBSPINDLE_ACCEPTED);
    args.average = true;
    check("whole, list 1 out of range: answer", whole(args, half, 4, size), KNOBSPINDLE_VECTOR);
    args.block = 4;
    check("whole, sub-block 4: answer", whole(args, half, 3, size), KNOBSPINDLE_BLOCK);
}

/* docs/HOST.md, 'Two sizes': a frame of 35 by 21 in 4:2:0. Sample (row r, column c) of a reference is 4c + r; the block is the last cell, zero vector. */
static void two_sizes(void)
{
    static const struct {
        size_t plane, width, height, across, down; /* visible and decoded */
    } table[2] = {{0, 35, 21, 40, 24}, {1, 18, 11, 20, 12}};
    static uint16_t reference[35 * 21], out[40 * 24];
    knobspindle_block_grid grid = {.mi_row = 2, .mi_col = 4, .mi_rows = 3, .mi_cols = 5, .mi_size = KNOBSPINDLE_BLOCK_8X8};
    knobspindle_frame_geom frame = {.width = 35, .height = 21, .subsampling_x = true, .subsampling_y = true};
    knobspindle_block_mvs still = {.list0 = {{0, 0}}};
    for (int i = 0; i < 2; i++) {
        size_t width = table[i].width, n = width * table[i].height, across = table[i].across, last = across * table[i].down - 1, cell = 8 >> i;
        knobspindle_inter_pred_args args = {.plane = table[i].plane, .x = (int32_t)(4 * cell), .y = (int32_t)(2 * cell), .w = cell, .h = cell, .depth = 8};
        knobspindle_ref_geom geom = {.frame_width = 35, .frame_height = 21, .stride = width, .upper_rows = table[i].height}, none = {0, 0, 0, 0};
        knobspindle_dest_geom decoded = {across, table[i].down}, visible = {width, table[i].height};
        for (size_t k = 0; k < n; k++)
            reference[k] = (uint16_t)(4 * (k % width) + k / width);
        for (size_t k = 0; k <= last; k++)
            out[k] = 999;
        uint32_t answer = knobspindle_predict_inter(args, grid, frame, still, geom, reference, n, NULL, 0, none, NULL, 0, NULL, 0, room,
                                                    KNOBSPINDLE_ROOM, out, last + 1, decoded);
        check("two sizes: answer", answer, KNOBSPINDLE_ACCEPTED);
        check("two sizes: the block's first", out[2 * cell * across + 4 * cell], (long long)(16 * cell + 2 * cell));
        check("two sizes: before it", out[2 * cell * across + 4 * cell - 1], 999);
        check("two sizes: last of all, held at the visible edge", out[last], (long long)(4 * (width - 1) + table[i].height - 1));
        answer = knobspindle_predict_inter(args, grid, frame, still, geom, reference, n - 1, NULL, 0, none, NULL, 0, NULL, 0, room,
                                           KNOBSPINDLE_ROOM, out, last + 1, decoded);
        check("two sizes, a sample of the visible size missing: answer", answer, KNOBSPINDLE_SHORT);
        out[last] = 999;
        answer = knobspindle_predict_inter(args, grid, frame, still, geom, reference, n, NULL, 0, none, NULL, 0, NULL, 0, room,
                                           KNOBSPINDLE_ROOM, out, n, visible);
        check("two sizes, a destination of the visible size: answer", answer, KNOBSPINDLE_ACCEPTED);
        check("two sizes, a destination of the visible size: last of all", out[last], 999);
    }
}

/* a block of 13 by 9 samples cut into three rectangles, and its plane of 16 by 16 parted at every row: the samples of the uncut block */
static void cut(void)
{
    static const size_t parts[3][4] = {{5, 4, 8, 5}, {0, 0, 5, 9}, {5, 0, 8, 4}}; /* x, y, w, h */
    static uint16_t plane[256], uncut[13 * 9], pieces[13 * 9];
    for (size_t i = 0; i < 256; i++)
        plane[i] = (uint16_t)((i * 37 + 11) % 251);
    knobspindle_plane_geom geom = {.width = 16, .height = 16, .stride = 16, .upper_rows = 16}, none = {0, 0, 0, 0};
    knobspindle_stepping from = {.start_x = -37, .start_y = 205, .step_x = 20, .step_y = 13}, nowhere = {0, 0, 0, 0};
    knobspindle_block_shape shape = {.w = 13, .h = 9, .filter = 2, .depth = 8, .average = false};
    uint32_t answer = knobspindle_block_inter_predict(shape, geom, from, plane, 256, NULL, 0, none, nowhere, NULL, 0, NULL, 0, room,
                                                      KNOBSPINDLE_ROOM, uncut, 13 * 9, 13);
    check("uncut: answer", answer, KNOBSPINDLE_ACCEPTED);
    for (size_t above = 0; above <= 16; above++) {
        size_t differ = 0;
        geom.upper_rows = above;
        for (size_t k = 0; k < 3; k++) {
            size_t x = parts[k][0], y = parts[k][1], first = y * 13 + x;
            shape.w = parts[k][2], shape.h = parts[k][3];
            knobspindle_stepping there = {from.start_x + 20 * (int32_t)x, from.start_y + 13 * (int32_t)y, 20, 13};
            answer |= knobspindle_block_inter_predict(shape, geom, there, plane, above * 16, plane + above * 16, 256 - above * 16, none, nowhere,
                                                      NULL, 0, NULL, 0, room, KNOBSPINDLE_ROOM, pieces + first, 13 * 9 - first, 13);
        }
        for (size_t i = 0; i < 13 * 9; i++)
            differ += pieces[i] != uncut[i], pieces[i] = 0;
        check("cut: samples that differ", (long long)differ, 0);
    }
    check("cut: answers", answer, KNOBSPINDLE_ACCEPTED);
}

static void check_reach(const char *what, knobspindle_reach r, uint32_t answer, size_t first_col, size_t last_col, size_t first_row, size_t last_row)
{
    const struct {
        const char *of;
        size_t got, want;
    } five[5] = {
        {"answer", r.answer, answer},
        {"first column", r.first_col, first_col},
        {"last column", r.last_col, last_col},
        {"first row", r.first_row, first_row},
        {"last row", r.last_row, last_row},
    };
    char name[160];
    for (int i = 0; i < 5; i++) {
        snprintf(name, sizeof name, "%s: %s", what, five[i].of);
        check(name, (long long)five[i].got, (long long)five[i].want);
    }
}

/* document 02, Req 11: columns floor(start_x / 16) - 3 to floor((start_x + step_x x (w - 1)) / 16) + 4, rows alike, each end held into the plane */
static void block_reach(void)
{
    static const struct {
        const char *what;
        size_t w, h;
        int32_t width, height;
        knobspindle_stepping from;
        size_t first_col, last_col, first_row, last_row;
    } table[] = {
        {"reach, inside", 8, 4, 100, 80, {320, 488, 16, 16}, 17, 31, 27, 37}, /* 20 to 27 and 30.5 to 33.5 */
        {"reach, rounded down below zero", 3, 1, 100, 80, {-37, -21, 16, 16}, 0, 3, 0, 2}, /* -5 / 16 is -1, -21 / 16 is -2 */
        {"reach, left of the plane and below it", 8, 8, 100, 80, {-200, 1440, 16, 16}, 0, 0, 79, 79},
        {"reach, right of the plane and above it", 8, 1, 100, 80, {1760, -100, 16, 16}, 99, 99, 0, 0},
        {"reach, the last that is held at 0 and the next", 1, 1, 100, 80, {-49, -48, 16, 16}, 0, 0, 0, 1},
        {"reach, the first that is held at the end and the one before", 1, 1, 100, 80, {1632, 1311, 16, 16}, 99, 99, 78, 79},
        {"reach, steps of 32 and 5", 64, 64, 200, 100, {7, 1000, 32, 5}, 0, 130, 59, 86}, /* to 2023 / 16; from 1000 / 16 to 1315 / 16 */
        {"reach, steps of 1", 64, 64, 100, 80, {160, 163, 1, 1}, 7, 17, 7, 18}, /* to 223 / 16 and 226 / 16 */
        {"reach, far starts", 64, 64, 65536, 65536, {-3000000, 3000000, 32, 32}, 0, 0, 65535, 65535},
        {"reach, one row", 1, 64, 65536, 1, {1040000, 0, 16, 16}, 64997, 65004, 0, 0},
    };
    for (size_t i = 0; i < sizeof table / sizeof *table; i++)
        check_reach(table[i].what, knobspindle_block_reach(table[i].w, table[i].h, table[i].width, table[i].height, table[i].from),
                    KNOBSPINDLE_ACCEPTED, table[i].first_col, table[i].last_col, table[i].first_row, table[i].last_row);

    /* the table's first call, with each of its numbers one below what is taken, at either end of it and one above */
    static const struct {
        long long low, high;
        uint32_t answer;
    } limits[8] = {
        {1, 64, KNOBSPINDLE_BLOCK},             {1, 64, KNOBSPINDLE_BLOCK},             {1, 65536, KNOBSPINDLE_SIZE}, {1, 65536, KNOBSPINDLE_SIZE},
        {-3000000, 3000000, KNOBSPINDLE_START}, {-3000000, 3000000, KNOBSPINDLE_START}, {1, 32, KNOBSPINDLE_START},   {1, 32, KNOBSPINDLE_START},
    };
    for (int i = 0; i < 8; i++) {
        const long long values[4] = {limits[i].low - 1, limits[i].low, limits[i].high, limits[i].high + 1};
        for (int k = 0; k < 4; k++) {
            long long n[8] = {8, 4, 100, 80, 320, 488, 16, 16};
            n[i] = values[k];
            knobspindle_stepping from = {(int32_t)n[4], (int32_t)n[5], (int32_t)n[6], (int32_t)n[7]};
            knobspindle_reach r = knobspindle_block_reach((size_t)n[0], (size_t)n[1], (int32_t)n[2], (int32_t)n[3], from);
            if (k == 1 || k == 2)
                check("reach, at an end: answer", r.answer, KNOBSPINDLE_ACCEPTED);
            else
                check_reach("reach, beyond an end", r, limits[i].answer, 0, 0, 0, 0);
        }
    }
    knobspindle_stepping wrong = {.start_x = 320, .start_y = 488, .step_x = 16, .step_y = 33};
    check_reach("reach, three wrong", knobspindle_block_reach(8, 65, 0, 80, wrong), KNOBSPINDLE_BLOCK, 0, 0, 0, 0);
    check_reach("reach, two wrong", knobspindle_block_reach(8, 64, 0, 80, wrong), KNOBSPINDLE_SIZE, 0, 0, 0, 0);
}

/* what the whole prediction's reach is asked with */
struct asked {
    knobspindle_inter_pred_args args;
    knobspindle_block_grid grid;
    knobspindle_frame_geom frame;
    knobspindle_block_mvs mvs;
    bool second;
    int32_t ref_width, ref_height;
};

static knobspindle_reach ask(struct asked a)
{
    return knobspindle_inter_reach(a.args, a.grid, a.frame, a.mvs, a.second, a.ref_width, a.ref_height);
}

/* a block of 16 by 16 of a frame of 67 by 45 in 4:2:0, which has 9 by 6 cells; list 0 leads 5/8 up and 9/8 to the right, list 1 two down, three left */
static const struct asked block16 = {
    .args = {.plane = 0, .x = 32, .y = 16, .w = 16, .h = 16, .depth = 8},
    .grid = {.mi_row = 2, .mi_col = 4, .mi_rows = 6, .mi_cols = 9, .mi_size = KNOBSPINDLE_BLOCK_16X16},
    .frame = {.width = 67, .height = 45, .subsampling_x = true, .subsampling_y = true},
    .mvs = {.list0 = {{-5, 9}, {-5, 9}, {-5, 9}, {-5, 9}}, .list1 = {{16, -24}, {16, -24}, {16, -24}, {16, -24}}},
    .ref_width = 67,
    .ref_height = 45,
};

static void inter_reach(void)
{
    struct asked a = block16;
    check_reach("whole reach", ask(a), KNOBSPINDLE_ACCEPTED, 30, 52, 12, 34); /* from 33.125 to 48.125, from 15.375 to 30.375 */
    a.second = true;
    check_reach("whole reach, list 1", ask(a), KNOBSPINDLE_ACCEPTED, 26, 48, 15, 37);
    a = block16;
    a.ref_width = 134, a.ref_height = 90; /* starts 1060 and 492, steps 32 */
    check_reach("whole reach, scaled by two", ask(a), KNOBSPINDLE_ACCEPTED, 63, 100, 27, 64);
    a.ref_width = 67, a.ref_height = 23; /* scale 8374 / 16384 down: 8 x 16 - 6 + 2 is 124, step 8 */
    check_reach("whole reach, scaled by about a half", ask(a), KNOBSPINDLE_ACCEPTED, 30, 52, 4, 19);
    a = block16;
    for (int b = 0; b < 4; b++) /* clamped: the block's last row is 5 above the frame, its first column 75 */
        a.mvs.list0[b] = (knobspindle_mv){-32767, 32767};
    check_reach("whole reach, clamped", ask(a), KNOBSPINDLE_ACCEPTED, 66, 66, 0, 0);

    /* chroma is 34 by 23: half of an odd size, rounded up */
    a = block16;
    a.args.plane = 1, a.args.x = 16, a.args.y = 8, a.args.w = 8, a.args.h = 8;
    check_reach("whole reach, chroma", ask(a), KNOBSPINDLE_ACCEPTED, 13, 27, 4, 18); /* from 265 / 16 to 377 / 16, from 123 / 16 to 235 / 16 */
    a.args.plane = 2, a.args.x = 32, a.args.y = 16;
    a.grid.mi_row = 4, a.grid.mi_col = 8;
    memset(&a.mvs, 0, sizeof a.mvs);
    check_reach("whole reach, chroma of an odd size", ask(a), KNOBSPINDLE_ACCEPTED, 29, 33, 13, 22);
    a = block16;
    a.args.plane = 1, a.args.x = 16, a.args.y = 8, a.args.w = 4, a.args.h = 4;
    a.grid.mi_size = KNOBSPINDLE_BLOCK_4X4;
    memset(&a.mvs, 0, sizeof a.mvs);
    a.mvs.list0[3].col = 64; /* the mean of the four is 16: a sample of chroma */
    check_reach("whole reach, chroma below 8x8", ask(a), KNOBSPINDLE_ACCEPTED, 14, 24, 5, 15);

    /* the last block leaves the destination, 72 by 48: it is asked with 8 by 8, its part inside; the vector leads 20 up and 40 to the left */
    a = block16;
    a.args.x = 64, a.args.y = 40;
    a.grid.mi_row = 5, a.grid.mi_col = 8;
    for (int b = 0; b < 4; b++)
        a.mvs.list0[b] = (knobspindle_mv){-160, -320};
    check_reach("whole reach, all of the block", ask(a), KNOBSPINDLE_ACCEPTED, 21, 43, 17, 39);
    a.args.w = 8, a.args.h = 8;
    check_reach("whole reach, the part inside", ask(a), KNOBSPINDLE_ACCEPTED, 21, 35, 17, 31);

    /* neither filter, depth and averaging nor the other list is looked at */
    a = block16;
    a.args.filter = 4, a.args.depth = 9, a.args.average = true;
    a.mvs.list1[2].row = -32768;
    check_reach("whole reach, not looked at", ask(a), KNOBSPINDLE_ACCEPTED, 30, 52, 12, 34);
    a.second = true;
    check_reach("whole reach, list 1 out of range", ask(a), KNOBSPINDLE_VECTOR, 0, 0, 0, 0);
    a.mvs.list1[2].row = 16, a.mvs.list0[0].col = 32768;
    check_reach("whole reach, list 0 not looked at", ask(a), KNOBSPINDLE_ACCEPTED, 26, 48, 15, 37);
    a.second = false;
    check_reach("whole reach, list 0 out of range", ask(a), KNOBSPINDLE_VECTOR, 0, 0, 0, 0);
}

/* one change of block16, and the number that comes back; refused, zeros beside it */
static void changed(const char *what, struct asked a, uint32_t answer)
{
    knobspindle_reach r = ask(a);
    if (answer == KNOBSPINDLE_ACCEPTED)
        check(what, r.answer, KNOBSPINDLE_ACCEPTED);
    else
        check_reach(what, r, answer, 0, 0, 0, 0);
}

static void inter_reach_refusals(void)
{
#define CHANGED(change, number)                                    \
    do {                                                           \
        struct asked a = block16;                                  \
        change;                                                    \
        changed("whole reach, " #change, a, KNOBSPINDLE_##number); \
    } while (0)
    CHANGED(a.grid.mi_size = 12, ACCEPTED);
    CHANGED(a.grid.mi_size = 13, BLOCK);
    CHANGED(a.args.block = 3, ACCEPTED);
    CHANGED(a.args.block = 4, BLOCK);
    CHANGED(a.args.plane = 2, ACCEPTED);
    CHANGED(a.args.plane = 3, BLOCK);
    CHANGED(a.args.w = 0, BLOCK);
    CHANGED(a.args.w = 1, ACCEPTED);
    CHANGED(a.args.w = 64, ACCEPTED);
    CHANGED(a.args.w = 65, BLOCK);
    CHANGED(a.args.h = 0, BLOCK);
    CHANGED(a.args.h = 1, ACCEPTED);
    CHANGED(a.args.h = 64, ACCEPTED);
    CHANGED(a.args.h = 65, BLOCK);
    CHANGED((a.args.plane = 1, a.args.block = 1, a.grid.mi_size = 0, a.frame.subsampling_x = false), ACCEPTED); /* 4:4:0: 1 and 3, but no 2 and 4 */
    CHANGED((a.args.plane = 1, a.args.block = 2, a.grid.mi_size = 0, a.frame.subsampling_x = false), BLOCK);
    CHANGED(a.grid.mi_row = -1, GRID);
    CHANGED(a.grid.mi_row = 0, ACCEPTED);
    CHANGED(a.grid.mi_row = 5, ACCEPTED);
    CHANGED(a.grid.mi_row = 6, GRID);
    CHANGED(a.grid.mi_col = -1, GRID);
    CHANGED(a.grid.mi_col = 0, ACCEPTED);
    CHANGED(a.grid.mi_col = 8, ACCEPTED);
    CHANGED(a.grid.mi_col = 9, GRID);
    CHANGED((a.grid.mi_row = 0, a.grid.mi_rows = 0), GRID);
    CHANGED((a.grid.mi_row = 0, a.grid.mi_rows = 1), ACCEPTED);
    CHANGED(a.grid.mi_rows = 8192, ACCEPTED);
    CHANGED(a.grid.mi_rows = 8193, GRID);
    CHANGED((a.grid.mi_col = 0, a.grid.mi_cols = 0), GRID);
    CHANGED((a.grid.mi_col = 0, a.grid.mi_cols = 1), ACCEPTED);
    CHANGED(a.grid.mi_cols = 8192, ACCEPTED);
    CHANGED(a.grid.mi_cols = 8193, GRID);
    CHANGED(a.ref_width = 134, ACCEPTED); /* twice the frame, and a sixteenth of it rounded up */
    CHANGED(a.ref_width = 135, SIZE);
    CHANGED(a.ref_width = 5, ACCEPTED);
    CHANGED(a.ref_width = 4, SIZE);
    CHANGED(a.ref_height = 90, ACCEPTED);
    CHANGED(a.ref_height = 91, SIZE);
    CHANGED(a.ref_height = 3, ACCEPTED);
    CHANGED(a.ref_height = 2, SIZE);
    CHANGED((a.frame.width = a.ref_width = 0), SIZE);
    CHANGED((a.frame.width = a.ref_width = 1), ACCEPTED);
    CHANGED((a.frame.width = a.ref_width = 65536), ACCEPTED);
    CHANGED((a.frame.width = a.ref_width = 65537), SIZE);
    CHANGED((a.frame.height = a.ref_height = 0), SIZE);
    CHANGED((a.frame.height = a.ref_height = 1), ACCEPTED);
    CHANGED((a.frame.height = a.ref_height = 65536), ACCEPTED);
    CHANGED((a.frame.height = a.ref_height = 65537), SIZE);
    CHANGED(a.args.x = -1, START);
    CHANGED(a.args.x = 0, ACCEPTED);
    CHANGED(a.args.x = 65535, ACCEPTED);
    CHANGED(a.args.x = 65536, START);
    CHANGED(a.args.y = -1, START);
    CHANGED(a.args.y = 0, ACCEPTED);
    CHANGED(a.args.y = 65535, ACCEPTED);
    CHANGED(a.args.y = 65536, START);
    CHANGED(a.mvs.list0[3].row = 32767, ACCEPTED);
    CHANGED(a.mvs.list0[3].row = 32768, VECTOR);
    CHANGED(a.mvs.list0[0].col = -32767, ACCEPTED);
    CHANGED(a.mvs.list0[0].col = -32768, VECTOR);
    CHANGED((a.args.w = 65, a.grid.mi_row = 6, a.ref_width = 135, a.args.x = -1, a.mvs.list0[0].col = 32768), BLOCK);
    CHANGED((a.grid.mi_row = 6, a.ref_width = 135, a.args.x = -1, a.mvs.list0[0].col = 32768), GRID);
    CHANGED((a.ref_width = 135, a.args.x = -1, a.mvs.list0[0].col = 32768), SIZE);
    CHANGED((a.args.x = -1, a.mvs.list0[0].col = 32768), START);
#undef CHANGED
}

/* How many samples of a block of 13 by 9 change if of a plane of 40 by 36 only a rectangle is kept: what stands elsewhere, between the rows and at the
 * bands' ends too, is turned round or, where wild, far above the depth. */
static size_t differing(knobspindle_stepping from, size_t filter, bool average, bool wild, knobspindle_reach keep)
{
    enum { WIDTH = 40, HEIGHT = 36, STRIDE = 45, ALL = HEIGHT * STRIDE, BLOCK = 13 * 9 };
    static uint16_t plane[ALL], part[ALL], want[BLOCK], got[BLOCK];
    size_t differ = 0;
    for (size_t i = 0; i < ALL; i++) {
        size_t row = i / STRIDE, col = i % STRIDE;
        plane[i] = (uint16_t)((i * 37 + i / 7 * 11) % 251);
        if (row >= keep.first_row && row <= keep.last_row && col >= keep.first_col && col <= keep.last_col)
            part[i] = plane[i];
        else
            part[i] = wild ? 65535 : 255 - plane[i];
    }
    knobspindle_block_shape shape = {.w = 13, .h = 9, .filter = filter, .depth = 8, .average = average};
    for (size_t above = 0; above <= HEIGHT; above += 12) {
        knobspindle_plane_geom geom = {.width = WIDTH, .height = HEIGHT, .stride = STRIDE, .upper_rows = above};
        size_t n = above * STRIDE;
        uint32_t answer = knobspindle_block_inter_predict(shape, geom, from, plane, n, plane + n, ALL - n, geom, from, plane, n, plane + n, ALL - n,
                                                          room, KNOBSPINDLE_ROOM, want, BLOCK, 13);
        answer |= knobspindle_block_inter_predict(shape, geom, from, part, n, part + n, ALL - n, geom, from, part, n, part + n, ALL - n, room,
                                                  KNOBSPINDLE_ROOM, got, BLOCK, 13);
        check("kept: answers", answer, KNOBSPINDLE_ACCEPTED);
        for (size_t i = 0; i < BLOCK; i++)
            differ += got[i] != want[i];
    }
    return differ;
}

/* What a block reaches is enough of a plane. A line less is too little: the sharp filter's first and last taps are not zero at the ends of these blocks. */
static void kept(void)
{
    static const knobspindle_stepping from[] = {
        {200, 150, 16, 16}, {197, 155, 16, 16}, {203, 149, 16, 16}, {101, 70, 20, 13},   {7, 3, 32, 32},
        {215, 311, 1, 3},   {-37, 205, 20, 13}, {500, 460, 31, 9},  {-300, -90, 16, 16}, {700, -500, 16, 16},
    };
    for (size_t i = 0; i < sizeof from / sizeof *from; i++)
        for (int wild = 0; wild < 2; wild++) {
            knobspindle_reach r = knobspindle_block_reach(13, 9, 40, 36, from[i]);
            check("kept: answer", r.answer, KNOBSPINDLE_ACCEPTED);
            for (size_t filter = 0; filter < 4; filter++)
                check("kept: samples that differ", (long long)differing(from[i], filter, filter % 2, wild, r), 0);
            if (r.first_col == r.last_col || r.first_row == r.last_row)
                continue;
            knobspindle_reach less[4] = {r, r, r, r};
            less[0].first_col++, less[1].last_col--, less[2].first_row++, less[3].last_row--;
            for (int side = 0; side < 4; side++)
                check("kept, a line less: some differ", differing(from[i], KNOBSPINDLE_FILTER_SHARP, false, wild, less[side]) != 0, true);
        }
}

/* docs/HOST.md, 'Waiting for rows': a host that decodes two references row by row, no further than the next block reaches, and releases the rows that no
 * block to come reaches. What is not finished is zero, what was released is far above the depth. */
struct rows {
    int32_t frame_width, frame_height;
    size_t width, height, finished, released; /* of the plane: rows released to finished - 1 are there */
    uint16_t complete[55 * 80], there[55 * 80];
};

struct job {
    knobspindle_inter_pred_args args;
    knobspindle_block_grid grid;
    knobspindle_block_mvs mvs;
    struct rows *from[2]; /* by lists; the second only where averaged */
    knobspindle_reach reach[2];
};

enum lending { COMPLETE, AS_IT_IS, FINISHED_ALONE, UNRELEASED_ALONE }; /* the last two have the rest from elsewhere */

static const knobspindle_frame_geom odd_frame = {.width = 37, .height = 53, .subsampling_x = true, .subsampling_y = true};

static void finish(struct rows *r, size_t last)
{
    for (; r->finished <= last; r->finished++)
        memcpy(r->there + r->finished * r->width, r->complete + r->finished * r->width, r->width * sizeof *r->there);
}

static void release(struct rows *r, size_t before)
{
    for (; r->released < before && r->released < r->finished; r->released++)
        memset(r->there + r->released * r->width, 0xff, r->width * sizeof *r->there);
}

static void predict_job(const struct job *j, enum lending how, uint16_t *out)
{
    static const uint16_t elsewhere[55 * 80]; /* for rows that make no difference: any memory of their length */
    knobspindle_dest_geom decoded = j->args.plane == 0 ? (knobspindle_dest_geom){40, 56} : (knobspindle_dest_geom){20, 28};
    knobspindle_ref_geom geom[2] = {{0, 0, 0, 0}, {0, 0, 0, 0}};
    const uint16_t *upper[2] = {NULL, NULL}, *lower[2] = {NULL, NULL};
    size_t upper_len[2] = {0, 0}, lower_len[2] = {0, 0};
    for (int l = 0; l < 2 && j->from[l] != NULL; l++) {
        const struct rows *r = j->from[l];
        size_t above = how == FINISHED_ALONE ? j->reach[l].last_row + 1 : how == UNRELEASED_ALONE ? j->reach[l].first_row : r->height;
        geom[l] = (knobspindle_ref_geom){.frame_width = r->frame_width, .frame_height = r->frame_height, .stride = r->width, .upper_rows = above};
        upper[l] = how == COMPLETE ? r->complete : how == UNRELEASED_ALONE ? elsewhere : r->there;
        lower[l] = how == UNRELEASED_ALONE ? r->there + above * r->width : elsewhere;
        upper_len[l] = above * r->width, lower_len[l] = (r->height - above) * r->width;
    }
    uint32_t answer = knobspindle_predict_inter(j->args, j->grid, odd_frame, j->mvs, geom[0], upper[0], upper_len[0], lower[0], lower_len[0], geom[1],
                                                upper[1], upper_len[1], lower[1], lower_len[1], room, KNOBSPINDLE_ROOM, out,
                                                decoded.width * decoded.height, decoded);
    check("waiting, a block: answer", answer, KNOBSPINDLE_ACCEPTED);
}

/* How many samples are not those from complete references. The host takes first rows to be so many lower and last rows so many higher than it was told;
 * most is how many rows of the first reference's luma were there at once. */
static size_t waiting(enum lending how, size_t lower, size_t higher, size_t *most)
{
    static const knobspindle_mv mvs[12] = {{5, -11}, {61, 3},  {-27, 9},  {83, 77},  {-45, 1},   {13, -90},
                                           {29, 31}, {-71, 7}, {101, -3}, {-9, 200}, {-203, 19}, {3, -37}};
    static const int32_t sizes[2][2] = {{37, 53}, {55, 80}}; /* the frame's own, and a scaled reference: steps of 23 and 24 */
    static struct rows planes[2][2]; /* by references, luma before chroma */
    static struct job jobs[24];
    static uint16_t want[40 * 56], got[40 * 56];
    size_t differ = 0, n = 0;
    for (int i = 0; i < 4; i++) {
        struct rows *r = &planes[i / 2][i % 2];
        *r = (struct rows){.frame_width = sizes[i / 2][0], .frame_height = sizes[i / 2][1]};
        r->width = (size_t)(i % 2 == 0 ? r->frame_width : (r->frame_width + 1) / 2);
        r->height = (size_t)(i % 2 == 0 ? r->frame_height : (r->frame_height + 1) / 2);
        for (size_t k = 0; k < r->width * r->height; k++)
            r->complete[k] = (uint16_t)(100 + (k * 37 + k / 5 * 11 + (size_t)i) % 101);
    }
    for (int b = 0; b < 12; b++) /* blocks of 16 by 16, three across: from the first, from the scaled one, from both */
        for (size_t plane = 0; plane < 2; plane++) {
            struct job *j = &jobs[n++];
            size_t side = plane == 0 ? 16 : 8, kind = (size_t)(b + b / 3) % 3;
            knobspindle_inter_pred_args args = {.plane = plane, .w = side, .h = side, .filter = KNOBSPINDLE_FILTER_SHARP, .depth = 8, .average = kind == 2};
            args.x = b % 3 * (int32_t)side, args.y = b / 3 * (int32_t)side;
            *j = (struct job){.args = args, .grid = {b / 3 * 2, b % 3 * 2, 7, 5, KNOBSPINDLE_BLOCK_16X16}};
            j->from[0] = &planes[kind % 2][plane], j->from[1] = kind == 2 ? &planes[1][plane] : NULL;
            for (int s = 0; s < 4; s++)
                j->mvs.list0[s] = mvs[b], j->mvs.list1[s] = mvs[(b + 5) % 12];
            /* the blocks on the right and below leave the destination, 5 by 7 cells: the part inside */
            size_t right = plane == 0 ? 40 : 20, bottom = plane == 0 ? 56 : 28, x = (size_t)args.x, y = (size_t)args.y;
            args.w = x + side > right ? right - x : side;
            args.h = y + side > bottom ? bottom - y : side;
            for (int l = 0; l < 2 && j->from[l] != NULL; l++) {
                const struct rows *r = j->from[l];
                j->reach[l] = knobspindle_inter_reach(args, j->grid, odd_frame, j->mvs, l == 1, r->frame_width, r->frame_height);
                check("waiting, a block's reach: answer", j->reach[l].answer, KNOBSPINDLE_ACCEPTED);
                j->reach[l].first_row += lower;
                j->reach[l].last_row -= higher;
            }
        }
    *most = 0;
    for (size_t k = 0; k < n; k++) {
        for (int l = 0; l < 2 && jobs[k].from[l] != NULL; l++)
            finish(jobs[k].from[l], jobs[k].reach[l].last_row);
        for (int i = 0; i < 4; i++) {
            struct rows *r = &planes[i / 2][i % 2];
            size_t needed = r->height;
            for (size_t later = k; later < n; later++)
                for (int l = 0; l < 2; l++)
                    if (jobs[later].from[l] == r && jobs[later].reach[l].first_row < needed)
                        needed = jobs[later].reach[l].first_row;
            release(r, needed);
        }
        if (planes[0][0].finished - planes[0][0].released > *most)
            *most = planes[0][0].finished - planes[0][0].released;
        memset(want, 0, sizeof want);
        memset(got, 0, sizeof got);
        predict_job(&jobs[k], COMPLETE, want);
        predict_job(&jobs[k], how, got);
        for (size_t i = 0; i < 40 * 56; i++)
            differ += got[i] != want[i];
    }
    return differ;
}

static void waiting_for_rows(void)
{
    size_t most;
    check("waiting: samples that differ", (long long)waiting(AS_IT_IS, 0, 0, &most), 0);
    check("waiting: fewer rows at once than the reference has", most < 53, true);
    check("waiting, finished rows alone: samples that differ", (long long)waiting(FINISHED_ALONE, 0, 0, &most), 0);
    check("waiting, unreleased rows alone: samples that differ", (long long)waiting(UNRELEASED_ALONE, 0, 0, &most), 0);
    check("waiting, a row too few: some differ", waiting(AS_IT_IS, 0, 1, &most) != 0, true);
    check("waiting, a row released too early: some differ", waiting(AS_IT_IS, 1, 0, &most) != 0, true);
    check("waiting, finished rows alone, a row too few: some differ", waiting(FINISHED_ALONE, 0, 1, &most) != 0, true);
    check("waiting, unreleased rows alone, a row too few: some differ", waiting(UNRELEASED_ALONE, 1, 0, &most) != 0, true);
}

static void append_and_best(void)
{
    /* one cell, the block's own: no place is inside, so the search gives zeros */
    uint8_t modes[1] = {0};
    int8_t frames[2] = {0};
    int16_t mvs[4] = {0}, subs[16] = {0};
    knobspindle_mv_ref_geometry g = {.mi_rows = 1, .mi_cols = 1, .mi_size = 0, .mi_col_end = 1};
    knobspindle_sub_mvs own = {{{8, 16}, {8, 16}, {8, 16}, {0, 0}}};
    knobspindle_sign_bias bias = {{false}};
    knobspindle_mv_pair r = knobspindle_append_sub8x8_mvs(modes, 1, frames, 2, mvs, 4, subs, 16, 0, 0, 0, 0, g, 3, 1, own, bias, false);
    check("append, equal block vectors: answer", r.answer, KNOBSPINDLE_ACCEPTED);
    check("append, equal block vectors: first row", r.first.row, 8);
    check("append, equal block vectors: second row", r.second.row, 0);
    check("append, sub-block 4: answer", knobspindle_append_sub8x8_mvs(modes, 1, frames, 2, mvs, 4, subs, 16, 0, 0, 0, 0, g, 4, 1, own, bias,
                                                                      false).answer, KNOBSPINDLE_BLOCK);
    g.mi_rows = g.mi_cols = g.mi_col_end = 100;
    g.mi_row = g.mi_col = 50;
    /* document 01: (3, -3) low precision gives (2, -2); with high precision (63, 0) stays and (64, 1) gives (64, 0) */
    r = knobspindle_find_best_ref_mvs(g, (knobspindle_mv){3, -3}, (knobspindle_mv){0, 0}, false);
    check("best, low precision: row", r.first.row, 2);
    check("best, low precision: column", r.first.col, -2);
    r = knobspindle_find_best_ref_mvs(g, (knobspindle_mv){63, 0}, (knobspindle_mv){64, 1}, true);
    check("best, high precision, small: row", r.first.row, 63);
    check("best, high precision, large: column", r.second.col, 0);
    g.mi_col_end = 50;
    r = knobspindle_find_best_ref_mvs(g, (knobspindle_mv){3, -3}, (knobspindle_mv){0, 0}, false);
    check("best, a tile beside the block: answer", r.answer, KNOBSPINDLE_GRID);
    check("best, a tile beside the block: row", r.first.row, 0);
    g.mi_size = 13;
    check("best, size 13: answer", knobspindle_find_best_ref_mvs(g, r.first, r.second, true).answer, KNOBSPINDLE_BLOCK);
}

int main(void)
{
    append_and_best();
    select_mv();
    below_8x8();
    clamp_mv();
    block_sizes();
    scale_mv();
    find_mv_refs();
    modes_and_frames();
    row_read();
    block_inter_predict();
    far_ends();
    filters();
    predict_inter();
    two_sizes();
    cut();
    block_reach();
    inter_reach();
    inter_reach_refusals();
    kept();
    waiting_for_rows();
    printf("host: %d checks, %d failed\n", checks, failed);
    return failed != 0;
}
