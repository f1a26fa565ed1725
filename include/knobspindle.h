/* Knobspindle: VP9 inter prediction, proved. The C boundary of the static library libhost.a (x86-64).
 *
 * Every call takes any input. It answers with a number: 0 where the input is accepted, else the lowest number below whose row applies.
 * Refused, a call returns zeros beside its answer and changes no buffer that was lent to it. No call allocates, keeps a pointer, or has
 * state of its own, so calls may run in any number of threads, where no out or room of one is lent to another at the time.
 * A bool is C's own: 0 or 1 and no other byte. docs/HOST.md is the guide, with examples.
 */
#ifndef KNOBSPINDLE_H
#define KNOBSPINDLE_H

#include <stdbool.h>
#include <stddef.h>
#include <stdint.h>

#ifdef __cplusplus
extern "C" {
#endif

enum knobspindle_answer {
    KNOBSPINDLE_ACCEPTED = 0,
    KNOBSPINDLE_BLOCK = 1,  /* block size, sub-block, plane, w or h out of range; a partner sub-block that does not exist */
    KNOBSPINDLE_GRID = 2,   /* mi_rows, mi_cols, mi_row, mi_col or tile out of range */
    KNOBSPINDLE_TARGET = 3, /* target reference frame not 1..3 */
    KNOBSPINDLE_FILTER = 4, /* filter above 3, or bit depth not 8, 10 or 12 */
    KNOBSPINDLE_SIZE = 5,   /* a width or height not 1..65536, or a reference that is too large or too small for the frame */
    KNOBSPINDLE_START = 6,  /* x, y, a start, a step or a row out of range */
    KNOBSPINDLE_SHORT = 7,  /* a lent buffer too short, a stride out of range, more upper band rows than the plane has */
    KNOBSPINDLE_RECORD = 8, /* a consulted record holds an illegal value */
    KNOBSPINDLE_VECTOR = 9  /* a vector handed in has a component out of range */
};

/* The mode of a block, as the search's table of modes has it: the standard's y_mode. A block below 8x8 has that of its last sub-block. */
enum knobspindle_mode {
    KNOBSPINDLE_MODE_DC = 0, /* 0 to 9 are the intra modes */
    KNOBSPINDLE_MODE_V = 1,
    KNOBSPINDLE_MODE_H = 2,
    KNOBSPINDLE_MODE_D45 = 3,
    KNOBSPINDLE_MODE_D135 = 4,
    KNOBSPINDLE_MODE_D117 = 5,
    KNOBSPINDLE_MODE_D153 = 6,
    KNOBSPINDLE_MODE_D207 = 7,
    KNOBSPINDLE_MODE_D63 = 8,
    KNOBSPINDLE_MODE_TM = 9,
    KNOBSPINDLE_MODE_NEAREST = 10, /* 10 to 13 are the inter modes */
    KNOBSPINDLE_MODE_NEAR = 11,
    KNOBSPINDLE_MODE_ZERO = 12,
    KNOBSPINDLE_MODE_NEW = 13
};

/* A reference frame, as the search's tables have it: an intra block has INTRA and NONE, an inter block with one reference that one and NONE. */
enum knobspindle_frame {
    KNOBSPINDLE_FRAME_NONE = -1,
    KNOBSPINDLE_FRAME_INTRA = 0,
    KNOBSPINDLE_FRAME_LAST = 1,
    KNOBSPINDLE_FRAME_GOLDEN = 2,
    KNOBSPINDLE_FRAME_ALTREF = 3
};

/* A block's filter. What a stream writes for it may be another number: go by the name, or by the two middle taps at half a sample. */
enum knobspindle_filter {
    KNOBSPINDLE_FILTER_REGULAR = 0, /* EIGHTTAP, 78 */
    KNOBSPINDLE_FILTER_SMOOTH = 1,  /* EIGHTTAP_SMOOTH, 55 */
    KNOBSPINDLE_FILTER_SHARP = 2,   /* EIGHTTAP_SHARP, 80 */
    KNOBSPINDLE_FILTER_BILINEAR = 3 /* BILINEAR, 64 */
};

/* A block's size in luma samples, width before height. */
enum knobspindle_block_size {
    KNOBSPINDLE_BLOCK_4X4 = 0,
    KNOBSPINDLE_BLOCK_4X8 = 1,
    KNOBSPINDLE_BLOCK_8X4 = 2,
    KNOBSPINDLE_BLOCK_8X8 = 3,
    KNOBSPINDLE_BLOCK_8X16 = 4,
    KNOBSPINDLE_BLOCK_16X8 = 5,
    KNOBSPINDLE_BLOCK_16X16 = 6,
    KNOBSPINDLE_BLOCK_16X32 = 7,
    KNOBSPINDLE_BLOCK_32X16 = 8,
    KNOBSPINDLE_BLOCK_32X32 = 9,
    KNOBSPINDLE_BLOCK_32X64 = 10,
    KNOBSPINDLE_BLOCK_64X32 = 11,
    KNOBSPINDLE_BLOCK_64X64 = 12
};

/* A vector in eighths of a luma sample: what blocks and candidates have. */
typedef struct {
    int32_t row, col;
} knobspindle_mv;

/* A vector in sixteenths of a plane's sample: what knobspindle_clamp_mv makes of the first kind. Never one for the other. */
typedef struct {
    int32_t row, col;
} knobspindle_plane_mv;

/* A block's vectors: sub-blocks 0..3 of each list. A block that is not below 8x8 has its vector four times; a list that is not used has zeros. */
typedef struct {
    knobspindle_mv list0[4], list1[4];
} knobspindle_block_mvs;

/* Where a block stands, in cells of 8 by 8 luma samples; mi_size is a knobspindle_block_size, the standard's 0..12. A frame has
 * mi_cols = (width + 7) / 8 cells across and mi_rows = (height + 7) / 8 down. */
typedef struct {
    int32_t mi_row, mi_col, mi_rows, mi_cols;
    uint8_t mi_size;
} knobspindle_block_grid;

/* The sizes of a reference frame and of the frame in luma samples, and whether chroma is halved across and down. */
typedef struct {
    int32_t ref_frame_width, ref_frame_height, frame_width, frame_height;
    bool subsampling_x, subsampling_y;
} knobspindle_scale_geom;

typedef struct {
    uint32_t answer;
    knobspindle_mv mv;
} knobspindle_selected_mv;

typedef struct {
    uint32_t answer;
    knobspindle_plane_mv mv;
} knobspindle_clamped_mv;

/* Where a block starts in the reference's plane and the step from sample to sample, in sixteenths of a sample. */
typedef struct {
    uint32_t answer;
    int32_t start_x, start_y, step_x, step_y;
} knobspindle_scaled_mv;

/* A block: its size in samples (1..64 each), its knobspindle_filter, the bit depth (8, 10 or 12), and whether the predictions from two
 * references are averaged. */
typedef struct {
    size_t w, h, filter;
    uint32_t depth;
    bool average;
} knobspindle_block_shape;

/* A reference plane, lent in two bands with one stride: the upper one holds rows 0..upper_rows-1, the lower the rest. A band of k rows
 * holds (k - 1) x stride + width samples or more, or none if k is 0. A plane in one piece: upper_rows = height, and NULL, 0 below.
 * width and height are the visible ones (below, at knobspindle_ref_geom): beyond them every position is held at the edge. */
typedef struct {
    int32_t width, height;
    size_t stride, upper_rows;
} knobspindle_plane_geom;

/* Where a block starts in a reference's plane and how it steps, in sixteenths of a sample: what knobspindle_scale_mv gives. */
typedef struct {
    int32_t start_x, start_y, step_x, step_y;
} knobspindle_stepping;

/* Where a row of a plane stands: in the upper band (0) or the lower (1), from which sample on, and how many samples it has. */
typedef struct {
    uint32_t answer, band;
    size_t first, samples;
} knobspindle_row_place;

/* Where a block, its frame and its tile (columns tile start to tile end - 1) stand, in cells of 8 by 8 luma samples. */
typedef struct {
    int32_t mi_row, mi_col, mi_rows, mi_cols;
    size_t mi_size;
    int32_t mi_col_start, mi_col_end;
} knobspindle_mv_ref_geometry;

/* The sign bias of reference frames 0..3. */
typedef struct {
    bool frame[4];
} knobspindle_sign_bias;

/* What the candidate search finds. */
typedef struct {
    uint32_t answer;
    knobspindle_mv first, second;
    uint8_t context;
} knobspindle_mv_refs;

/* The vectors of a block's four sub-blocks in one list. */
typedef struct {
    knobspindle_mv mvs[4];
} knobspindle_sub_mvs;

/* Two vectors, the nearest and the near one. */
typedef struct {
    uint32_t answer;
    knobspindle_mv first, second;
} knobspindle_mv_pair;

/* A block for the whole prediction: the plane (0 luma, 1 and 2 chroma), the block's first sample there, its size in samples (1..64 each), its
 * number, then as in knobspindle_block_shape. The number is 0 where the block is not below 8x8. Of a block below 8x8 every plane is predicted in
 * blocks of 4x4, and the number counts these in the plane: 0, 1, .. row by row. So in 4:2:2 chroma the lower one is number 1, and 2 is accepted
 * and gives a wrong picture (at knobspindle_select_mv). */
typedef struct {
    size_t plane;
    int32_t x, y;
    size_t w, h, block, filter;
    uint32_t depth;
    bool average;
} knobspindle_inter_pred_args;

/* The frame's visible size in luma samples, and whether chroma is halved across and down, of the frame and of its references. */
typedef struct {
    int32_t width, height;
    bool subsampling_x, subsampling_y;
} knobspindle_frame_geom;

/* A reference of the whole prediction: its frame's VISIBLE size in luma samples. The plane that is lent has that size, or for chroma, where
 * halved, half of it rounded up; stride and bands as in knobspindle_plane_geom. Beyond the visible edge every position is held at it, whatever
 * stands in memory there. A frame of 35 x 21 in 4:2:0 is lent as 35 x 21 and its chroma as 18 x 11, with the stride that it was decoded with. */
typedef struct {
    int32_t frame_width, frame_height;
    size_t stride, upper_rows;
} knobspindle_ref_geom;

/* The destination plane's size in samples (1..65536 each); its stride is its width. It has to be the DECODED size: whole cells, 8 x mi_cols by
 * 8 x mi_rows, for chroma, where halved, half of it. A frame of 35 x 21 in 4:2:0 has a destination of 40 x 24, its chroma one of 20 x 12. The
 * visible size is accepted, too, but then the samples beyond it are not written, and intra prediction, which reads them, draws a wrong picture. */
typedef struct {
    size_t width, height;
} knobspindle_dest_geom;

/* How far a block can reach: the first and the last column and row of a reference plane that matter to its prediction. Refused, all are 0. What the
 * other samples hold makes no difference, but they have to be there: a band is lent at its whole length, and nothing may write to it meanwhile. */
typedef struct {
    uint32_t answer;
    size_t first_col, last_col, first_row, last_row;
} knobspindle_reach;

/* Numbers of working room that knobspindle_block_inter_predict and knobspindle_predict_inter ask for. */
#define KNOBSPINDLE_ROOM 8576

/* The vector that a plane (0 luma, 1 and 2 chroma) takes from list 0, or from list 1 where second is true. size is the block size 0..12, block
 * the number of the 4x4 block in the plane. Answers 1 and 9 (components -32767..32767, of both lists). Below 8x8 a plane takes for its block
 *   luma, and chroma in 4:4:4   0, 1 above, 2, 3 below: the vector of that sub-block
 *   chroma in 4:2:0             0: the mean of all four
 *   chroma in 4:2:2             0 above: the mean of 0 and 1; 1 below: the mean of 1 and 2, as the standard's decoders do
 *   chroma in 4:4:0             0 on the left: the mean of 0 and 2; 1 on the right: the mean of 1 and 3 */
knobspindle_selected_mv knobspindle_select_mv(knobspindle_block_mvs of, bool second, size_t plane, uint8_t size, size_t block,
                                              bool subsampling_x, bool subsampling_y);

/* The vector in the plane's own units, held near the frame. Answers 1, 2 and 9 (components -32767..32767). */
knobspindle_clamped_mv knobspindle_clamp_mv(knobspindle_block_grid grid, knobspindle_mv mv, size_t plane, bool subsampling_x,
                                            bool subsampling_y);

/* Where a clamped vector leads from sample (x, y) of the plane, and the steps. Answers 1, 5, 6 and 9 (components -65534..65534). */
knobspindle_scaled_mv knobspindle_scale_mv(knobspindle_scale_geom geom, size_t plane, int32_t x, int32_t y, knobspindle_plane_mv mv);

/* The candidate search for a target reference frame 1..3: block is -1 for a whole block, else its sub-block 0..3. The tables lie by cells
 * of the frame, i = row x mi_cols + column, n = mi_rows x mi_cols: modes n (knobspindle_mode); frames 2n, at 2i + list (knobspindle_frame); mvs
 * 4n, at (2i + list) x 2, row before column, for a block below 8x8 the vector of sub-block 3; subs 16n, at ((2i + list) x 4 + sub-block) x 2,
 * for a block that is not below 8x8 its vector four times; prev_frames and prev_mvs as frames and mvs, looked at only where use_prev is true.
 * The vectors of an unused list are judged, too: write zeros there, or what a decoder left may be answer 8. Lengths count numbers; longer
 * tables are taken. Answers 1, 2, 3, 7 and 8. */
knobspindle_mv_refs knobspindle_find_mv_refs(const uint8_t *modes, size_t modes_len, const int8_t *frames, size_t frames_len,
                                             const int16_t *mvs, size_t mvs_len, const int16_t *subs, size_t subs_len,
                                             const int8_t *prev_frames, size_t prev_frames_len, const int16_t *prev_mvs,
                                             size_t prev_mvs_len, knobspindle_mv_ref_geometry geometry, int32_t target, int32_t block,
                                             knobspindle_sign_bias sign_bias, bool use_prev);

/* The two predictors of sub-block 0..3 of a block below 8x8, over the search's tables; own has the block's vectors so far, in eighths.
 * Answers 1, 2, 3, 7, 8 and 9 (components -32767..32767). */
knobspindle_mv_pair knobspindle_append_sub8x8_mvs(const uint8_t *modes, size_t modes_len, const int8_t *frames, size_t frames_len,
                                                  const int16_t *mvs, size_t mvs_len, const int16_t *subs, size_t subs_len,
                                                  const int8_t *prev_frames, size_t prev_frames_len, const int16_t *prev_mvs,
                                                  size_t prev_mvs_len, knobspindle_mv_ref_geometry geometry, size_t block, int32_t target,
                                                  knobspindle_sub_mvs own, knobspindle_sign_bias sign_bias, bool use_prev);

/* A pair of candidates lowered to the precision in use and held near the frame. Answers 1, 2 and 9 (components -32767..32767). */
knobspindle_mv_pair knobspindle_find_best_ref_mvs(knobspindle_mv_ref_geometry geometry, knobspindle_mv first, knobspindle_mv second,
                                                  bool high_precision);

/* Where row y of a plane in two bands stands. Lengths count samples. Answers 5, 6 and 7. */
knobspindle_row_place knobspindle_row_read(const uint16_t *upper, size_t upper_len, const uint16_t *lower, size_t lower_len,
                                           knobspindle_plane_geom geom, size_t y);

/* Predicts shape.w x shape.h samples from one reference or, where shape.average is true, from two, into out: row r from out[r x stride] on.
 * Nothing of the second reference is looked at without averaging; zeros and NULL, 0 do. Lengths count numbers of 16 bits. out and room
 * overlap neither each other nor a band. What room holds before never matters, and after an accepted call it is anything.
 * Answers 1, 4, 5, 6 and 7. */
uint32_t knobspindle_block_inter_predict(knobspindle_block_shape shape, knobspindle_plane_geom geom, knobspindle_stepping from,
                                         const uint16_t *upper, size_t upper_len, const uint16_t *lower, size_t lower_len,
                                         knobspindle_plane_geom geom2, knobspindle_stepping from2, const uint16_t *upper2,
                                         size_t upper2_len, const uint16_t *lower2, size_t lower2_len, uint16_t *room, size_t room_len,
                                         uint16_t *out, size_t out_len, size_t stride);

/* How far a block of w x h samples reaches in a plane of width x height: columns floor(start_x / 16) - 3 to
 * floor((start_x + step_x x (w - 1)) / 16) + 4, rows alike, each end held into the plane. Samples outside, bands' ends and what stands between
 * rows included, make no difference to knobspindle_block_inter_predict, whatever its filter. Answers 1, 5 and 6. */
knobspindle_reach knobspindle_block_reach(size_t w, size_t h, int32_t width, int32_t height, knobspindle_stepping from);

/* The whole prediction of a block: its vectors selected, clamped and scaled, its samples predicted from list 0 or, where args.average is true,
 * from both lists and averaged, into the destination plane out. Only the part of the block inside the destination is written; a block wholly
 * beyond it is accepted and writes nothing. Nothing of list 1 is looked at without averaging; zeros and NULL, 0 do. out and room overlap
 * neither each other nor a band; what room holds after an accepted call is anything. Answers 1, 2, 4, 5, 6, 7 and 9. */
uint32_t knobspindle_predict_inter(knobspindle_inter_pred_args args, knobspindle_block_grid grid, knobspindle_frame_geom frame,
                                   knobspindle_block_mvs mvs, knobspindle_ref_geom geom, const uint16_t *upper, size_t upper_len,
                                   const uint16_t *lower, size_t lower_len, knobspindle_ref_geom geom2, const uint16_t *upper2,
                                   size_t upper2_len, const uint16_t *lower2, size_t lower2_len, uint16_t *room, size_t room_len,
                                   uint16_t *out, size_t out_len, knobspindle_dest_geom dest);

/* How far a whole prediction reaches in the plane of list 0's reference or, where second is true, of list 1's: the arguments of
 * knobspindle_predict_inter without its buffers, and the visible size of that reference's frame in luma samples. filter, depth and average are
 * not looked at, nor is the other list. The rectangle is that of the whole block; of one that leaves the destination, ask with the w and h of
 * the part inside. Answers 1, 2, 5, 6 and 9. */
knobspindle_reach knobspindle_inter_reach(knobspindle_inter_pred_args args, knobspindle_block_grid grid, knobspindle_frame_geom frame,
                                          knobspindle_block_mvs mvs, bool second, int32_t ref_width, int32_t ref_height);

#ifdef __cplusplus
}
#endif

#endif
