/* A host without a C library: it calls every exported function and ends with 0 if all is as it should be. tools/host-test links it with nothing but
 * libhost.a, to see that the library needs nothing of others, and runs it. */
#include "knobspindle.h"

__asm__(".globl _start\n_start: xor %ebp, %ebp\n and $-16, %rsp\n call host\n mov %eax, %edi\n mov $60, %eax\n syscall");

/* Blocks of every width of a plane of sevens, between its samples and beyond its edges: sevens, and nothing beside them. */
static int blocks(void)
{
    static uint16_t plane[16 * 16], room[KNOBSPINDLE_ROOM], out[64 * 64];
    int wrong = 0;
    for (size_t i = 0; i < 16 * 16; i++)
        plane[i] = 7;
    knobspindle_plane_geom geom = {.width = 16, .height = 16, .stride = 16, .upper_rows = 9};
    for (size_t w = 1; w <= 64; w++)
        for (int phase = 0; phase < 4; phase++) {
            knobspindle_block_shape shape = {.w = w, .h = 64 - w / 2, .filter = w % 4, .depth = 8, .average = w % 2 == 0};
            knobspindle_stepping from = {.start_x = 5 * (phase & 1) - 30, .start_y = 9 * (phase >> 1) - 30, .step_x = 16, .step_y = 16};
            for (size_t i = 0; i < 64 * 64; i++)
                out[i] = 9;
            wrong += knobspindle_block_inter_predict(shape, geom, from, plane, 16 * 9, plane + 16 * 9, 16 * 7, geom, from, plane, 16 * 9,
                                                     plane + 16 * 9, 16 * 7, room, KNOBSPINDLE_ROOM, out, 64 * 64, 64) != 0;
            for (size_t i = 0; i < 64 * 64; i++)
                wrong += out[i] != (i % 64 < shape.w && i / 64 < shape.h ? 7 : 9);
        }
    wrong += knobspindle_row_read(plane, 16 * 9, plane + 16 * 9, 16 * 7, geom, 9).band != 1;
    wrong += knobspindle_block_reach(4, 4, 16, 16, (knobspindle_stepping){40, 40, 16, 16}).last_row != 9;

    static const knobspindle_block_mvs mvs;
    knobspindle_inter_pred_args args = {.w = 16, .h = 16, .depth = 8};
    knobspindle_block_grid grid = {.mi_rows = 2, .mi_cols = 2, .mi_size = KNOBSPINDLE_BLOCK_16X16};
    knobspindle_frame_geom frame = {.width = 16, .height = 16};
    knobspindle_ref_geom all = {.frame_width = 16, .frame_height = 16, .stride = 16, .upper_rows = 16}, none = {0, 0, 0, 0};
    wrong += knobspindle_predict_inter(args, grid, frame, mvs, all, plane, 16 * 16, NULL, 0, none, NULL, 0, NULL, 0, room, KNOBSPINDLE_ROOM, out,
                                       16 * 16, (knobspindle_dest_geom){16, 16}) != 0;
    for (size_t i = 0; i < 16 * 16; i++)
        wrong += out[i] != 7;
    wrong += knobspindle_inter_reach(args, grid, frame, mvs, false, 16, 16).last_row != 15;
    return wrong;
}

static int vectors(void)
{
    static const uint8_t modes[1];
    static const int8_t frames[2];
    static const int16_t mvs[4], subs[16];
    static const knobspindle_block_mvs of;
    static const knobspindle_sub_mvs own;
    static const knobspindle_sign_bias bias;
    knobspindle_block_grid grid = {.mi_rows = 1, .mi_cols = 1};
    knobspindle_scale_geom same = {.ref_frame_width = 8, .ref_frame_height = 8, .frame_width = 8, .frame_height = 8};
    knobspindle_mv_ref_geometry g = {.mi_rows = 1, .mi_cols = 1, .mi_col_end = 1};
    return (knobspindle_select_mv(of, false, 0, 0, 0, true, true).answer != 0) +
           (knobspindle_clamp_mv(grid, (knobspindle_mv){1, 1}, 0, true, true).mv.row != 2) +
           (knobspindle_scale_mv(same, 0, 1, 0, (knobspindle_plane_mv){0, 0}).start_x != 16) +
           (knobspindle_find_mv_refs(modes, 1, frames, 2, mvs, 4, subs, 16, NULL, 0, NULL, 0, g, 1, -1, bias, false).context != 2) +
           (knobspindle_append_sub8x8_mvs(modes, 1, frames, 2, mvs, 4, subs, 16, NULL, 0, NULL, 0, g, 0, 1, own, bias, false).answer != 0) +
           (knobspindle_find_best_ref_mvs(g, (knobspindle_mv){3, 0}, (knobspindle_mv){0, 0}, false).first.row != 2);
}

int host(void)
{
    return blocks() + vectors() != 0;
}
