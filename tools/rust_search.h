/* The Rust's calls on candidates as tools/speed_rust exports them: their arguments, and the pair (and the context) that they give. */
#include <stdbool.h>
#include <stddef.h>
#include <stdint.h>

struct search {
    int32_t mi_row, mi_col, mi_rows, mi_cols, tile_start, tile_end, target, block;
    size_t size;
    bool sign_bias[4], use_prev;
    const uint8_t *modes;
    const int8_t *frames;
    const int16_t *vectors, *sub_vectors;
    const int8_t *prev_frames;
    const int16_t *prev_vectors;
};

void rust_find_mv_refs(const struct search *, int32_t out[5]);
void rust_append_sub8x8_mvs(const struct search *, const knobspindle_mv own[4], int32_t out[4]);
void rust_find_best_ref_mvs(const struct search *, const knobspindle_mv pair[2], bool high, int32_t out[4]);
