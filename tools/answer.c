/* Answers files of oracle/'s cases (oracle/README.md has the format) through the compiled library and compares. Standard input is any number
 * of files, one after the other; a line a file: 'CALL: N cases, D differences' and how often each number was answered. The first differences of a
 * file are printed with their cases. Exit status 1 if anything differs.
 */
#include <stdint.h>
#include <stdio.h>
#include <string.h>

#include "cases.h"

/* ---- what the library gave and what the oracle says, of one case */

static struct {
    size_t count;
    int64_t got[8], want[8];
} values;

static void value(int64_t got, int64_t want) {
    values.got[values.count] = got, values.want[values.count] = want;
    values.count++;
}

static void vector_value(knobspindle_mv v, const uint8_t *r) { value(v.row, i32(r)), value(v.col, i32(r + 4)); }

static bool values_agree(void) { return memcmp(values.got, values.want, values.count * sizeof *values.got) == 0; }

static void print_difference(const char *name, uint32_t number, const uint8_t *record, size_t length) {
    printf("%s, case %u: the library gave", name, number);
    for (size_t i = 0; i < values.count; i++) printf(" %lld", (long long)values.got[i]);
    printf(", the oracle says");
    for (size_t i = 0; i < values.count; i++) printf(" %lld", (long long)values.want[i]);
    printf("; the record:");
    for (size_t i = 0; i < length; i++) printf("%s%02x", i % 8 == 0 ? " " : "", record[i]);
    printf("\n");
}

/* ---- the calls on plain numbers */

static void ask_select(const uint8_t *r) {
    knobspindle_selected_mv got = knobspindle_select_mv(block_mvs(r), r[81], u64(r + 64), r[80], u64(r + 72), r[82], r[83]);
    value(got.answer, u32(r + 84));
    vector_value(got.mv, r + 88);
}

static void ask_clamp(const uint8_t *r) {
    knobspindle_block_grid grid = {i32(r + 8), i32(r + 12), i32(r + 16), i32(r + 20), r[32]};
    knobspindle_clamped_mv got = knobspindle_clamp_mv(grid, mv(r + 24), u64(r), r[33], r[34]);
    value(got.answer, u32(r + 36));
    value(got.mv.row, i32(r + 40)), value(got.mv.col, i32(r + 44));
}

static void ask_scale(const uint8_t *r) {
    knobspindle_scale_geom geom = {i32(r + 8), i32(r + 12), i32(r + 16), i32(r + 20), r[40], r[41]};
    knobspindle_scaled_mv got = knobspindle_scale_mv(geom, u64(r), i32(r + 24), i32(r + 28), (knobspindle_plane_mv){i32(r + 32), i32(r + 36)});
    value(got.answer, u32(r + 44));
    value(got.start_x, i32(r + 48)), value(got.start_y, i32(r + 52)), value(got.step_x, i32(r + 56)), value(got.step_y, i32(r + 60));
}

static knobspindle_mv_ref_geometry geometry(const uint8_t *r, uint8_t size) {
    return (knobspindle_mv_ref_geometry){i32(r), i32(r + 4), i32(r + 8), i32(r + 12), size, i32(r + 16), i32(r + 20)};
}

static void ask_best(const uint8_t *r) {
    knobspindle_mv_pair got = knobspindle_find_best_ref_mvs(geometry(r, r[40]), mv(r + 24), mv(r + 32), r[41]);
    value(got.answer, u32(r + 44));
    vector_value(got.first, r + 48), vector_value(got.second, r + 56);
}

/* ---- the calls over lent tables */

static knobspindle_sign_bias bias(const uint8_t *r) { return (knobspindle_sign_bias){{r[57], r[58], r[59], r[60]}}; }

static void ask_search(const uint8_t *r) {
    knobspindle_mv_refs got =
        knobspindle_find_mv_refs(tables.modes, u32(r + 32), tables.frames, u32(r + 36), tables.mvs, u32(r + 40), tables.subs, u32(r + 44),
                                 tables.prev_frames, u32(r + 48), tables.prev_mvs, u32(r + 52), geometry(r, r[56]), i32(r + 24), i32(r + 28),
                                 bias(r), r[61]);
    value(got.answer, u32(r + 64));
    vector_value(got.first, r + 68), vector_value(got.second, r + 76);
    value(got.context, u32(r + 84));
}

static void ask_append(const uint8_t *r) {
    knobspindle_sub_mvs of = {{mv(r + 64), mv(r + 72), mv(r + 80), mv(r + 88)}};
    knobspindle_mv_pair got =
        knobspindle_append_sub8x8_mvs(tables.modes, u32(r + 32), tables.frames, u32(r + 36), tables.mvs, u32(r + 40), tables.subs, u32(r + 44),
                                      tables.prev_frames, u32(r + 48), tables.prev_mvs, u32(r + 52), geometry(r, r[56]), (size_t)i32(r + 28),
                                      i32(r + 24), of, bias(r), r[61]);
    value(got.answer, u32(r + 96));
    vector_value(got.first, r + 100), vector_value(got.second, r + 108);
}

/* ---- the calls over planes */

static uint16_t out[SAMPLES + GUARD], expected[SAMPLES + GUARD], room[KNOBSPINDLE_ROOM + 1 + GUARD];

static void ask_row(const uint8_t *r) {
    knobspindle_row_place got = knobspindle_row_read(bands[0], u32(r + 24), bands[1], u32(r + 28), plane(r), u64(r + 32));
    value(got.answer, u32(r + 40));
    value(got.band, u32(r + 44)), value((int64_t)got.first, (int64_t)u64(r + 48)), value((int64_t)got.samples, (int64_t)u64(r + 56));
}

/* Output and room before a call, and the output after it: the pattern but for the run of samples that follows the record. */
static bool lend(const ending *e) {
    if (!fits(e)) return false;
    pattern(out, e->out + GUARD);
    pattern(expected, e->out + GUARD);
    memset(room, 0x5a, sizeof room);
    return take_run(expected + e->first, e->run);
}

/* The whole output is what it should be and nothing beyond it was touched; nor was the room, of which an accepted call may change what was lent. */
static void judge(uint32_t answer, const ending *e) {
    size_t n = e->out + GUARD, m = e->room + GUARD;
    size_t same = 0, kept = answer == 0 ? e->room : 0;
    while (same < n && out[same] == expected[same]) same++;
    while (kept < m && room[kept] == 0x5a5a) kept++;
    value(answer, e->answer);
    value((int64_t)same, (int64_t)n); /* where the output differs first */
    value((int64_t)kept, (int64_t)m); /* where the room was touched first */
}

static bool ask_block(const uint8_t *r) {
    ending e = block_ending(r);
    if (!lend(&e)) return false;
    judge(predict_block(r, bands, room, out), &e);
    return true;
}

static bool ask_predict(const uint8_t *r) {
    ending e = pred_ending(r);
    if (!lend(&e)) return false;
    judge(predict_whole(r, bands, room, out), &e);
    return true;
}

/* ---- how far a block can reach */

static void reach_value(knobspindle_reach got, const uint8_t *r) {
    const size_t ends[4] = {got.first_col, got.last_col, got.first_row, got.last_row};
    value(got.answer, u32(r));
    for (int i = 0; i < 4; i++) value((int64_t)ends[i], (int64_t)u64(r + 4 + 8 * i));
}

static void ask_block_reach(const uint8_t *r) {
    reach_value(knobspindle_block_reach(u64(r), u64(r + 8), i32(r + 16), i32(r + 20), stepping(r + 24)), r + 44);
}

static void ask_inter_reach(const uint8_t *r) {
    knobspindle_inter_pred_args args = {u64(r + 64), i32(r + 104), i32(r + 108), u64(r + 72), u64(r + 80), u64(r + 88), u64(r + 96), u32(r + 144),
                                        r[151]};
    knobspindle_block_grid grid = {i32(r + 112), i32(r + 116), i32(r + 120), i32(r + 124), r[148]};
    knobspindle_frame_geom frame = {i32(r + 128), i32(r + 132), r[149], r[150]};
    reach_value(knobspindle_inter_reach(args, grid, frame, block_mvs(r), r[152], i32(r + 136), i32(r + 140)), r + 156);
}

/* ---- files */

/* in the order of kinds */
static const struct {
    void (*ask)(const uint8_t *record);
    bool (*ask_with_run)(const uint8_t *record); /* where a run of samples follows the record; false if it can't be read */
} asks[KINDS] = {
    {ask_select, 0},
    {ask_clamp, 0},
    {ask_scale, 0},
    {ask_best, 0},
    {ask_search, 0},
    {ask_append, 0},
    {ask_row, 0},
    {0, ask_block},
    {0, ask_predict},
    {ask_block_reach, 0},
    {ask_inter_reach, 0},
};

/* the next record is read and asked */
static bool ask_next(const kind *k, uint32_t *left, uint8_t *record) {
    values.count = 0;
    if (!next_record(k, left, record)) return false;
    if (asks[k - kinds].ask) return asks[k - kinds].ask(record), true;
    return asks[k - kinds].ask_with_run(record);
}

static enum outcome answer_file(const kind *k, uint32_t count) {
    uint32_t wrong = 0, left = 0, answers[10] = {0};
    for (uint32_t i = 0; i < count; i++) {
        static uint8_t record[LONGEST_RECORD];
        if (!ask_next(k, &left, record)) {
            printf("%s: case %u can't be read\n", k->name, i);
            return BROKEN;
        }
        if (values.got[0] >= 0 && values.got[0] < 10) answers[values.got[0]]++;
        if (!values_agree() && wrong++ < 5) print_difference(k->name, i, record, k->length);
    }
    printf("%s: %u cases, %u differences (answers", k->name, count, wrong);
    for (uint32_t n = 0; n < 10; n++)
        if (answers[n]) printf(" %u: %u", n, answers[n]);
    printf(")\n");
    return wrong ? FAILED : PASSED;
}

int main(void) { return each_file(answer_file); }
