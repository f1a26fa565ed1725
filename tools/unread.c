/* Do samples that a block can't reach make a difference? Standard input is any number of files of oracle/'s cases of block_inter_predict and
 * predict_inter. Each case is predicted twice by the compiled library: as it is, and with another sample wherever the library's own
 * knobspindle_block_reach or knobspindle_inter_reach doesn't reach: in the plane, between its rows and behind them; everywhere in a reference that is
 * refused, or that is list 1's without averaging. Answer and output have to be equal, and nothing may be written to the references. A line a file,
 * and the first case that differs with its arguments. Exit status 1 if any does.
 * With the words --short SIDE (left, right, top, bottom) the rectangles are taken one column or row shorter on that side; then the exit status is 1
 * unless cases of each file differ.
 */
#include <stdint.h>
#include <stdio.h>
#include <string.h>

#include "cases.h"

static enum { WHOLE, LEFT, RIGHT, TOP, BOTTOM } side;

static uint16_t others[4][SAMPLES], before[4][SAMPLES]; /* what the second prediction is lent, and the same once more */
static uint16_t out[2][SAMPLES + GUARD], room[KNOBSPINDLE_ROOM + 1];

/* A reference: how it is lent, and what of it can be read. */
typedef struct {
    size_t stride, upper_rows, lengths[2];
    bool used;
    knobspindle_reach reach;
} lent;

static knobspindle_reach shortened(knobspindle_reach r) {
    bool wide = r.first_col < r.last_col, high = r.first_row < r.last_row;
    if (side == LEFT && wide) r.first_col++;
    if (side == RIGHT && wide) r.last_col--;
    if (side == TOP && high) r.first_row++;
    if (side == BOTTOM && high) r.last_row--;
    return r;
}

/* The references of both predictions' records begin alike: width, height, stride, upper rows, the lengths of the bands. */
static lent lent_at(const uint8_t *r, bool used, knobspindle_reach reach) {
    return (lent){u64(r + 8), u64(r + 16), {u32(r + 24), u32(r + 28)}, used, shortened(reach)};
}

static void block_references(const uint8_t *r, lent refs[2]) {
    for (int list = 0; list < 2; list++) {
        const uint8_t *at = r + 48 * list;
        bool used = list == 0 || r[132];
        knobspindle_reach reach = {0};
        if (used) reach = knobspindle_block_reach(u64(r + 104), u64(r + 112), i32(at), i32(at + 4), stepping(at + 32));
        refs[list] = lent_at(at, used, reach);
    }
}

static void whole_references(const uint8_t *r, lent refs[2]) {
    for (int list = 0; list < 2; list++) {
        const uint8_t *at = r + 64 + 32 * list;
        bool used = list == 0 || r[223];
        knobspindle_reach reach = {0};
        if (used) reach = knobspindle_inter_reach(pred_args(r), pred_grid(r), pred_frame(r), block_mvs(r), list == 1, i32(at), i32(at + 4));
        refs[list] = lent_at(at, used, reach);
    }
}

/* ---- other samples */

/* 1 to 65535, by xorshift */
static uint16_t noise(void) {
    static uint64_t state = 0x9e3779b97f4a7c15;
    state ^= state << 13, state ^= state >> 7, state ^= state << 17;
    return (uint16_t)(1 + (state >> 20) % 65535);
}

/* Row by row what can be read is as it was, as far as it is lent: a band may be short and a stride anything, where the call is refused. */
static void keep(const lent *l, uint16_t (*from)[SAMPLES], uint16_t (*to)[SAMPLES]) {
    for (size_t row = l->reach.first_row; row <= l->reach.last_row; row++) {
        int band = row >= l->upper_rows;
        size_t below = band ? row - l->upper_rows : row, n = l->lengths[band];
        if (l->stride > 0 && below > n / l->stride) continue;
        for (size_t i = below * l->stride + l->reach.first_col, last = i + l->reach.last_col - l->reach.first_col; i <= last && i < n; i++)
            to[band][i] = from[band][i];
    }
}

/* The second prediction's bands; gives the number of samples that are others. */
static uint64_t replace(const lent refs[2]) {
    uint64_t replaced = 0;
    for (int b = 0; b < 4; b++)
        for (size_t i = 0; i < refs[b / 2].lengths[b % 2]; i++) others[b][i] = bands[b][i] ^ noise();
    for (int list = 0; list < 2; list++)
        if (refs[list].used && refs[list].reach.answer == 0) keep(&refs[list], bands + 2 * list, others + 2 * list);
    for (int b = 0; b < 4; b++) {
        size_t n = refs[b / 2].lengths[b % 2];
        for (size_t i = 0; i < n; i++) replaced += others[b][i] != bands[b][i];
        memcpy(before[b], others[b], 2 * n);
    }
    return replaced;
}

static bool others_are_as_before(const lent refs[2]) {
    bool same = true;
    for (int b = 0; b < 4; b++) same = same && memcmp(before[b], others[b], 2 * refs[b / 2].lengths[b % 2]) == 0;
    return same;
}

/* ---- a case */

typedef uint32_t predict(const uint8_t *r, uint16_t from[4][SAMPLES], uint16_t *room, uint16_t *out);

static uint32_t run(predict *call, const uint8_t *r, uint16_t from[4][SAMPLES], const ending *e, uint16_t *to) {
    pattern(to, e->out + GUARD);
    memset(room, 0x5a, sizeof room);
    return call(r, from, room, to);
}

static void print_reference(const uint8_t *r, int list, const lent *l) {
    printf("  reference %d: %d x %d, stride %llu, upper rows %llu, bands of %llu and %llu", list, i32(r), i32(r + 4), (unsigned long long)l->stride,
           (unsigned long long)l->upper_rows, (unsigned long long)l->lengths[0], (unsigned long long)l->lengths[1]);
    if (!l->used)
        printf(", not used");
    else if (l->reach.answer != 0)
        printf(", its reach is refused: %u", l->reach.answer);
    else
        printf(", kept: columns %llu to %llu, rows %llu to %llu", (unsigned long long)l->reach.first_col, (unsigned long long)l->reach.last_col,
               (unsigned long long)l->reach.first_row, (unsigned long long)l->reach.last_row);
    printf("\n");
}

static void print_block(const uint8_t *r, const lent refs[2]) {
    printf("  w %llu, h %llu, filter %llu, depth %u, average %d, output of %u with stride %llu, room of %u\n", (unsigned long long)u64(r + 104),
           (unsigned long long)u64(r + 112), (unsigned long long)u64(r + 96), u32(r + 128), r[132], u32(r + 136), (unsigned long long)u64(r + 120),
           u32(r + 140));
    for (int list = 0; list < 2; list++) {
        const uint8_t *at = r + 48 * list;
        print_reference(at, list, &refs[list]);
        printf("    start %d, %d, step %d, %d\n", i32(at + 32), i32(at + 36), i32(at + 40), i32(at + 44));
    }
}

static void print_whole(const uint8_t *r, const lent refs[2]) {
    printf("  plane %llu, x %d, y %d, w %llu, h %llu, block %llu, filter %llu, depth %u, average %d\n", (unsigned long long)u64(r + 128), i32(r + 184),
           i32(r + 188), (unsigned long long)u64(r + 136), (unsigned long long)u64(r + 144), (unsigned long long)u64(r + 152),
           (unsigned long long)u64(r + 160), u32(r + 216), r[223]);
    printf("  mi_row %d, mi_col %d, mi_rows %d, mi_cols %d, size %d, frame %d x %d, halved %d, %d\n", i32(r + 192), i32(r + 196), i32(r + 200),
           i32(r + 204), r[220], i32(r + 208), i32(r + 212), r[221], r[222]);
    printf("  destination %llu x %llu of %u, room of %u; vectors, row before column:", (unsigned long long)u64(r + 168),
           (unsigned long long)u64(r + 176), u32(r + 228), u32(r + 232));
    for (int i = 0; i < 16; i++) printf(" %d", i32(r + 4 * i));
    printf("\n");
    for (int list = 0; list < 2; list++) print_reference(r + 64 + 32 * list, list, &refs[list]);
}

/* ---- files */

typedef struct {
    const char *name;
    predict *call;
    ending (*end)(const uint8_t *record);
    void (*references)(const uint8_t *record, lent refs[2]);
    void (*print)(const uint8_t *record, const lent refs[2]);
} prediction;

static const prediction predictions[] = {
    {"block_inter_predict", predict_block, block_ending, block_references, print_block},
    {"predict_inter", predict_whole, pred_ending, whole_references, print_whole},
};

static struct {
    uint32_t accepted, differences;
    uint64_t replaced;
} counts;

/* The next case is read and predicted twice; false if it can't be read. */
static bool next_case(const kind *k, const prediction *p, uint32_t number, uint32_t *left) {
    static uint8_t r[LONGEST_RECORD];
    static uint16_t unasked[SAMPLES]; /* the oracle's output; tools/answer.c compares it */
    if (!next_record(k, left, r)) return false;
    ending e = p->end(r);
    lent refs[2];
    p->references(r, refs);
    if (!fits(&e) || !take_run(unasked, e.run)) return false;
    for (int b = 0; b < 4; b++)
        if (refs[b / 2].lengths[b % 2] > SAMPLES) return false;
    counts.replaced += replace(refs);
    uint32_t first = run(p->call, r, bands, &e, out[0]), second = run(p->call, r, others, &e, out[1]);
    counts.accepted += first == 0;
    size_t same = 0, n = e.out + GUARD;
    while (same < n && out[0][same] == out[1][same]) same++;
    bool unwritten = others_are_as_before(refs);
    if (first == second && same == n && unwritten) return true;
    if (counts.differences++ > 0 || side != WHOLE) return true;
    printf("%s, case %u: answers %u and %u", k->name, number, first, second);
    if (same < n) printf(", output %u and %u at sample %llu", out[0][same], out[1][same], (unsigned long long)same);
    printf("%s\n", unwritten ? "" : ", a reference was written to");
    p->print(r, refs);
    return true;
}

static enum outcome unread_file(const kind *k, uint32_t count) {
    const prediction *p = 0;
    for (size_t i = 0; i < sizeof predictions / sizeof *predictions; i++)
        if (strcmp(predictions[i].name, k->name) == 0) p = &predictions[i];
    if (!p) return printf("%s predicts nothing\n", k->name), BROKEN;
    memset(&counts, 0, sizeof counts);
    uint32_t left = 0;
    for (uint32_t i = 0; i < count; i++)
        if (!next_case(k, p, i, &left)) return printf("%s: case %u can't be read\n", k->name, i), BROKEN;
    static const char *const shorter[] = {"", ", a column short on the left", ", a column short on the right", ", a row short at the top",
                                          ", a row short at the bottom"};
    printf("%s%s: %u cases, %u accepted, %llu samples replaced, %u differences\n", k->name, shorter[side], count, counts.accepted,
           (unsigned long long)counts.replaced, counts.differences);
    return (counts.differences > 0) == (side != WHOLE) ? PASSED : FAILED;
}

int main(int argc, char **argv) {
    static const char *const sides[] = {"", "left", "right", "top", "bottom"};
    if (argc == 3 && strcmp(argv[1], "--short") == 0)
        for (int i = LEFT; i <= BOTTOM; i++)
            if (strcmp(argv[2], sides[i]) == 0) side = i;
    if (argc != 1 && side == WHOLE) return printf("usage: unread [--short left|right|top|bottom] < FILES\n"), 2;
    return each_file(unread_file);
}
