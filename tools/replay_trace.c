/* Replays the searches (M), the sub-8x8 lists (A) and the block predictions (P) of a decoder's trace through the compiled library. Standard input
 * is the trace, file descriptor 3 its frames. A line a kind: 'search N calls, D differences', ..; exit status 1 if anything differs, 2 if a line
 * can't be read. A prediction is held to the hash of its visible part; how many whole blocks agree is printed beside it (traces/README.md has why).
 *
 * Built with MEASURE (tools/speed-traces does), 'SIDE TIMES' makes each search TIMES times and compares nothing: SIDE is ours, rust, judged
 * (ours with the record that is judged last made illegal, so that the call ends when all records have been judged) or short (ours with a
 * table one short, so that the call ends before a record is judged). TIMES 0 makes it once, for tools/steps.c to count.
 */
#include "trace.h"

#define CELLS (1 << 20)

static uint8_t modes[CELLS];
static int8_t frames[2 * CELLS], prev_frames[2 * CELLS];
static int16_t mvs[4 * CELLS], subs[16 * CELLS], prev_mvs[4 * CELLS];

/* ---- a line's arguments */

static struct {
    knobspindle_mv_ref_geometry g;
    int32_t target, block;
    knobspindle_sign_bias bias;
    bool use_prev, high_precision;
    size_t cells;
} a;

static void put(int16_t *table, size_t at, knobspindle_mv v) { table[at] = (int16_t)v.row, table[at + 1] = (int16_t)v.col; }

static int8_t *last_frame; /* of the line's last place inside, list 0 */

/* one place's record: mode, frames, and for each list the whole vector and four sub-vectors */
static void place(void) {
    if (number() == 0) return;
    int32_t row = number(), col = number();
    size_t i = (size_t)row * (size_t)a.g.mi_cols + (size_t)col;
    if (row < 0 || col < 0 || i >= a.cells) { broken = true; return; }
    modes[i] = (uint8_t)number();
    last_frame = &frames[2 * i];
    frames[2 * i] = (int8_t)number(), frames[2 * i + 1] = (int8_t)number();
    for (size_t list = 0; list < 2; list++) {
        put(mvs, 4 * i + 2 * list, vector());
        for (size_t b = 0; b < 4; b++) put(subs, ((2 * i + list) * 4 + b) * 2, vector());
    }
}

static void previous(void) {
    if (number() == 0) return;
    size_t i = (size_t)a.g.mi_row * (size_t)a.g.mi_cols + (size_t)a.g.mi_col;
    prev_frames[2 * i] = (int8_t)number(), prev_frames[2 * i + 1] = (int8_t)number();
    put(prev_mvs, 4 * i, vector());
    put(prev_mvs, 4 * i + 2, vector());
}

static void arguments(void) {
    number(); /* the frame's number */
    int32_t rows = number(), cols = number(), row = number(), col = number(), size = number(), start = number(), end = number();
    a.g = (knobspindle_mv_ref_geometry){row, col, rows, cols, (size_t)size, start, end};
    a.target = number(), a.block = number();
    a.bias.frame[0] = false;
    for (int f = 1; f < 4; f++) a.bias.frame[f] = number() != 0;
    a.use_prev = number() != 0, a.high_precision = number() != 0;
    a.cells = (size_t)rows * (size_t)cols;
    if (rows < 1 || cols < 1 || row < 0 || col < 0 || row >= rows || col >= cols || a.cells > CELLS) { broken = true; return; }
    last_frame = 0;
    for (int k = 0; k < 8; k++) place();
    previous();
}

static bool same(knobspindle_mv x, knobspindle_mv y) { return x.row == y.row && x.col == y.col; }

static bool search_agrees(void) {
    knobspindle_mv first = vector(), second = vector();
    number(); /* the context by the decoder's own way, which leaves early */
    int32_t context = number();
    knobspindle_mv best = vector(), near = vector();
    knobspindle_mv_refs got =
        knobspindle_find_mv_refs(modes, a.cells, frames, 2 * a.cells, mvs, 4 * a.cells, subs, 16 * a.cells, prev_frames, 2 * a.cells, prev_mvs,
                                 4 * a.cells, a.g, a.target, a.block, a.bias, a.use_prev);
    knobspindle_mv_pair pair = knobspindle_find_best_ref_mvs(a.g, got.first, got.second, a.high_precision);
    return got.answer == 0 && same(got.first, first) && same(got.second, second) && got.context == context && pair.answer == 0 &&
           same(pair.first, best) && same(pair.second, near);
}

#ifdef MEASURE
#include "rust_search.h"
#include "steps.h"

static knobspindle_mv_refs ours(size_t lent) {
    return knobspindle_find_mv_refs(modes, lent, frames, 2 * a.cells, mvs, 4 * a.cells, subs, 16 * a.cells, prev_frames, 2 * a.cells,
                                    prev_mvs, 4 * a.cells, a.g, a.target, a.block, a.bias, a.use_prev);
}

static void rust(void) {
    struct search s = {a.g.mi_row, a.g.mi_col, a.g.mi_rows, a.g.mi_cols, a.g.mi_col_start, a.g.mi_col_end, a.target, a.block, a.g.mi_size, {0},
                       a.use_prev, modes, frames, mvs, subs, prev_frames, prev_mvs};
    memcpy(s.sign_bias, a.bias.frame, sizeof s.sign_bias);
    int32_t out[5];
    rust_find_mv_refs(&s, out);
}

/* the search that was just read, so many times; false where it has no record to make illegal */
static bool measured(char side, int times) {
    int8_t *last = a.use_prev ? &prev_frames[2 * ((size_t)a.g.mi_row * (size_t)a.g.mi_cols + (size_t)a.g.mi_col)] : last_frame;
    if (!last) return false;
    int8_t kept = *last;
    if (side == 'j') *last = 4;
    uint32_t want = side == 'j' ? KNOBSPINDLE_RECORD : side == 's' ? KNOBSPINDLE_SHORT : KNOBSPINDLE_ACCEPTED;
    for (int i = 0; i < times || i < 1; i++) {
        if (times == 0) begun();
        if (side == 'r') rust();
        else if (ours(a.cells - (side == 's')).answer != want) printf("trace: a measured call answered otherwise\n");
        ended();
    }
    *last = kept;
    return true;
}
#endif

static bool list_agrees(void) {
    knobspindle_sub_mvs of;
    for (int b = 0; b < 4; b++) of.mvs[b] = vector();
    knobspindle_mv first = vector(), second = vector();
    knobspindle_mv_pair got =
        knobspindle_append_sub8x8_mvs(modes, a.cells, frames, 2 * a.cells, mvs, 4 * a.cells, subs, 16 * a.cells, prev_frames, 2 * a.cells,
                                      prev_mvs, 4 * a.cells, a.g, (size_t)a.block, a.target, of, a.bias, a.use_prev);
    return got.answer == 0 && same(got.first, first) && same(got.second, second);
}

#ifdef MEASURE
int main(int words, char **word) {
    uint32_t searches = 0;
    if (words != 3) return 2;
    for (; peek() >= 0; next_line()) {
        if (peek() != 'M') continue;
        used++;
        arguments();
        if (broken) return 1;
        searches += measured(word[1][0], atoi(word[2]));
    }
    printf("%u searches\n", searches);
    return 0;
}
#else
static uint64_t hashed(const uint16_t *plane, size_t stride, size_t w, size_t h) {
    uint64_t k = 1469598103934665603u;
    for (size_t r = 0; r < h; r++)
        for (size_t c = 0; c < w; c++) k = (k ^ plane[r * stride + c]) * 1099511628211u;
    return k;
}

/* the hash of w x h samples of a block that was predicted into a destination; false if the call is refused */
static bool predicted(const prediction *p, const prediction *second, uint32_t part, knobspindle_dest_geom dest, size_t w, size_t h, uint64_t hash) {
    static uint16_t *out;
    static size_t space;
    size_t n = dest.width * dest.height, first = (size_t)p->args.y * dest.width + (size_t)p->args.x;
    if (n > space) out = grown(out, space = n, sizeof *out);
    for (size_t r = 0; r < h; r++) memset(out + first + r * dest.width, 0xa5, w * sizeof *out); /* nothing is left of an earlier block */
    return predict(p, second, part, out, n, dest) == 0 && hashed(out + first, dest.width, w, h) == hash;
}

static bool prediction_agrees(uint32_t line, bool *whole) {
    prediction p = prediction_line();
    if (broken) return false;
    const prediction *first = first_list(&p), *second = p.list == 1 ? &p : NULL;
    if (broken) return false;
    knobspindle_dest_geom larger = {(size_t)p.args.x + p.args.w, (size_t)p.args.y + p.args.h};
    *whole = predicted(first, second, line, larger, p.args.w, p.args.h, p.whole);
    return predicted(first, second, line * 7, dest_of(&p), (size_t)p.visible_w, (size_t)p.visible_h, p.visible);
}

/* on long work */
static void progress(uint32_t line) {
    char text[64];
    if (line % 50000 == 0) write(2, text, (size_t)snprintf(text, sizeof text, "replay: %u lines so far\n", line));
}

int main(void) {
    enum { SEARCH, LIST, PREDICTION, KINDS };
    static const char *const names[KINDS] = {"search", "list", "prediction"};
    uint32_t calls[KINDS] = {0}, wrong[KINDS] = {0}, wholes = 0, line = 0, differences = 0;
    read_frames();
    for (; peek() >= 0; next_line()) {
        int letter = peek();
        progress(++line);
        if (letter == '\n') continue;
        used++;
        if (letter == 'F') frame_line();
        int kind = letter == 'M' ? SEARCH : letter == 'A' ? LIST : letter == 'P' ? PREDICTION : KINDS;
        bool agrees = true, whole = false;
        if (kind == SEARCH || kind == LIST) arguments();
        if (kind == SEARCH && !broken) agrees = search_agrees();
        if (kind == LIST && !broken) agrees = list_agrees();
        if (kind == PREDICTION) agrees = prediction_agrees(line, &whole);
        if (broken) {
            printf("trace: line %u can't be read (or has no frames)\n", line);
            return 2;
        }
        if (kind == KINDS) continue;
        calls[kind]++, wrong[kind] += !agrees, wholes += whole;
        if (!agrees && differences++ < 5) printf("trace: line %u differs\n", line);
    }
    for (int kind = 0; kind < KINDS; kind++) printf("%s %u calls, %u differences\n", names[kind], calls[kind], wrong[kind]);
    printf("(whole blocks: %u of %u hashes equal)\n", wholes, calls[PREDICTION]);
    return line > 0 && differences == 0 ? 0 : 1;
}
#endif
