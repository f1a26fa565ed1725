/* Makes a picture of what block prediction does: reads a trace (standard input) and its frames (file descriptor 3), predicts some of its frames with
 * the compiled library, and writes a PNG (file descriptor 4). A row a frame: the reference that most of it comes from, the picture that all its P
 * lines give together, and the frame as the decoder finished it. The blocks of luma that reached beyond the reference's edge are outlined: where
 * they stand, and in the reference where they were read. A line a frame says the same in words.
 */
#include "png.h"
#include "trace.h"

#define ROWS 3
#define MARGIN 24      /* luma samples around the reference, which show what lies beyond its edge */
#define LETTERS 26     /* that a panel's title may have */
#define NOTHING 0xffff /* a sample that no prediction wrote */

static const colour paper = {250, 250, 248}, ink = {40, 40, 40}, beyond = {230, 80, 0}, edge = {60, 120, 220}, hatch = {150, 150, 150};

/* ---- what the trace has */

static prediction *lines;
static size_t line_count;

static bool read_trace(void) {
    size_t space = 0;
    uint32_t line = 1;
    for (; peek() >= 0 && !broken; next_line(), line++) {
        int kind = peek();
        if (kind == '\n') continue;
        used++;
        if (kind == 'F') frame_line();
        if (kind != 'P') continue;
        if (line_count == space) space = 2 * space + 1024, lines = grown(lines, space, sizeof *lines);
        lines[line_count++] = prediction_line();
    }
    if (broken) printf("show: line %u can't be read (or has no frames)\n", line - 1);
    if (!broken && line_count == 0) printf("show: the trace has no prediction\n");
    return !broken && line_count > 0;
}

typedef struct {
    int32_t x, y, w, h; /* samples of the reference that a block's visible part lies on, before any filter reaches further */
    bool beyond;
} source;

/* along one axis: first sample and length, and whether a tap that counts lies outside 0..last; on whole samples the middle tap alone counts */
static bool reaches(int32_t start, int32_t step, int32_t count, int32_t last, size_t filter, int32_t *first, int32_t *length) {
    int32_t end = start + step * (count - 1);
    bool filtered = start % 16 != 0 || step % 16 != 0, bilinear = filter == 3;
    *first = start >> 4, *length = (end >> 4) - (start >> 4) + 1;
    return *first - (filtered && !bilinear ? 3 : 0) < 0 || (end >> 4) + (!filtered ? 0 : bilinear ? 1 : 4) > last;
}

/* where a block of luma is read */
static source source_of(const prediction *p) {
    const trace_frame *f = &frame_of[p->ref];
    knobspindle_block_mvs mvs = {{{0, 0}}, {{0, 0}}};
    memcpy(mvs.list0, p->mvs, sizeof mvs.list0);
    knobspindle_selected_mv mv = knobspindle_select_mv(mvs, false, 0, p->grid.mi_size, p->args.block, p->geom.subsampling_x, p->geom.subsampling_y);
    knobspindle_clamped_mv held = knobspindle_clamp_mv(p->grid, mv.mv, 0, p->geom.subsampling_x, p->geom.subsampling_y);
    knobspindle_scale_geom geom = {f->width, f->height, p->geom.width, p->geom.height, p->geom.subsampling_x, p->geom.subsampling_y};
    knobspindle_scaled_mv at = knobspindle_scale_mv(geom, 0, p->args.x, p->args.y, held.mv);
    source s;
    bool across = reaches(at.start_x, at.step_x, p->visible_w, f->width - 1, p->args.filter, &s.x, &s.w);
    bool down = reaches(at.start_y, at.step_y, p->visible_h, f->height - 1, p->args.filter, &s.y, &s.h);
    s.beyond = p->visible_w > 0 && p->visible_h > 0 && (across || down);
    return s;
}

typedef struct {
    int32_t frame, reference; /* the reference that most samples of luma come from */
    uint32_t calls, blocks, outside;
} summary;

static summary summed(int32_t frame) {
    static uint64_t from[FRAMES];
    summary s = {.frame = frame, .reference = -1};
    memset(from, 0, sizeof from);
    for (size_t i = 0; i < line_count; i++) {
        const prediction *p = &lines[i];
        if (p->frame != frame) continue;
        s.calls++;
        if (p->args.plane != 0) continue;
        s.blocks++, s.outside += source_of(p).beyond;
        from[p->ref] += (uint64_t)(p->visible_w * p->visible_h);
        if (s.reference < 0 || from[p->ref] > from[s.reference]) s.reference = p->ref;
    }
    return s;
}

/* The clip in ROWS stretches, and of each the frame with the most blocks that reached beyond the edge. */
static size_t chosen(summary *rows) {
    static int32_t frames[FRAMES];
    size_t count = 0, n = 0;
    for (size_t i = 0; i < line_count; i++)
        if (frame_of[lines[i].frame].known && (count == 0 || frames[count - 1] != lines[i].frame) && count < FRAMES) frames[count++] = lines[i].frame;
    for (size_t stretch = 0; stretch < ROWS; stretch++) {
        size_t from = count * stretch / ROWS, to = count * (stretch + 1) / ROWS;
        summary best = {.reference = -1};
        for (size_t i = from; i < to; i++) {
            summary s = summed(frames[i]);
            if (s.reference >= 0 && (best.reference < 0 || s.outside > best.outside)) best = s;
        }
        if (best.reference >= 0) rows[n++] = best;
    }
    return n;
}

/* ---- planes and colours */

typedef struct {
    int32_t width, height, chroma_width, chroma_height;
    uint32_t depth;
    const uint16_t *plane[3];
} planes;

static planes decoded(int32_t frame) {
    const trace_frame *f = &frame_of[frame];
    planes p = {f->width, f->height, f->chroma_width, f->chroma_height, f->depth, {NULL}};
    for (size_t k = 0; k < 3; k++) p.plane[k] = plane_samples(f, k);
    return p;
}

/* all predictions of a frame put together; false if a call is refused */
static bool put_together(int32_t frame, planes *p) {
    static uint16_t *out[3];
    size_t n[3];
    *p = decoded(frame);
    for (size_t k = 0; k < 3; k++) {
        n[k] = (size_t)plane_width(&frame_of[frame], k) * (size_t)plane_height(&frame_of[frame], k);
        out[k] = grown(out[k], n[k], sizeof *out[k]);
        memset(out[k], 0xff, n[k] * sizeof *out[k]);
        p->plane[k] = out[k];
    }
    for (size_t i = 0; i < line_count; i++) {
        if (lines[i].frame != frame) continue;
        const prediction *first = first_list(&lines[i]), *second = lines[i].list == 1 ? &lines[i] : NULL;
        size_t k = lines[i].args.plane;
        knobspindle_dest_geom dest = dest_of(&lines[i]);
        if (broken || dest.width * dest.height != n[k] || predict(first, second, (uint32_t)i, out[k], n[k], dest) != 0) return false;
    }
    return true;
}

static uint8_t held(int32_t v) { return (uint8_t)(v < 0 ? 0 : v > 255 ? 255 : v); }

/* by BT.601, as such clips are meant: y 16..235, u and v around 128 */
static colour colour_of(int32_t y, int32_t u, int32_t v) {
    int32_t c = 298 * (y - 16) + 128, d = u - 128, e = v - 128;
    return (colour){held((c + 409 * e) >> 8), held((c - 100 * d - 208 * e) >> 8), held((c + 516 * d) >> 8)};
}

static int32_t between(int32_t low, int32_t v, int32_t high) { return v < low ? low : v > high ? high : v; }

/* one luma sample's colour; outside the picture that of the nearest sample */
static colour sample(const planes *p, int32_t x, int32_t y) {
    x = between(0, x, p->width - 1), y = between(0, y, p->height - 1);
    size_t luma = (size_t)y * (size_t)p->width + (size_t)x;
    size_t chroma = (size_t)(y * p->chroma_height / p->height) * (size_t)p->chroma_width + (size_t)(x * p->chroma_width / p->width);
    if (p->plane[0][luma] == NOTHING || p->plane[1][chroma] == NOTHING || p->plane[2][chroma] == NOTHING)
        return (x + y) % 4 == 0 ? hatch : paper;
    uint32_t shift = p->depth - 8;
    return colour_of(p->plane[0][luma] >> shift, p->plane[1][chroma] >> shift, p->plane[2][chroma] >> shift);
}

/* ---- the picture */

static picture page;
static int32_t scale, panel_width, panel_height; /* dots to a luma sample; the largest frame or reference, in luma samples */

static const int32_t gap = 12, title = 28, foot = 84, legend_width = 1140, type = 2; /* dots; type is the size of a letter's dot */

static colour paler(colour c) { return (colour){(uint8_t)((c.r + 510) / 3), (uint8_t)((c.g + 510) / 3), (uint8_t)((c.b + 510) / 3)}; }

/* a frame's picture, its first sample at (left, top), and so many samples of what lies beyond its edge */
static void draw(const planes *p, int32_t left, int32_t top, int32_t margin) {
    for (int32_t y = -margin; y < p->height + margin; y++)
        for (int32_t x = -margin; x < p->width + margin; x++) {
            bool inside = x >= 0 && y >= 0 && x < p->width && y < p->height;
            colour c = sample(p, x, y);
            box(&page, left + x * scale, top + y * scale, scale, scale, inside ? c : paler(c));
        }
}

/* the blocks of a frame that reached beyond the edge: where they stand, or where they were read in the reference that is shown */
static void outlined(const summary *s, int32_t left, int32_t top, bool read) {
    for (size_t i = 0; i < line_count; i++) {
        const prediction *p = &lines[i];
        if (p->frame != s->frame || p->args.plane != 0 || (read && p->ref != s->reference)) continue;
        source from = source_of(p);
        if (!from.beyond) continue;
        int32_t x = read ? from.x : p->args.x, y = read ? from.y : p->args.y, w = read ? from.w : p->visible_w, h = read ? from.h : p->visible_h;
        int32_t x0 = between(-MARGIN, x, panel_width + MARGIN), x1 = between(-MARGIN, x + w, panel_width + MARGIN);
        int32_t y0 = between(-MARGIN, y, panel_height + MARGIN), y1 = between(-MARGIN, y + h, panel_height + MARGIN);
        outline(&page, left + x0 * scale, top + y0 * scale, (x1 - x0) * scale, (y1 - y0) * scale, (scale + 1) / 2, beyond);
    }
}

static int32_t row_height(void) { return title + (panel_height + 2 * MARGIN) * scale; }

/* the first dot of a panel's frame: panels are wide enough for their titles */
static int32_t left_of(int32_t column) {
    int32_t frame = panel_width * scale, titled = LETTERS * LETTER_WIDTH * type, wide = frame > titled ? frame : titled;
    return gap + MARGIN * scale + column * (wide + gap) + (column > 0 ? MARGIN * scale : 0);
}

static bool draw_row(const summary *s, int32_t top) {
    planes reference = decoded(s->reference), made, finished = decoded(s->frame);
    if (!put_together(s->frame, &made)) return false;
    char words[3][LETTERS + 1];
    snprintf(words[0], sizeof words[0], "MAIN REFERENCE: FRAME %d", s->reference);
    snprintf(words[1], sizeof words[1], "FRAME %d AS WE PREDICT IT", s->frame);
    snprintf(words[2], sizeof words[2], "FRAME %d AS DECODED", s->frame);
    text(&page, gap, top + 10, type, ink, words[0]);
    top += title + MARGIN * scale;
    text(&page, left_of(1), top + 10 - title, type, ink, words[1]);
    text(&page, left_of(2), top + 10 - title, type, ink, words[2]);
    draw(&reference, left_of(0), top, MARGIN);
    outline(&page, left_of(0) - 1, top - 1, reference.width * scale + 2, reference.height * scale + 2, 1, edge);
    outlined(s, left_of(0), top, true);
    draw(&made, left_of(1), top, 0);
    outlined(s, left_of(1), top, false);
    draw(&finished, left_of(2), top, 0);
    return true;
}

static void legend(int32_t top) {
    static const char *const words[] = {"BLOCKS OF LUMA THAT REACHED BEYOND THE EDGE OF THEIR REFERENCE, AND WHERE THEY WERE READ",
                                        "EDGE OF THE REFERENCE. BEYOND IT EACH SAMPLE IS THE NEAREST ONE OF THE EDGE",
                                        "HATCHED: NOT PREDICTED FROM A REFERENCE. THE DECODER ADDS A RESIDUAL AND FILTERS"};
    const colour marks[] = {beyond, edge, hatch};
    for (int32_t k = 0; k < 3; k++) {
        outline(&page, gap, top + 22 * k, 24, 14, 2, marks[k]);
        text(&page, gap + 36, top + 22 * k, type, ink, words[k]);
    }
}

int main(void) {
    static summary rows[ROWS];
    read_frames();
    if (!read_trace()) return 2;
    size_t n = chosen(rows);
    for (size_t i = 0; i < n; i++) {
        const trace_frame *f[2] = {&frame_of[rows[i].frame], &frame_of[rows[i].reference]};
        for (int k = 0; k < 2; k++) {
            if (f[k]->width > panel_width) panel_width = f[k]->width;
            if (f[k]->height > panel_height) panel_height = f[k]->height;
        }
    }
    scale = between(1, 1300 / (3 * panel_width + 2 * MARGIN), 8);
    page.width = left_of(3) > legend_width ? left_of(3) : legend_width;
    page.height = (int32_t)n * row_height() + foot;
    page.dots = grown(NULL, (size_t)page.width * (size_t)page.height, sizeof *page.dots);
    box(&page, 0, 0, page.width, page.height, paper);
    for (size_t i = 0; i < n; i++) {
        if (!draw_row(&rows[i], (int32_t)i * row_height())) {
            printf("show: a prediction of frame %d is refused\n", rows[i].frame);
            return 1;
        }
        printf("frame %d: %u predictions put together, most of it from frame %d; %u of %u blocks of luma reached beyond the edge\n", rows[i].frame,
               rows[i].calls, rows[i].reference, rows[i].outside, rows[i].blocks);
    }
    legend(page.height - foot + 12);
    return n > 0 && write_png(&page, 4) ? 0 : 1;
}
