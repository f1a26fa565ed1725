//! Document 01's section 'Answer numbers', read line by line into plain Rust: for each bought call,
//! for the row read and for the two calls of document 02's Req 11, its arguments give the answer
//! number. Nothing here is taken from the code that is tested nor from the Rust, except the search
//! places, which document 01 takes from there.
//!
//! A function below tests the rows of the table in their order and stops at the first that applies:
//! "Where several apply, the lowest number is given." Within a row the order can't matter.

use crate::terms::*;

pub const ACCEPTED: u32 = 0;
pub const BLOCK: u32 = 1;
pub const GRID: u32 = 2;
pub const TARGET: u32 = 3;
pub const FILTER: u32 = 4;
pub const SIZE: u32 = 5;
pub const START: u32 = 6;
pub const SHORT: u32 = 7;
pub const RECORD: u32 = 8;
pub const VECTOR: u32 = 9;

/// "The working room for two passes is lent and needs 8,576 numbers: 64 columns by 134 rows."
const ROOM: usize = 8_576;

/// "a stride too small or above 131,072"
const LARGEST_STRIDE: usize = 131_072;

/// The search places as (row, column) offsets by block size: `mv_ref_blocks` of the standard's
/// section 6.5.1, as src/mv_ref.rs prints it in `MV_REF_BLOCKS`.
#[rustfmt::skip]
pub const PLACES: [[[i32; 2]; 8]; 13] = [
    [[-1, 0], [0, -1], [-1, -1], [-2, 0], [0, -2], [-2, -1], [-1, -2], [-2, -2]],
    [[-1, 0], [0, -1], [-1, -1], [-2, 0], [0, -2], [-2, -1], [-1, -2], [-2, -2]],
    [[-1, 0], [0, -1], [-1, -1], [-2, 0], [0, -2], [-2, -1], [-1, -2], [-2, -2]],
    [[-1, 0], [0, -1], [-1, -1], [-2, 0], [0, -2], [-2, -1], [-1, -2], [-2, -2]],
    [[0, -1], [-1, 0], [1, -1], [-1, -1], [0, -2], [-2, 0], [-2, -1], [-1, -2]],
    [[-1, 0], [0, -1], [-1, 1], [-1, -1], [-2, 0], [0, -2], [-1, -2], [-2, -1]],
    [[-1, 0], [0, -1], [-1, 1], [1, -1], [-1, -1], [-3, 0], [0, -3], [-3, -3]],
    [[0, -1], [-1, 0], [2, -1], [-1, -1], [-1, 1], [0, -3], [-3, 0], [-3, -3]],
    [[-1, 0], [0, -1], [-1, 2], [-1, -1], [1, -1], [-3, 0], [0, -3], [-3, -3]],
    [[-1, 1], [1, -1], [-1, 2], [2, -1], [-1, -1], [-3, 0], [0, -3], [-3, -3]],
    [[0, -1], [-1, 0], [4, -1], [-1, 2], [-1, -1], [0, -3], [-3, 0], [2, -1]],
    [[-1, 0], [0, -1], [-1, 4], [2, -1], [-1, -1], [-3, 0], [0, -3], [-1, 2]],
    [[-1, 3], [3, -1], [-1, 4], [4, -1], [-1, -1], [-1, 0], [0, -1], [-1, 6]],
];

/// Sizes 0, 1 and 2 are the blocks below 8x8; BLOCK_8X8 is 3.
const BLOCK_8X8: u8 = 3;

pub fn select_mv(a: &SelectArgs) -> u32 {
    if wrong_size(a.mi_size)
        || wrong_sub_block(a.block)
        || wrong_plane(a.plane)
        || no_partner(a.plane, a.mi_size, a.block, a.sub_x, a.sub_y)
    {
        return BLOCK;
    }
    if a.vectors.iter().flatten().any(wrong_vector) {
        return VECTOR;
    }
    ACCEPTED
}

pub fn clamp_mv(a: &ClampArgs) -> u32 {
    if wrong_size(a.grid.mi_size) || wrong_plane(a.plane) {
        return BLOCK;
    }
    if wrong_grid(&a.grid) || wrong_column(&a.grid) {
        return GRID;
    }
    if wrong_vector(&a.vector) {
        return VECTOR;
    }
    ACCEPTED
}

pub fn scale_mv(a: &ScaleArgs) -> u32 {
    if wrong_plane(a.plane) {
        return BLOCK;
    }
    if wrong_reference(a.frame_width, a.ref_width) || wrong_reference(a.frame_height, a.ref_height)
    {
        return SIZE;
    }
    if wrong_place(a.x) || wrong_place(a.y) {
        return START;
    }
    if wrong_scaled_vector(&a.vector) {
        return VECTOR;
    }
    ACCEPTED
}

pub fn find_best_ref_mvs(a: &BestArgs) -> u32 {
    if wrong_size(a.grid.mi_size) {
        return BLOCK;
    }
    if wrong_grid(&a.grid) || wrong_tile(&a.grid, &a.tile) {
        return GRID;
    }
    if a.pair.iter().any(wrong_vector) {
        return VECTOR;
    }
    ACCEPTED
}

pub fn find_mv_refs(a: &SearchArgs, tables: &Tables) -> u32 {
    // "sub-block not -1..3 in the search"
    if !(-1..=3).contains(&a.block) {
        return BLOCK;
    }
    search(a, tables)
}

/// The refusals of the search with a sub-block that must be 0..3, and those of the four vectors.
pub fn append_sub8x8_mvs(a: &AppendArgs, tables: &Tables) -> u32 {
    // "or 0..3 elsewhere"
    if !(0..=3).contains(&a.search.block) {
        return BLOCK;
    }
    let number = search(&a.search, tables);
    if number != ACCEPTED {
        return number;
    }
    if a.block_vectors.iter().any(wrong_vector) {
        return VECTOR;
    }
    ACCEPTED
}

/// What both calls that search refuse alike.
fn search(a: &SearchArgs, tables: &Tables) -> u32 {
    if wrong_size(a.grid.mi_size) {
        return BLOCK;
    }
    if wrong_grid(&a.grid) || wrong_tile(&a.grid, &a.tile) {
        return GRID;
    }
    // "target reference frame not 1..3"
    if !(1..=3).contains(&a.target) {
        return TARGET;
    }
    if short_tables(&a.grid, a.use_prev, tables) {
        return SHORT;
    }
    if illegal_record_consulted(a, tables) {
        return RECORD;
    }
    ACCEPTED
}

/// The row read: a plane in two bands, and a row.
pub fn row_read(bands: &Bands, row: usize) -> u32 {
    if wrong_extent(bands.width) || wrong_extent(bands.height) {
        return SIZE;
    }
    // "in the row read, a row not 0..H-1"
    if row as u64 >= bands.height as u64 {
        return START;
    }
    if short_bands(bands.width, bands.height, bands) {
        return SHORT;
    }
    ACCEPTED
}

/// `out_len` and `room_len` are the lengths of the output and of the working room.
pub fn block_inter_predict(a: &BlockArgs, out_len: usize, room_len: usize) -> u32 {
    let refs = &a.refs[..lists(a.average)];
    if wrong_side(a.w) || wrong_side(a.h) {
        return BLOCK;
    }
    if wrong_filter(a.filter) || wrong_depth(a.depth) {
        return FILTER;
    }
    if refs
        .iter()
        .any(|r| wrong_extent(r.bands.width) || wrong_extent(r.bands.height))
    {
        return SIZE;
    }
    if refs.iter().any(|r| wrong_start(&r.at)) {
        return START;
    }
    if refs
        .iter()
        .any(|r| short_bands(r.bands.width, r.bands.height, &r.bands))
        || short_rectangle(a.w, a.h, a.stride, out_len)
        || room_len < ROOM
    {
        return SHORT;
    }
    ACCEPTED
}

/// `dst_len` and `room_len` are the lengths of the destination and of the working room. The planes'
/// own `width` and `height` are no arguments of this call: a reference plane has the size of its
/// frame, "where halved, rounded up", and the bands are measured against that.
pub fn predict_inter(a: &PredictArgs, dst_len: usize, room_len: usize) -> u32 {
    let refs = &a.refs[..lists(a.average)];
    let vectors = &a.vectors[..lists(a.average)];
    if wrong_block(a) {
        return BLOCK;
    }
    if wrong_grid(&a.grid) || wrong_column(&a.grid) {
        return GRID;
    }
    if wrong_filter(a.filter) || wrong_depth(a.depth) {
        return FILTER;
    }
    if refs.iter().any(|r| wrong_frames(a, r)) {
        return SIZE;
    }
    if wrong_place(a.x) || wrong_place(a.y) {
        return START;
    }
    if refs.iter().any(|r| {
        short_bands(
            plane_extent(r.frame_width, a.plane, a.sub_x),
            plane_extent(r.frame_height, a.plane, a.sub_y),
            &r.bands,
        )
    }) || short_destination(a.dst_width, a.dst_height, dst_len)
        || room_len < ROOM
    {
        return SHORT;
    }
    if vectors.iter().flatten().any(wrong_vector) {
        return VECTOR;
    }
    ACCEPTED
}

/// Document 02, Req 11: "Give the rectangle itself as a function, with refusals 1, 5, 6 and nothing
/// else."
pub fn block_reach(a: &BlockReachArgs) -> u32 {
    if wrong_side(a.w) || wrong_side(a.h) {
        return BLOCK;
    }
    if wrong_extent(a.width) || wrong_extent(a.height) {
        return SIZE;
    }
    if wrong_start(&a.at) {
        return START;
    }
    ACCEPTED
}

/// The same of a whole prediction, in the plane of one list's reference: `predict_inter`'s rows but
/// those of filter, depth and buffers, and nothing of the other list. "Each call tests only what it
/// is given".
pub fn inter_reach(a: &PredictArgs, list: usize) -> u32 {
    if wrong_block(a) {
        return BLOCK;
    }
    if wrong_grid(&a.grid) || wrong_column(&a.grid) {
        return GRID;
    }
    if wrong_frames(a, &a.refs[list]) {
        return SIZE;
    }
    if wrong_place(a.x) || wrong_place(a.y) {
        return START;
    }
    if a.vectors[list].iter().any(wrong_vector) {
        return VECTOR;
    }
    ACCEPTED
}

/// "in prediction anything of list 1 only when averaging"
pub fn lists(average: bool) -> usize {
    if average { 2 } else { 1 }
}

/// "a reference's chroma size, where halved, is rounded up"
pub fn plane_extent(frame: i32, plane: usize, halved: bool) -> i32 {
    if plane > 0 && halved {
        (frame + 1) / 2
    } else {
        frame
    }
}

// Row 1, BLOCK.

/// All of it, for a whole prediction.
fn wrong_block(a: &PredictArgs) -> bool {
    wrong_size(a.grid.mi_size)
        || wrong_sub_block(a.block)
        || wrong_plane(a.plane)
        || wrong_side(a.w)
        || wrong_side(a.h)
        || no_partner(a.plane, a.grid.mi_size, a.block, a.sub_x, a.sub_y)
}

/// "block size above 12"
fn wrong_size(mi_size: u8) -> bool {
    mi_size > 12
}

/// "sub-block not .. 0..3 elsewhere"
fn wrong_sub_block(block: usize) -> bool {
    block > 3
}

/// "plane above 2"
fn wrong_plane(plane: usize) -> bool {
    plane > 2
}

/// "w or h not 1..64"
fn wrong_side(n: usize) -> bool {
    !(1..=64).contains(&n)
}

/// "Chroma of blocks below 8x8: .. halved height pairs sub-block b with b+2 (b = 2 or 3: refusal
/// 1); halved width pairs b with b+1 (b = 3: refusal 1 ..); both halved takes all four."
fn no_partner(plane: usize, mi_size: u8, block: usize, sub_x: bool, sub_y: bool) -> bool {
    if plane == 0 || mi_size >= BLOCK_8X8 {
        return false;
    }
    match (sub_x, sub_y) {
        (false, true) => block == 2 || block == 3,
        (true, false) => block == 3,
        (false, false) | (true, true) => false,
    }
}

// Row 2, GRID.

/// "mi_rows or mi_cols not 1..8192; not 0 <= mi_row < mi_rows"
fn wrong_grid(g: &Grid) -> bool {
    !(1..=8192).contains(&g.mi_rows)
        || !(1..=8192).contains(&g.mi_cols)
        || !(0..g.mi_rows).contains(&g.mi_row)
}

/// "not 0 <= tile start <= mi_col < tile end <= mi_cols"
fn wrong_tile(g: &Grid, t: &Tile) -> bool {
    !(0 <= t.start && t.start <= g.mi_col && g.mi_col < t.end && t.end <= g.mi_cols)
}

/// "(without a tile: 0 <= mi_col < mi_cols)"
fn wrong_column(g: &Grid) -> bool {
    !(0 <= g.mi_col && g.mi_col < g.mi_cols)
}

// Row 4, FILTER.

/// "filter above 3"
fn wrong_filter(filter: usize) -> bool {
    filter > 3
}

/// "bit depth not 8, 10 or 12"
fn wrong_depth(depth: u32) -> bool {
    ![8, 10, 12].contains(&depth)
}

// Row 5, SIZE.

/// "a frame, reference or reference plane width or height not 1..65536"
fn wrong_extent(n: i32) -> bool {
    !(1..=65536).contains(&n)
}

/// "A reference is allowed when, in each dimension, 2 x frame >= reference and frame <= 16 x
/// reference." Both are at most 65536 where this is asked.
fn allowed(frame: i32, reference: i32) -> bool {
    2 * frame >= reference && frame <= 16 * reference
}

/// One dimension of a frame and its reference.
fn wrong_reference(frame: i32, reference: i32) -> bool {
    wrong_extent(frame) || wrong_extent(reference) || !allowed(frame, reference)
}

/// Both, of a whole prediction.
fn wrong_frames(a: &PredictArgs, r: &FrameReference) -> bool {
    wrong_reference(a.frame_width, r.frame_width) || wrong_reference(a.frame_height, r.frame_height)
}

// Row 6, START.

/// "x or y not 0..65535"
fn wrong_place(n: i32) -> bool {
    !(0..=65535).contains(&n)
}

/// "a start outside -3,000,000..3,000,000; a step not 1..32"
fn wrong_start(at: &Scaled) -> bool {
    !(-3_000_000..=3_000_000).contains(&at.start_x)
        || !(-3_000_000..=3_000_000).contains(&at.start_y)
        || !(1..=32).contains(&at.step_x)
        || !(1..=32).contains(&at.step_y)
}

// Row 7, SHORT.

/// "with n = mi_rows x mi_cols ..: modes n; frames 2n ..; vectors 4n ..; sub-vectors 16n ..;
/// previous frames 2n and previous vectors 4n, needed only when the previous frame is used."
fn short_tables(g: &Grid, use_prev: bool, t: &Tables) -> bool {
    let n = g.mi_rows as usize * g.mi_cols as usize;
    t.modes.len() < n
        || t.frames.len() < 2 * n
        || t.vectors.len() < 4 * n
        || t.sub_vectors.len() < 16 * n
        || (use_prev && (t.prev_frames.len() < 2 * n || t.prev_vectors.len() < 4 * n))
}

/// "A plane of W by H samples needs stride >= W"; "more upper band rows than the plane has"; "The
/// upper band holds rows 0..k-1, the lower the rest".
fn short_bands(width: i32, height: i32, b: &Bands) -> bool {
    let (w, h) = (width as usize, height as usize);
    wrong_stride(b.stride, w)
        || b.upper_rows > h
        || (b.upper.len() as u64) < band_need(b.upper_rows, b.stride, w)
        || (b.lower.len() as u64) < band_need(h - b.upper_rows, b.stride, w)
}

/// "a stride too small or above 131,072"
fn wrong_stride(stride: usize, width: usize) -> bool {
    stride < width || stride > LARGEST_STRIDE
}

/// "A band of k rows needs (k-1) x stride + W samples, or none if k = 0."
pub fn band_need(rows: usize, stride: usize, width: usize) -> u64 {
    if rows == 0 {
        0
    } else {
        (rows as u64 - 1) * stride as u64 + width as u64
    }
}

/// "An output rectangle is measured the same way".
fn short_rectangle(w: usize, h: usize, stride: usize, len: usize) -> bool {
    wrong_stride(stride, w) || (len as u64) < band_need(h, stride, w)
}

/// "as is the destination plane, whose stride is its width (width and height 1..65536, else 7)"
fn short_destination(width: usize, height: usize, len: usize) -> bool {
    !(1..=65536).contains(&width)
        || !(1..=65536).contains(&height)
        || short_rectangle(width, height, width, len)
}

// Row 8, RECORD.

/// "Consulted records are those of the search places inside the tile and, with the previous frame,
/// the block's own previous record." Inside means row 0..mi_rows-1 and column in the tile.
fn illegal_record_consulted(a: &SearchArgs, t: &Tables) -> bool {
    let g = &a.grid;
    let current = PLACES[usize::from(g.mi_size)].iter().any(|place| {
        let (row, column) = (g.mi_row + place[0], g.mi_col + place[1]);
        let inside = 0 <= row && row < g.mi_rows && a.tile.start <= column && column < a.tile.end;
        inside && illegal_record(t, cell(g, row, column))
    });
    current || (a.use_prev && illegal_prev_record(t, cell(g, g.mi_row, g.mi_col)))
}

/// "cell i = row x mi_cols + column"
fn cell(g: &Grid, row: i32, column: i32) -> usize {
    row as usize * g.mi_cols as usize + column as usize
}

/// "Legal: mode 0..13, frame -1..3, components -32767..32767, for both lists and all sub-vectors."
fn illegal_record(t: &Tables, i: usize) -> bool {
    t.modes[i] > 13
        || t.frames[2 * i..2 * i + 2].iter().any(illegal_frame)
        || t.vectors[4 * i..4 * i + 4].iter().any(illegal_component)
        || t.sub_vectors[16 * i..16 * i + 16]
            .iter()
            .any(illegal_component)
}

fn illegal_prev_record(t: &Tables, i: usize) -> bool {
    t.prev_frames[2 * i..2 * i + 2].iter().any(illegal_frame)
        || t.prev_vectors[4 * i..4 * i + 4]
            .iter()
            .any(illegal_component)
}

fn illegal_frame(frame: &i8) -> bool {
    !(-1..=3).contains(frame)
}

fn illegal_component(component: &i16) -> bool {
    !(-32767..=32767).contains(component)
}

// Row 9, VECTOR.

/// "a vector handed in by value has a component outside -32767..32767"
fn wrong_vector(v: &Vector) -> bool {
    v.iter().any(|c| !(-32767..=32767).contains(c))
}

/// "for the scaling call, whose vector counts sixteenths, outside -65534..65534"
fn wrong_scaled_vector(v: &Vector) -> bool {
    v.iter().any(|c| !(-65534..=65534).contains(c))
}

/// Each boundary from both sides is a test of the cases (`cases::tests`), which have them all.
#[cfg(test)]
mod tests {
    use super::*;
    use crate::door::tables;

    #[test]
    fn places_are_those_of_the_rust() {
        assert_eq!(
            PLACES.as_flattened().as_flattened(),
            tables::place_offsets()
        );
    }

    #[test]
    fn extents_of_planes() {
        for (frame, halved) in [(1, 1), (2, 1), (3, 2), (65535, 32768), (65536, 32768)] {
            assert_eq!(plane_extent(frame, 0, true), frame);
            assert_eq!(plane_extent(frame, 1, false), frame);
            assert_eq!(plane_extent(frame, 1, true), halved);
            assert_eq!(plane_extent(frame, 2, true), halved);
        }
    }

    #[test]
    fn needs_of_bands() {
        assert_eq!(band_need(0, 7, 5), 0);
        assert_eq!(band_need(1, 7, 5), 5);
        assert_eq!(band_need(3, 7, 5), 19);
        assert_eq!(band_need(65536, 131_072, 65536), 65535 * 131_072 + 65536);
    }

    /// One mend after another: the number that is left, and what mends it.
    type Mends<A> = Vec<(u32, fn(&mut A))>;

    /// "Where several apply, the lowest number is given": wrong in every way, then mended from the
    /// lowest number up.
    fn mend<A>(mut a: A, mends: Mends<A>, number: impl Fn(&A) -> u32) {
        for (left, set) in mends {
            assert_eq!(number(&a), left);
            set(&mut a);
        }
        assert_eq!(number(&a), ACCEPTED);
    }

    fn wrong_vectors() -> BlockVectors {
        [[[0, -32768], [0, 0], [0, 0], [0, 0]], [[0, 0]; 4]]
    }

    #[test]
    fn lowest_of_select_mv() {
        let wrong = SelectArgs {
            vectors: wrong_vectors(),
            plane: 3,
            ..SelectArgs::default()
        };
        let mends: Mends<SelectArgs> = vec![
            (1, |a| (a.plane, a.block, a.sub_x) = (1, 3, true)),
            (1, |a| a.mi_size = 3),
            (9, |a| a.vectors[0][0][1] = -32767),
        ];
        mend(wrong, mends, select_mv);
    }

    #[test]
    fn lowest_of_clamp_mv() {
        let wrong = ClampArgs {
            plane: 3,
            vector: [0, 32768],
            ..ClampArgs::default()
        };
        let mends: Mends<ClampArgs> = vec![
            (1, |a| (a.plane, a.grid.mi_size) = (0, 13)),
            (1, |a| a.grid.mi_size = 12),
            (2, |a| (a.grid.mi_rows, a.grid.mi_cols) = (1, 0)),
            (2, |a| a.grid.mi_cols = 1),
            (9, |a| a.vector[1] = 32767),
        ];
        mend(wrong, mends, clamp_mv);
    }

    #[test]
    fn lowest_of_scale_mv() {
        let wrong = ScaleArgs {
            plane: 3,
            x: -1,
            y: 65536,
            vector: [65535, 0],
            ..ScaleArgs::default()
        };
        let mends: Mends<ScaleArgs> = vec![
            (1, |a| a.plane = 2),
            (5, |a| (a.frame_width, a.ref_width) = (100, 201)),
            (5, |a| (a.frame_height, a.ref_height) = (17, 1)),
            (5, |a| a.ref_width = 200),
            (5, |a| a.frame_height = 16),
            (6, |a| a.x = 0),
            (6, |a| a.y = 65535),
            (9, |a| a.vector[0] = 65534),
        ];
        mend(wrong, mends, scale_mv);
    }

    #[test]
    fn lowest_of_find_best_ref_mvs() {
        let mut wrong = BestArgs {
            pair: [[0, 0], [0, 40000]],
            ..BestArgs::default()
        };
        wrong.grid.mi_size = 13;
        let mends: Mends<BestArgs> = vec![
            (1, |a| a.grid.mi_size = 0),
            (2, |a| (a.grid.mi_rows, a.grid.mi_cols) = (1, 1)),
            (2, |a| a.tile.end = 1),
            (9, |a| a.pair[1][1] = 32767),
        ];
        mend(wrong, mends, find_best_ref_mvs);
    }

    /// Two cells in a row, the second asked for; the first has mode 14.
    fn two_cells() -> (AppendArgs, Tables) {
        let tables = Tables {
            modes: vec![14, 0],
            frames: vec![0; 4],
            vectors: vec![0; 8],
            sub_vectors: vec![0; 31],
            prev_frames: vec![0; 4],
            prev_vectors: vec![0; 7],
        };
        let mut a = AppendArgs::default();
        a.search.grid.mi_col = 1;
        a.search.use_prev = true;
        a.search.block = 4;
        a.block_vectors[3][0] = -40000;
        (a, tables)
    }

    #[test]
    fn lowest_of_the_searches() {
        let mends: Mends<(AppendArgs, Tables)> = vec![
            (1, |(a, _)| a.search.block = 0),
            (2, |(a, _)| {
                (a.search.grid.mi_rows, a.search.grid.mi_cols) = (1, 2)
            }),
            (2, |(a, _)| a.search.tile = Tile { start: 0, end: 2 }),
            (3, |(a, _)| a.search.target = 3),
            (7, |(_, t)| t.sub_vectors.push(0)),
            (7, |(_, t)| t.prev_vectors.push(-32768)),
            (8, |(_, t)| t.modes[0] = 13),
            (8, |(_, t)| t.prev_vectors[7] = -32767),
            (9, |(a, _)| a.block_vectors[3][0] = 0),
        ];
        mend(two_cells(), mends, |(a, t)| append_sub8x8_mvs(a, t));
    }

    #[test]
    fn sub_block_minus_1_is_for_the_search_alone() {
        let (mut a, mut tables) = two_cells();
        (a.search.grid.mi_rows, a.search.grid.mi_cols) = (1, 2);
        a.search.tile = Tile { start: 0, end: 2 };
        (a.search.target, a.search.use_prev, a.search.block) = (1, false, -1);
        tables.modes[0] = 0;
        tables.sub_vectors.push(0);
        assert_eq!(find_mv_refs(&a.search, &tables), ACCEPTED);
        assert_eq!(append_sub8x8_mvs(&a, &tables), BLOCK);
        a.search.block = -2;
        assert_eq!(find_mv_refs(&a.search, &tables), BLOCK);
    }

    #[test]
    fn lowest_of_row_read() {
        let mends: Mends<(Bands, usize)> = vec![
            (5, |(b, _)| b.width = 3),
            (5, |(b, _)| b.height = 2),
            (6, |(_, row)| *row = 1),
            (7, |(b, _)| b.stride = 3),
            (7, |(b, _)| b.upper = vec![0; 3]),
            (7, |(b, _)| b.lower = vec![0; 3]),
        ];
        let wrong = Bands {
            upper_rows: 1,
            ..Bands::default()
        };
        mend((wrong, 2), mends, |(b, row)| row_read(b, *row));
    }

    fn one_sample() -> Bands {
        Bands {
            width: 1,
            height: 1,
            stride: 1,
            upper_rows: 0,
            upper: vec![],
            lower: vec![0],
        }
    }

    #[test]
    fn lowest_of_block_inter_predict() {
        let mends: Mends<(BlockArgs, usize, usize)> = vec![
            (1, |(a, ..)| (a.w, a.h) = (64, 2)),
            (4, |(a, ..)| a.depth = 10),
            (5, |(a, ..)| a.refs = [0, 1].map(|_| Reference::default())),
            (5, |(a, ..)| a.refs[0].bands = one_sample()),
            (5, |(a, ..)| a.refs[1].bands = one_sample()),
            (6, |(a, ..)| {
                (a.refs[0].at.step_x, a.refs[0].at.step_y) = (1, 32)
            }),
            (6, |(a, ..)| {
                (a.refs[1].at.step_x, a.refs[1].at.step_y) = (32, 1)
            }),
            (7, |(a, ..)| a.stride = 65),
            (7, |(_, out, _)| *out = 65 + 64),
            (7, |(.., room)| *room = 8576),
        ];
        let wrong = BlockArgs {
            average: true,
            ..BlockArgs::default()
        };
        mend((wrong, 0, 0), mends, |(a, out, room)| {
            block_inter_predict(a, *out, *room)
        });
    }

    #[test]
    fn lowest_of_predict_inter() {
        let mends: Mends<(PredictArgs, usize, usize)> = vec![
            (1, |(a, ..)| (a.w, a.h) = (1, 64)),
            (2, |(a, ..)| (a.grid.mi_rows, a.grid.mi_cols) = (8192, 8192)),
            (4, |(a, ..)| a.depth = 12),
            (5, |(a, ..)| (a.frame_width, a.frame_height) = (1, 1)),
            (5, |(a, ..)| {
                (a.refs[0].frame_width, a.refs[0].frame_height) = (2, 1)
            }),
            (5, |(a, ..)| {
                (a.refs[1].frame_width, a.refs[1].frame_height) = (1, 3)
            }),
            (5, |(a, ..)| a.refs[1].frame_height = 1),
            (6, |(a, ..)| a.x = 0),
            (7, |(a, ..)| a.refs[0].bands = one_sample()),
            // Two samples wide.
            (7, |(a, ..)| {
                (a.refs[0].bands.stride, a.refs[0].bands.lower) = (2, vec![0; 2])
            }),
            (7, |(a, ..)| a.refs[1].bands = one_sample()),
            (7, |(a, ..)| (a.dst_width, a.dst_height) = (3, 2)),
            (7, |(_, dst, _)| *dst = 6),
            (7, |(.., room)| *room = 8576),
            (9, |(a, ..)| a.vectors[0][0][1] = 0),
        ];
        let wrong = PredictArgs {
            x: -1,
            average: true,
            vectors: wrong_vectors(),
            ..PredictArgs::default()
        };
        mend((wrong, 0, 0), mends, |(a, dst, room)| {
            predict_inter(a, *dst, *room)
        });
    }

    #[test]
    fn lowest_of_block_reach() {
        let wrong = BlockReachArgs {
            at: Scaled {
                start_x: 3_000_001,
                start_y: -3_000_001,
                ..Scaled::default()
            },
            ..BlockReachArgs::default()
        };
        let mends: Mends<BlockReachArgs> = vec![
            (1, |a| (a.w, a.h) = (64, 65)),
            (1, |a| a.h = 1),
            (5, |a| a.width = 65536),
            (5, |a| a.height = 1),
            (6, |a| a.at.start_x = 3_000_000),
            (6, |a| a.at.start_y = -3_000_000),
            (6, |a| a.at.step_x = 32),
            (6, |a| a.at.step_y = 1),
        ];
        mend(wrong, mends, block_reach);
    }

    /// Of list 0, the other list wrong to the end; then of list 1.
    #[test]
    fn lowest_of_inter_reach() {
        for list in 0..2 {
            let wrong = PredictArgs {
                x: -1,
                y: 65536,
                vectors: [wrong_vectors()[0]; 2],
                filter: usize::MAX,
                depth: 9,
                ..PredictArgs::default()
            };
            let mends: Mends<(PredictArgs, usize)> = vec![
                (1, |(a, _)| (a.w, a.h) = (1, 64)),
                (2, |(a, _)| (a.grid.mi_rows, a.grid.mi_cols) = (8192, 8192)),
                (5, |(a, i)| (a.frame_width, a.refs[*i].frame_width) = (1, 3)),
                (5, |(a, i)| {
                    (a.frame_height, a.refs[*i].frame_height) = (17, 1)
                }),
                (5, |(a, i)| a.refs[*i].frame_width = 2),
                (5, |(a, _)| a.frame_height = 16),
                (6, |(a, _)| a.x = 0),
                (6, |(a, _)| a.y = 65535),
                (9, |(a, i)| a.vectors[*i][0][1] = 0),
            ];
            mend((wrong, list), mends, |(a, list)| inter_reach(a, *list));
        }
    }
}
