//! The boundaries of document 01's table: each edge moves one thing of a base case to one side of a
//! boundary, and says which number it must give there. The stored answer comes from `table`; that
//! both agree is a test.

use super::rng::Rng;
use crate::terms::{Grid, Tile};

pub struct Edge<A> {
    pub number: u32,
    pub set: Box<dyn Fn(&mut A)>,
}

pub fn edge<A>(number: u32, set: impl Fn(&mut A) + 'static) -> Edge<A> {
    Edge {
        number,
        set: Box::new(set),
    }
}

/// An edge for each value, which comes with the number that it must give.
pub fn each<A: 'static, T: Copy + 'static>(
    values: impl IntoIterator<Item = (u32, T)>,
    set: impl Fn(&mut A, T) + Copy + 'static,
) -> Vec<Edge<A>> {
    let one = |(number, value)| edge(number, move |a: &mut A| set(a, value));
    values.into_iter().map(one).collect()
}

/// The base case, each edge alone, then two refusals at once for each pair of numbers (the first
/// edge of each): the lower one must win.
pub fn spread<A: Clone>(base: &A, edges: &[Edge<A>]) -> Vec<(u32, A)> {
    let with = |set: &[&Edge<A>]| {
        let mut case = base.clone();
        for e in set {
            (e.set)(&mut case);
        }
        case
    };
    let mut cases = vec![(0, base.clone())];
    cases.extend(edges.iter().map(|e| (e.number, with(&[e]))));
    let firsts: Vec<&Edge<A>> = (1..=9)
        .filter_map(|n| edges.iter().find(|e| e.number == n))
        .collect();
    for (i, low) in firsts.iter().enumerate() {
        for high in &firsts[i + 1..] {
            cases.push((low.number, with(&[high, low])));
        }
    }
    cases
}

/// Values of an unsigned argument that may be at most `last`; the last two would pass if cut to 32
/// bits or taken for a signed number.
pub fn sizes_to(number: u32, last: usize) -> Vec<(u32, usize)> {
    vec![
        (0, 0),
        (0, last),
        (number, last + 1),
        (number, 1 << 32),
        (number, usize::MAX),
    ]
}

/// Values of a signed argument that must be within low..=high.
pub fn values_within(number: u32, low: i32, high: i32) -> Vec<(u32, i32)> {
    vec![
        (0, low),
        (0, high),
        (number, low - 1),
        (number, high + 1),
        (number, i32::MIN),
        (number, i32::MAX),
    ]
}

/// Row 9 of the table for one component of a vector in eighths.
pub fn component_edges<A: 'static>(set: impl Fn(&mut A, i32) + Copy + 'static) -> Vec<Edge<A>> {
    each(values_within(9, -32767, 32767), set)
}

/// Values of mi_size.
pub const BLOCK_SIZES: [(u32, u8); 4] = [(0, 0), (0, 12), (1, 13), (1, 255)];

/// Edges of the block size and of the grid, for any call that is given a grid. The base stands
/// inside an 8 by 8 grid, its tile reaching from column 0 to 8.
pub fn grid_edges<A: 'static>(grid: fn(&mut A) -> &mut Grid) -> Vec<Edge<A>> {
    let mut edges = each(BLOCK_SIZES, move |a, size| grid(a).mi_size = size);
    edges.extend(each(positions(), move |a, (row, rows)| {
        (grid(a).mi_row, grid(a).mi_rows) = (row, rows);
    }));
    edges
}

/// Edges of the columns of a call without a tile.
pub fn column_edges<A: 'static>(grid: fn(&mut A) -> &mut Grid) -> Vec<Edge<A>> {
    each(positions(), move |a, (column, columns)| {
        (grid(a).mi_col, grid(a).mi_cols) = (column, columns);
    })
}

/// Edges of the columns and the tile.
pub fn tile_edges<A: 'static>(at: fn(&mut A) -> (&mut Grid, &mut Tile)) -> Vec<Edge<A>> {
    // Start, column, end, columns.
    let places = [
        (0, (0, 0, 1, 1)),
        (0, (0, 0, 8, 8)),
        (0, (0, 7, 8, 8)),
        (0, (3, 3, 4, 8)),
        (0, (2, 3, 5, 8)),
        (0, (7, 7, 8, 8)),
        (2, (-1, 3, 8, 8)),
        (2, (i32::MIN, 3, 8, 8)),
        (2, (4, 3, 8, 8)),
        (2, (0, 3, 3, 8)),
        (2, (3, 3, 3, 8)),
        (2, (0, 3, 9, 8)),
        (2, (0, 3, i32::MAX, 8)),
        (2, (-1, -1, 8, 8)),
        (2, (0, -1, 8, 8)),
        (2, (0, 8, 8, 8)),
        (2, (0, 8, 9, 8)),
        (2, (0, 0, 1, 0)),
        (2, (0, 0, 0, 0)),
        (2, (0, 3, 8, 8193)),
        (2, (0, 8192, 8193, 8193)),
        (2, (0, 0, 1, i32::MAX)),
        (2, (0, 0, 1, i32::MIN)),
    ];
    each(places, move |a, (start, column, end, columns)| {
        let (grid, tile) = at(a);
        (tile.start, tile.end) = (start, end);
        (grid.mi_col, grid.mi_cols) = (column, columns);
    })
}

/// A place among `count` rows or columns, from both sides of each boundary; the large grids that
/// are legal are left to calls without tables.
fn positions() -> [(u32, (i32, i32)); 13] {
    [
        (0, (0, 1)),
        (0, (0, 8)),
        (0, (7, 8)),
        (2, (-1, 8)),
        (2, (i32::MIN, 8)),
        (2, (8, 8)),
        (2, (i32::MAX, 8)),
        (2, (0, 0)),
        (2, (0, -1)),
        (2, (0, i32::MIN)),
        (2, (0, 8193)),
        (2, (8192, 8193)),
        (2, (0, i32::MAX)),
    ]
}

/// Where the base of a call that clamps stands.
pub const BASE_GRID: Grid = Grid {
    mi_row: 3,
    mi_col: 2,
    mi_rows: 8,
    mi_cols: 8,
    mi_size: 3,
};

/// The largest legal grids.
pub fn large_grids() -> [Grid; 3] {
    [0, 4095, 8191].map(|at| Grid {
        mi_row: at,
        mi_col: 8191 - at,
        mi_rows: 8192,
        mi_cols: 8192,
        ..BASE_GRID
    })
}

/// A component of a vector of at most `limit`: mostly small, else any, or near the limit.
pub fn component(rng: &mut Rng, limit: i32) -> i32 {
    match rng.below(16) {
        0..=6 => rng.within(-9, 9),
        7..=9 => rng.within(-300, 300),
        10..=12 => rng.within(-limit, limit),
        13 => limit - rng.within(0, 3),
        14 => rng.within(0, 3) - limit,
        _ => rng.pick(&[0, 0, 1, -1, limit, -limit]),
    }
}

/// A component at, or within two of, a side of what a clamp lets through.
pub fn near_side(rng: &mut Rng, (low, high): (i32, i32)) -> i32 {
    (rng.pick(&[low, high]) + rng.within(-2, 2)).clamp(-32767, 32767)
}

/// In cells: the block's row, the rows of the frame and those of the block; then columns likewise.
pub fn rows_and_columns(g: &Grid) -> [(i32, i32, i32); 2] {
    let size = usize::from(g.mi_size);
    [
        (g.mi_row, g.mi_rows, HIGH[size]),
        (g.mi_col, g.mi_cols, WIDE[size]),
    ]
}

/// Width and height of a block size in cells: `num_8x8_blocks_wide_lookup` and
/// `num_8x8_blocks_high_lookup` of src/partition.rs.
const WIDE: [i32; 13] = [1, 1, 1, 1, 1, 2, 2, 2, 4, 4, 4, 8, 8];
const HIGH: [i32; 13] = [1, 1, 1, 1, 2, 1, 2, 4, 2, 4, 8, 4, 8];
