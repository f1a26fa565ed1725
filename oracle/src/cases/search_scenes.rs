//! What is asked of the search: scenes for each boundary, and scenes by chance. `least_block` is
//! the least sub-block that the call takes: -1 for `find_mv_refs`, 0 for `append_sub8x8_mvs`.

use super::edges::*;
use super::rng::Rng;
use super::search::{CAPACITY, PER_CELL, Query, Scene};
use super::staged::Numbered;
use crate::table::PLACES;
use crate::terms::{AppendArgs, Grid, SearchArgs, Tables, Tile, Vector};

pub fn boundaries(least_block: i32) -> Vec<(Scene, Numbered<Query>)> {
    let mut scenes = vec![
        argument_stage(least_block),
        long_stage(),
        place_stage(),
        context_stage(),
        equal_stage(least_block),
    ];
    scenes.extend(record_stages());
    scenes
}

// Scenes for boundaries.

/// An 8 by 8 grid whose tables are exactly long enough.
fn base_query(scene: &Scene) -> Query {
    Query {
        args: AppendArgs {
            search: SearchArgs {
                grid: Grid {
                    mi_row: 3,
                    mi_col: 3,
                    mi_rows: 8,
                    mi_cols: 8,
                    mi_size: 0,
                },
                tile: Tile { start: 0, end: 8 },
                target: 1,
                block: 3,
                sign_bias: [false, false, true, false],
                use_prev: true,
            },
            block_vectors: [[8, -16], [8, -16], [9, 4], [0, 0]],
        },
        lengths: scene.lengths(),
    }
}

/// Boundaries of the arguments and of the lengths of the tables.
fn argument_stage(least_block: i32) -> (Scene, Numbered<Query>) {
    let scene = Scene {
        pattern: chance_tables(&mut Rng::new(1, 100), CAPACITY),
        cells: CAPACITY,
    };
    let mut edges = grid_edges(|q: &mut Query| &mut q.args.search.grid);
    edges.extend(tile_edges(|q: &mut Query| {
        let s = &mut q.args.search;
        (&mut s.grid, &mut s.tile)
    }));
    for (number, target) in values_within(3, 1, 3) {
        edges.push(edge(number, move |q: &mut Query| {
            q.args.search.target = target
        }));
    }
    for (number, block) in values_within(1, least_block, 3) {
        edges.push(edge(number, move |q: &mut Query| {
            q.args.search.block = block
        }));
    }
    edges.extend(length_edges());
    for bias in 0..16 {
        edges.push(edge(0, move |q: &mut Query| {
            q.args.search.sign_bias = [1, 2, 4, 8].map(|bit| bias & bit != 0);
        }));
    }
    if least_block == 0 {
        edges.extend(block_vector_edges());
    }
    let queries = spread(&base_query(&scene), &edges);
    (scene, queries)
}

/// Each table one element short, empty, or short where the previous frame isn't used; grids that
/// need less, and grids that need far more.
fn length_edges() -> Vec<Edge<Query>> {
    let mut edges = Vec::new();
    for t in 0..6 {
        edges.push(edge(7, move |q: &mut Query| q.lengths[t] -= 1));
        edges.push(edge(7, move |q: &mut Query| q.lengths[t] = 0));
        let unused = if t < 4 { 7 } else { 0 };
        edges.push(edge(unused, move |q: &mut Query| {
            q.lengths[t] = 0;
            q.args.search.use_prev = false;
        }));
    }
    for (number, rows, cols) in [
        (0, 7, 8),
        (0, 4, 8),
        (7, 9, 8),
        (7, 8192, 8),
        (7, 8192, 8192),
    ] {
        edges.push(edge(number, move |q: &mut Query| {
            (q.args.search.grid.mi_rows, q.args.search.grid.mi_cols) = (rows, cols);
        }));
    }
    edges
}

/// The four vectors by value, and the choices that document 01 tells apart.
fn block_vector_edges() -> Vec<Edge<Query>> {
    let mut edges = Vec::new();
    for i in 0..8 {
        edges.extend(component_edges(move |q: &mut Query, n| {
            q.args.block_vectors[i / 2][i % 2] = n;
        }));
    }
    // Which of the first three are equal, by the bits of `same`.
    for block in 0..4 {
        for same in 0..8 {
            edges.push(edge(0, move |q: &mut Query| {
                let of = |bit: i32| {
                    if same & bit == 0 {
                        [2 * bit, 3]
                    } else {
                        [5, 5]
                    }
                };
                q.args.search.block = block;
                q.args.block_vectors = [of(1), of(2), of(4), [7, 7]];
            }));
        }
    }
    edges
}

/// Grids of the largest extents, and a square one, with tables that are long enough or one short.
fn long_stage() -> (Scene, Numbered<Query>) {
    let scene = Scene {
        pattern: chance_tables(&mut Rng::new(2, 100), 61),
        cells: 8192,
    };
    let mut queries = Vec::new();
    for (rows, cols) in [(8192, 1), (1, 8192), (64, 128)] {
        for (row, col) in [(0, 0), (rows / 2, cols / 2), (rows - 1, cols - 1)] {
            let mut query = base_query(&scene);
            let s = &mut query.args.search;
            s.grid = Grid {
                mi_row: row,
                mi_col: col,
                mi_rows: rows,
                mi_cols: cols,
                mi_size: 12,
            };
            s.tile = Tile {
                start: 0,
                end: cols,
            };
            queries.push((0, query.clone()));
            query.lengths[(row + col) as usize % 6] -= 1;
            queries.push((7, query));
        }
    }
    (scene, queries)
}

/// One illegal record in a grid of 8 by 10, at row 4, column 6, where every place of every size can
/// find it; and the same blocks with a tile that leaves it out.
fn place_stage() -> (Scene, Numbered<Query>) {
    let (rows, cols, row, col) = (8, 10, 4, 6);
    let mut pattern = chance_tables(&mut Rng::new(3, 100), CAPACITY);
    pattern.modes[(row * cols + col) as usize] = 14;
    let scene = Scene {
        pattern,
        cells: (rows * cols) as usize,
    };
    let mut queries = Vec::new();
    for (mi_size, places) in PLACES.iter().enumerate() {
        for place in places {
            let mut query = base_query(&scene);
            let s = &mut query.args.search;
            s.grid = Grid {
                mi_row: row - place[0],
                mi_col: col - place[1],
                mi_rows: rows,
                mi_cols: cols,
                mi_size: mi_size as u8,
            };
            s.tile = Tile {
                start: 0,
                end: cols,
            };
            queries.push((8, query.clone()));
            if place[1] != 0 {
                queries.push((0, without_column(query, col)));
            }
        }
    }
    queries.extend(lower_numbers(&queries[0].1));
    (scene, queries)
}

/// The block stands beside the column, so that a tile can end or begin between the two.
fn without_column(mut query: Query, col: i32) -> Query {
    let s = &mut query.args.search;
    if s.grid.mi_col < col {
        s.tile.end = col;
    } else {
        s.tile.start = col + 1;
    }
    query
}

/// An illegal record with a lower number's refusal beside it, and with a wrong vector, whose number
/// is higher.
fn lower_numbers(query: &Query) -> Numbered<Query> {
    let edges: [Edge<Query>; 5] = [
        edge(1, |q: &mut Query| q.args.search.grid.mi_size = 13),
        edge(2, |q: &mut Query| q.args.search.tile.start = -1),
        edge(3, |q: &mut Query| q.args.search.target = 0),
        edge(7, |q: &mut Query| q.lengths[5] = 0),
        edge(8, |q: &mut Query| q.args.block_vectors[0][0] = 40000),
    ];
    let set = |e: &Edge<Query>| {
        let mut query = query.clone();
        (e.set)(&mut query);
        (e.number, query)
    };
    edges.iter().map(set).collect()
}

/// Every two kinds of mode: a block of size 0 in the second of two rows counts the cell above it
/// and the one before it, unless the tile begins with the block. Kind 11 counts as 10 does.
fn context_stage() -> (Scene, Numbered<Query>) {
    const KINDS: [u8; 4] = [5, 10, 12, 13];
    let cols = 2 * KINDS.len() * KINDS.len();
    let mut pattern = chance_tables(&mut Rng::new(4, 100), 2 * cols);
    let mut blocks = Vec::new();
    for (i, above) in KINDS.into_iter().enumerate() {
        for (j, before) in KINDS.into_iter().enumerate() {
            let column = 2 * (i * KINDS.len() + j) + 1;
            pattern.modes[column] = above;
            pattern.modes[cols + column - 1] = before;
            blocks.push(column as i32);
        }
    }
    let scene = Scene {
        pattern,
        cells: 2 * cols,
    };
    let mut queries = Vec::new();
    for mi_col in blocks {
        for start in [mi_col - 1, mi_col] {
            let mut query = base_query(&scene);
            let s = &mut query.args.search;
            s.grid.mi_row = 1;
            s.grid.mi_rows = 2;
            (s.grid.mi_col, s.grid.mi_cols) = (mi_col, cols as i32);
            s.tile = Tile {
                start,
                end: mi_col + 1,
            };
            queries.push((0, query));
        }
    }
    (scene, queries)
}

/// Every vector of every record the same, and the block's four too: what is offered is that or its
/// negation, and what is missing is zero.
fn equal_stage(least_block: i32) -> (Scene, Numbered<Query>) {
    let scene = Scene {
        pattern: Tables {
            modes: vec![13],
            frames: vec![1, 2],
            vectors: vec![6, -10, 6, -10],
            sub_vectors: [6, -10].repeat(8),
            prev_frames: vec![2, 3],
            prev_vectors: vec![6, -10, 6, -10],
        },
        cells: CAPACITY,
    };
    let mut queries = Vec::new();
    for (target, block) in (1..=3).flat_map(|t| (least_block..=3).map(move |b| (t, b))) {
        for opposed in [false, true] {
            let mut query = base_query(&scene);
            query.args.block_vectors = [[6, -10]; 4];
            let s = &mut query.args.search;
            (s.target, s.block) = (target, block);
            s.sign_bias = [false, opposed, false, opposed];
            queries.push((0, query));
        }
    }
    (scene, queries)
}

/// A single row of cells: a block of size 0 with a tile of two columns consults only the cell
/// before it. Each such cell has one value at a boundary of what is legal.
fn record_stages() -> Vec<(Scene, Numbered<Query>)> {
    let mut stages = Vec::new();
    let current = current_values();
    // The last cell has no cell after it to ask from.
    for part in current.chunks(CAPACITY - 1) {
        stages.push(record_stage(part, false));
    }
    stages.push(record_stage(&previous_values(), true));
    stages
}

/// Which table, which element of the cell, the value, and the number it gives.
type Value = (usize, usize, i16, u32);

const MODE_VALUES: [(i16, u32); 4] = [(0, 0), (13, 0), (14, 8), (255, 8)];
const FRAME_VALUES: [(i16, u32); 6] = [(-1, 0), (3, 0), (-2, 8), (4, 8), (-128, 8), (127, 8)];
const COMPONENT_VALUES: [(i16, u32); 3] = [(-32767, 0), (32767, 0), (-32768, 8)];

fn current_values() -> Vec<Value> {
    let mut values: Vec<Value> = MODE_VALUES.map(|(v, number)| (0, 0, v, number)).into();
    values.extend(table_values(1, &FRAME_VALUES));
    values.extend(table_values(2, &COMPONENT_VALUES));
    values.extend(table_values(3, &COMPONENT_VALUES));
    values
}

fn previous_values() -> Vec<Value> {
    let mut values = table_values(4, &FRAME_VALUES);
    values.extend(table_values(5, &COMPONENT_VALUES));
    values
}

fn table_values(table: usize, values: &[(i16, u32)]) -> Vec<Value> {
    let of = |i| values.iter().map(move |&(v, number)| (table, i, v, number));
    (0..PER_CELL[table]).flat_map(of).collect()
}

fn record_stage(values: &[Value], previous: bool) -> (Scene, Numbered<Query>) {
    let mut pattern = chance_tables(&mut Rng::new(5, 100), CAPACITY);
    for (cell, value) in values.iter().enumerate() {
        put(&mut pattern, cell, value);
    }
    let scene = Scene {
        pattern,
        cells: CAPACITY,
    };
    let mut queries = Vec::new();
    for (cell, &(.., number)) in (0..).zip(values) {
        queries.push((number, record_query(&scene, cell, previous)));
        if previous {
            let mut unused = record_query(&scene, cell, true);
            unused.args.search.use_prev = false;
            queries.push((0, unused));
        }
    }
    (scene, queries)
}

fn record_query(scene: &Scene, cell: i32, previous: bool) -> Query {
    let mut query = base_query(scene);
    let s = &mut query.args.search;
    let mi_col = if previous { cell } else { cell + 1 };
    s.grid = Grid {
        mi_row: 0,
        mi_col,
        mi_rows: 1,
        mi_cols: CAPACITY as i32,
        mi_size: 0,
    };
    s.tile = Tile {
        start: cell,
        end: mi_col + 1,
    };
    s.use_prev = previous;
    query
}

fn put(t: &mut Tables, cell: usize, &(table, i, value, _): &Value) {
    let at = cell * PER_CELL[table] + i;
    match table {
        0 => t.modes[at] = value as u8,
        1 => t.frames[at] = value as i8,
        2 => t.vectors[at] = value,
        3 => t.sub_vectors[at] = value,
        4 => t.prev_frames[at] = value as i8,
        _ => t.prev_vectors[at] = value,
    }
}

// Scenes by chance.

/// A few vectors, so that offers meet their equals and their negations; two are far out and differ
/// only beyond what the clamp lets through.
fn palette(rng: &mut Rng) -> Vec<Vector> {
    let small = [rng.within(-40, 40), rng.within(-40, 40)];
    let other = [rng.within(-300, 300), small[1]];
    let far = rng.pick(&[2000, 9000, 32766]);
    let far = [far, rng.pick(&[far, 3, -far])];
    let mut vectors = vec![small, small, other, far];
    vectors.push([far[0] + 1, far[1]]);
    vectors.push([0, 0]);
    for i in 0..4 {
        vectors.push([-vectors[i][0], -vectors[i][1]]);
    }
    vectors
}

/// How the frames of a scene are spread: mostly intra, mostly one frame, mostly two, any.
fn chance_frames(rng: &mut Rng, style: u64) -> [i8; 2] {
    match style {
        0 if !rng.once_in(4) => [0, rng.pick(&[-1, 0])],
        1 if !rng.once_in(4) => [1, -1],
        2 if !rng.once_in(4) => [rng.within(1, 3) as i8, rng.within(1, 3) as i8],
        _ => [rng.within(0, 3) as i8, rng.within(-1, 3) as i8],
    }
}

fn chance_tables(rng: &mut Rng, cells: usize) -> Tables {
    let mut t = Tables::default();
    let vectors = palette(rng);
    let style = rng.below(4);
    let put = |into: &mut Vec<i16>, v: Vector| into.extend(v.map(|c| c as i16));
    for _ in 0..cells {
        t.modes.push(rng.pick(&[0, 5, 9, 10, 11, 12, 12, 13, 13]));
        t.frames.extend(chance_frames(rng, style));
        t.prev_frames.extend(chance_frames(rng, style));
        for _ in 0..2 {
            let whole = rng.pick(&vectors);
            put(&mut t.vectors, whole);
            put(&mut t.prev_vectors, rng.pick(&vectors));
            let alike = rng.once_in(3);
            for _ in 0..4 {
                let v = if alike { whole } else { rng.pick(&vectors) };
                put(&mut t.sub_vectors, v);
            }
        }
    }
    t
}

pub fn random(rng: &mut Rng, least_block: i32) -> (Scene, Vec<Query>) {
    let (rows, cols) = (rng.within(1, 12), rng.within(1, 16));
    let cells = (rows * cols) as usize + rng.size(0, 5);
    let mut pattern = chance_tables(rng, cells.min(CAPACITY));
    if rng.once_in(5) {
        let values = [current_values(), previous_values()].concat();
        let cell = rng.size(0, pattern.modes.len() - 1);
        put(&mut pattern, cell, &rng.pick(&values));
    }
    let scene = Scene { pattern, cells };
    let queries = (0..16)
        .map(|_| chance_query(rng, &scene, (rows, cols), least_block))
        .collect();
    (scene, queries)
}

fn chance_query(rng: &mut Rng, scene: &Scene, (rows, cols): (i32, i32), least_block: i32) -> Query {
    let mut query = base_query(scene);
    let s = &mut query.args.search;
    s.grid = Grid {
        mi_row: rng.within(0, rows - 1),
        mi_col: rng.within(0, cols - 1),
        mi_rows: rows,
        mi_cols: cols,
        mi_size: rng.within(0, 12) as u8,
    };
    s.tile = Tile {
        start: rng.within(0, s.grid.mi_col),
        end: rng.within(s.grid.mi_col + 1, cols),
    };
    if rng.coin() {
        s.tile = Tile {
            start: 0,
            end: cols,
        };
    }
    s.target = rng.within(1, 3);
    s.block = rng.within(least_block, 3);
    s.sign_bias = [0; 4].map(|_: i32| rng.coin());
    s.use_prev = rng.coin();
    for v in &mut query.args.block_vectors {
        let i = 2 * rng.size(0, scene.pattern.vectors.len() / 2 - 1);
        let from = &scene.pattern.vectors[i..i + 2];
        *v = [from[0].max(-32767), from[1].max(-32767)].map(i32::from);
    }
    if rng.once_in(25) {
        spoil(rng, &mut query);
    }
    query
}

/// One wrong thing.
fn spoil(rng: &mut Rng, query: &mut Query) {
    let s = &mut query.args.search;
    match rng.below(6) {
        0 => s.grid.mi_size = 13,
        1 => s.block = rng.pick(&[-2, 4]),
        2 => s.tile.start = s.grid.mi_col + 1,
        3 => s.target = rng.pick(&[0, 4]),
        4 => query.lengths[rng.size(0, 5)] = 0,
        _ => query.args.block_vectors[rng.size(0, 3)][0] = rng.pick(&[32768, -32768]),
    }
}
