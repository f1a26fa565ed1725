//! `predict_inter`.

use super::bytes::{Read, Reader, Writer};
use super::edges::*;
use super::planes::*;
use super::prediction::{self, *};
use super::rng::Rng;
use super::scale::ratios;
use super::staged::Numbered;
use crate::table::plane_extent;
use crate::terms::{Bands, BlockVectors, FrameReference, Grid, PredictArgs};
use crate::{door, plain, table};

type Query = prediction::Query<PredictArgs>;

// The parts of a record that a prediction and its reach have.

pub fn read_vectors(a: &mut PredictArgs, r: &mut Reader) -> Read<()> {
    for c in a.vectors.iter_mut().flatten().flatten() {
        *c = r.i32()?;
    }
    Ok(())
}

pub fn write_vectors(a: &PredictArgs, w: &mut Writer) {
    a.vectors.iter().flatten().for_each(|v| w.vector(v));
}

pub fn read_sizes(a: &mut PredictArgs, r: &mut Reader) -> Read<()> {
    for n in [
        &mut a.plane,
        &mut a.w,
        &mut a.h,
        &mut a.block,
        &mut a.filter,
    ] {
        *n = r.size()?;
    }
    Ok(())
}

pub fn write_sizes(a: &PredictArgs, w: &mut Writer) {
    for n in [a.plane, a.w, a.h, a.block, a.filter] {
        w.size(n);
    }
}

pub fn read_place(a: &mut PredictArgs, r: &mut Reader) -> Read<()> {
    a.x = r.i32()?;
    a.y = r.i32()?;
    a.grid = r.position()?;
    a.frame_width = r.i32()?;
    a.frame_height = r.i32()?;
    Ok(())
}

pub fn write_place(a: &PredictArgs, w: &mut Writer) {
    w.i32(a.x);
    w.i32(a.y);
    w.position(&a.grid);
    w.i32(a.frame_width);
    w.i32(a.frame_height);
}

pub fn read_kind(a: &mut PredictArgs, r: &mut Reader) -> Read<()> {
    a.depth = r.u32()?;
    a.grid.mi_size = r.u8()?;
    for b in [&mut a.sub_x, &mut a.sub_y, &mut a.average] {
        *b = r.bool()?;
    }
    Ok(())
}

pub fn write_kind(a: &PredictArgs, w: &mut Writer) {
    w.u32(a.depth);
    w.u8(a.grid.mi_size);
    for b in [a.sub_x, a.sub_y, a.average] {
        w.bool(b);
    }
}

impl Prediction for PredictArgs {
    const ANSWER_AT: usize = 236;
    const STREAM: u64 = 400;
    const NUMBER: fn(&Self, usize, usize) -> u32 = table::predict_inter;
    const BY_RUST: fn(&Self, &mut [u16]) = door::predict_inter;
    const BY_DEFINITION: fn(&Self, &mut [u16]) = plain::predict_inter;

    fn bands(&mut self, list: usize) -> &mut Bands {
        &mut self.refs[list].bands
    }

    /// Of the plane that the frame's size gives.
    fn size(&self, list: usize) -> (i32, i32) {
        let r = &self.refs[list];
        (
            plane_extent(r.frame_width, self.plane, self.sub_x),
            plane_extent(r.frame_height, self.plane, self.sub_y),
        )
    }

    /// Gives the frame this size.
    fn resize(&mut self, list: usize, width: i32, height: i32) {
        let r = &mut self.refs[list];
        (r.frame_width, r.frame_height) = (width, height);
    }

    fn depth_and_average(&mut self) -> (&mut u32, &mut bool) {
        (&mut self.depth, &mut self.average)
    }

    fn read_args(q: &mut Query, r: &mut Reader) -> Read<()> {
        let a = &mut q.args;
        read_vectors(a, r)?;
        for list in 0..2 {
            a.refs[list].frame_width = r.i32()?;
            a.refs[list].frame_height = r.i32()?;
            q.lent[list] = Lent::read(r)?;
        }
        read_sizes(a, r)?;
        a.dst_width = r.size()?;
        a.dst_height = r.size()?;
        read_place(a, r)?;
        read_kind(a, r)
    }

    fn write_args(q: &Query, w: &mut Writer) {
        let a = &q.args;
        write_vectors(a, w);
        for list in 0..2 {
            w.i32(a.refs[list].frame_width);
            w.i32(a.refs[list].frame_height);
            q.lent[list].write(w);
        }
        write_sizes(a, w);
        w.size(a.dst_width);
        w.size(a.dst_height);
        write_place(a, w);
        write_kind(a, w);
    }

    fn base() -> Query {
        let reference = |frame_width, frame_height| FrameReference {
            frame_width,
            frame_height,
            ..FrameReference::default()
        };
        Query {
            args: PredictArgs {
                x: 3,
                y: 2,
                w: 5,
                h: 4,
                depth: 8,
                average: true,
                grid: Grid {
                    mi_row: 0,
                    mi_col: 1,
                    mi_rows: 8,
                    mi_cols: 8,
                    mi_size: 0,
                },
                frame_width: 24,
                frame_height: 20,
                vectors: [
                    [[10, -20], [31, 40], [-52, 60], [73, -80]],
                    [[-11, 21], [-32, 41], [53, -61], [-74, -81]],
                ],
                refs: [reference(24, 20), reference(12, 10)],
                dst_width: 12,
                dst_height: 7,
                ..PredictArgs::default()
            },
            lent: [Lent::fit(26, 7, 24, 20), Lent::fit(12, 4, 12, 10)],
            out: 84,
            room: ROOM,
        }
    }

    fn edges() -> Vec<Edge<Query>> {
        let mut edges = block_edges();
        edges.extend(grid_edges(|q: &mut Query| &mut q.args.grid));
        edges.extend(column_edges(|q: &mut Query| &mut q.args.grid));
        edges.extend(place_edges());
        edges.extend(edges_of_lists(list_edges));
        edges.extend(destination_edges());
        edges.extend(chroma_edges());
        edges
    }

    /// Frames, references and destinations of the largest sizes, and every ratio's boundary.
    fn large_queries() -> Numbered<Query> {
        let mut queries = Vec::new();
        for (number, frame, reference) in ratios() {
            for list in 0..2 {
                queries.push((number, wide_query(number, list, frame, reference)));
                queries.push((number, high_query(number, list, frame, reference)));
            }
        }
        for (number, width, height, x, y) in [
            (0, 65_536, 1, 65_535, 0),
            (0, 65_536, 1, 65_532, 0),
            (0, 65_536, 1, 65_535, 1),
            (0, 1, 65_536, 0, 65_535),
            (0, 1, 65_536, 0, 65_532),
            (7, 65_537, 1, 65_535, 0),
            (7, 1, 65_537, 0, 65_535),
        ] {
            let mut q = Self::base();
            (q.args.dst_width, q.args.dst_height) = (width, height);
            (q.args.x, q.args.y) = (x, y);
            q.out = width * height;
            queries.push((number, q));
        }
        queries
    }

    fn placed() -> [Query; 3] {
        [[0, 0], [8, -8], [3, 2]].map(|vector| {
            let mut q = Self::base();
            q.args.vectors = [[vector; 4]; 2];
            q
        })
    }

    fn chance(rng: &mut Rng, bits: u32) -> Query {
        let mut q = Self::base();
        let a = &mut q.args;
        a.plane = rng.size(0, 2);
        (a.sub_x, a.sub_y) = (rng.coin(), rng.coin());
        (a.frame_width, a.frame_height) = (rng.within(1, 28), rng.within(1, 28));
        a.average = rng.coin();
        a.filter = rng.size(0, 3);
        a.depth = chance_depth(rng, bits);
        (a.w, a.h) = (chance_side(rng), chance_side(rng));
        (a.dst_width, a.dst_height) = (rng.size(1, 22), rng.size(1, 22));
        a.x = chance_place(rng, a.dst_width);
        a.y = chance_place(rng, a.dst_height);
        a.vectors = chance_vectors(rng);
        a.grid = chance_grid(rng, a.x, a.y);
        a.block = chance_block(rng, a.sub_x, a.sub_y);
        q.out = a.dst_width * a.dst_height + rng.pick(&[0, 0, 1, 4]);
        for list in 0..2 {
            let (width, height) = (q.args.frame_width, q.args.frame_height);
            q.resize(
                list,
                chance_reference(rng, width),
                chance_reference(rng, height),
            );
            let (width, height) = q.size(list);
            q.lent[list] = Lent::chance(rng, width, height);
        }
        q
    }

    fn spoil(q: &mut Query, list: usize, rng: &mut Rng) {
        match rng.below(9) {
            0 => q.args.w = 0,
            1 => q.args.grid.mi_row = q.args.grid.mi_rows,
            2 => q.args.filter = 4,
            3 => q.args.refs[list].frame_width = 2 * q.args.frame_width + 1,
            4 => q.args.x = rng.pick(&[-1, 65_536]),
            5 => (q.lent[list].upper, q.lent[list].lower) = (0, 0),
            6 => q.out -= 5.min(q.out),
            7 => q.room -= 1,
            _ => q.args.vectors[list][rng.size(0, 3)][0] = -32_768,
        }
    }
}

/// Rows 1 and 4 of the table.
fn block_edges() -> Vec<Edge<Query>> {
    let mut edges = each(sizes_to(1, 2), |q: &mut Query, n| q.args.plane = n);
    edges.extend(each(sizes_to(1, 3), |q: &mut Query, n| q.args.block = n));
    for (number, side) in SIDES {
        edges.push(edge(number, move |q: &mut Query| q.args.w = side));
        edges.push(edge(number, move |q: &mut Query| q.args.h = side));
    }
    edges.extend(each(sizes_to(4, 3), |q: &mut Query, n| q.args.filter = n));
    let depths = [(0, 8), (0, 10), (0, 12), (4, 0), (4, 9), (4, 11), (4, 13)];
    edges.extend(each(depths, |q: &mut Query, n| q.args.depth = n));
    edges
}

/// Rows 5 and 6: the frame's own size, x and y. A frame of a wrong size is refused whatever the
/// references are.
fn place_edges() -> Vec<Edge<Query>> {
    let mut edges = Vec::new();
    for n in WRONG_EXTENTS {
        edges.push(edge(5, move |q: &mut Query| q.args.frame_width = n));
        edges.push(edge(5, move |q: &mut Query| q.args.frame_height = n));
    }
    for (number, n) in values_within(6, 0, 65535) {
        edges.push(edge(number, move |q: &mut Query| q.args.x = n));
        edges.push(edge(number, move |q: &mut Query| q.args.y = n));
    }
    edges
}

/// What is judged of one list: rows 5, 7 and 9.
fn list_edges(list: usize) -> Vec<Edge<Query>> {
    let mut edges = extent_edges(
        |q: &mut Query, list| &mut q.args.refs[list].frame_width,
        list,
    );
    edges.extend(extent_edges(
        |q: &mut Query, list| &mut q.args.refs[list].frame_height,
        list,
    ));
    // Beside a frame of 24 by 20: one more than twice, one less than a sixteenth.
    for (width, height) in [(49, 10), (1, 10), (12, 41), (12, 1)] {
        edges.push(edge(5, move |q: &mut Query| q.resize(list, width, height)));
    }
    edges.extend(lent_edges(list, PredictArgs::base().size(list).1 as usize));
    for i in 0..8 {
        edges.extend(component_edges(move |q: &mut Query, n| {
            q.args.vectors[list][i / 2][i % 2] = n;
        }));
    }
    edges
}

/// The destination's size and length, the room, and blocks that overhang it.
fn destination_edges() -> Vec<Edge<Query>> {
    let sizes = [
        (0, (1, 84)),
        (0, (84, 1)),
        (0, (7, 12)),
        (7, (0, 7)),
        (7, (12, 0)),
        (7, (1 << 32, 1)),
        (7, (1, 1 << 32)),
        (7, (usize::MAX, 1)),
        (7, (usize::MAX, usize::MAX)),
    ];
    let mut edges = each(sizes, |q: &mut Query, size| {
        (q.args.dst_width, q.args.dst_height) = size;
    });
    let lengths = [(7, 83), (7, 0), (0, 85), (0, 100)];
    edges.extend(each(lengths, |q: &mut Query, n| q.out = n));
    let rooms = [(7, ROOM - 1), (7, 0), (0, ROOM + 1)];
    edges.extend(each(rooms, |q: &mut Query, n| q.room = n));
    // The block just inside, one over, one sample inside, just beyond.
    for (x, y) in [
        (7, 3),
        (8, 3),
        (7, 4),
        (11, 6),
        (12, 3),
        (7, 7),
        (12, 7),
        (8, 4),
    ] {
        for average in [false, true] {
            edges.push(edge(0, move |q: &mut Query| {
                (q.args.x, q.args.y, q.args.average) = (x, y, average);
            }));
        }
    }
    edges
}

/// Every sub-block under every subsampling in chroma, below and from 8x8 on; and frames of odd
/// size, whose halves are rounded up.
fn chroma_edges() -> Vec<Edge<Query>> {
    let missing = [(false, true, 2), (false, true, 3), (true, false, 3)];
    let mut edges = Vec::new();
    for (sub_x, sub_y) in [(false, false), (false, true), (true, false), (true, true)] {
        for (block, mi_size) in (0..4).flat_map(|block| [(block, 2), (block, 3)]) {
            let refused = mi_size < 3 && missing.contains(&(sub_x, sub_y, block));
            edges.push(edge(u32::from(refused), move |q: &mut Query| {
                (q.args.plane, q.args.block, q.args.grid.mi_size) = (1, block, mi_size);
                (q.args.sub_x, q.args.sub_y) = (sub_x, sub_y);
            }));
        }
        for (width, height) in [(23, 19), (24, 20), (1, 2), (2, 1), (3, 3)] {
            edges.push(edge(0, move |q: &mut Query| {
                (q.args.plane, q.args.sub_x, q.args.sub_y) = (2, sub_x, sub_y);
                (q.args.frame_width, q.args.frame_height) = (width, height);
                q.resize(0, width, height);
                q.resize(1, width, height);
                refit_both(q, 1);
            }));
        }
    }
    edges.extend(rounded_edges());
    edges
}

/// A frame of 23 by 19, both halved: 12 by 10 samples, in bands of 1 and 9 rows that are exactly
/// long enough or one short.
fn rounded_edges() -> Vec<Edge<Query>> {
    let lengths = [(0, (12, 108)), (7, (11, 108)), (7, (12, 107))];
    each(lengths, |q: &mut Query, (upper, lower)| {
        (q.args.plane, q.args.sub_x, q.args.sub_y) = (1, true, true);
        (q.args.frame_width, q.args.frame_height) = (23, 19);
        q.resize(0, 23, 19);
        q.lent[0] = Lent {
            stride: 12,
            upper_rows: 1,
            upper,
            lower,
        };
    })
}

/// Both references lent in one way that suits their sizes.
fn refit_both(q: &mut Query, upper_rows: usize) {
    for list in 0..2 {
        let (width, height) = q.size(list);
        refit(q, list, width as usize, upper_rows.min(height as usize));
    }
}

/// A frame of two rows, so that each band has one row; the other list's reference has its size. The
/// block lies at the frame's right end, in a destination of one row.
fn wide_query(number: u32, list: usize, frame: i32, reference: i32) -> Query {
    let mut q = PredictArgs::base();
    (q.args.frame_width, q.args.frame_height) = (frame, 2);
    q.resize(1 - list, frame, 2);
    q.resize(list, reference, 2);
    let width = frame.clamp(8, 65_536);
    (q.args.x, q.args.y) = (width - 8, 0);
    (q.args.dst_width, q.args.dst_height) = (width as usize, 1);
    q.out = width as usize;
    if number == 0 {
        refit_both(&mut q, 1);
    }
    q
}

/// The same of a frame of one column.
fn high_query(number: u32, list: usize, frame: i32, reference: i32) -> Query {
    let mut q = PredictArgs::base();
    (q.args.frame_width, q.args.frame_height) = (1, frame);
    q.resize(1 - list, 1, frame);
    q.resize(list, 1, reference);
    let height = frame.clamp(8, 65_536);
    (q.args.x, q.args.y) = (0, height - 8);
    (q.args.dst_width, q.args.dst_height) = (1, height as usize);
    q.out = height as usize;
    if number == 0 {
        refit_both(&mut q, reference as usize / 2);
    }
    q
}

/// Of a frame of at most 28: of its size, near 2:1, near 1:16, or between; at most 28 too, so that
/// the bands of a scene suffice.
fn chance_reference(rng: &mut Rng, frame: i32) -> i32 {
    let reference = match rng.below(6) {
        0..=2 => frame,
        3 => 2 * frame - rng.within(0, 1),
        4 => (frame + 15) / 16,
        _ => rng.within((frame + 15) / 16, 2 * frame),
    };
    reference.min(28)
}

fn chance_place(rng: &mut Rng, extent: usize) -> i32 {
    match rng.below(40) {
        0 => rng.within(0, 65_535),
        1..=3 => rng.within(0, extent as i32 + 3),
        4..=12 => 0,
        _ => rng.within(0, (extent as i32 - 1) / 4) * 4,
    }
}

pub fn chance_vectors(rng: &mut Rng) -> BlockVectors {
    let limit = if rng.once_in(60) { 32768 } else { 32767 };
    let mut vectors = BlockVectors::default();
    for c in vectors.iter_mut().flatten().flatten() {
        *c = match rng.below(8) {
            0 => component(rng, limit),
            1..=2 => 8 * rng.within(-4, 4),
            _ => rng.within(-60, 60),
        };
    }
    vectors
}

/// Around the block: the cells of the frame where they are enough, else more.
pub fn chance_grid(rng: &mut Rng, x: i32, y: i32) -> Grid {
    let mi_row = (y / 8).min(8191);
    let mi_col = (x / 8).min(8191);
    Grid {
        mi_row,
        mi_col,
        mi_rows: (mi_row + rng.within(1, 4)).min(8192),
        mi_cols: (mi_col + rng.within(1, 4)).min(8192),
        mi_size: rng.pick(&[0, 1, 2, 3, 4, 5, 6, 9, 12]),
    }
}

/// A sub-block that has its partner, mostly.
pub fn chance_block(rng: &mut Rng, sub_x: bool, sub_y: bool) -> usize {
    let last = match (sub_x, sub_y) {
        (false, true) => 1,
        (true, false) => 2,
        _ => 3,
    };
    if rng.once_in(30) {
        3
    } else {
        rng.size(0, last)
    }
}
