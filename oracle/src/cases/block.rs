//! `block_inter_predict`: from one reference, or from two and averaged.

use super::bytes::{Read, Reader, Writer};
use super::edges::*;
use super::planes::*;
use super::prediction::{self, *};
use super::rng::Rng;
use super::staged::Numbered;
use crate::terms::{Bands, BlockArgs, Reference, Scaled};
use crate::{door, plain, table};

type Query = prediction::Query<BlockArgs>;

impl Query {
    fn at(&mut self, list: usize) -> &mut Scaled {
        &mut self.args.refs[list].at
    }

    /// The output, just long enough.
    fn fit_output(&mut self) {
        self.out = (self.args.h - 1) * self.args.stride + self.args.w;
    }
}

impl Prediction for BlockArgs {
    const ANSWER_AT: usize = 144;
    const STREAM: u64 = 300;
    const NUMBER: fn(&Self, usize, usize) -> u32 = table::block_inter_predict;
    const BY_RUST: fn(&Self, &mut [u16]) = door::block_inter_predict;
    const BY_DEFINITION: fn(&Self, &mut [u16]) = plain::block_inter_predict;

    fn bands(&mut self, list: usize) -> &mut Bands {
        &mut self.refs[list].bands
    }

    fn size(&self, list: usize) -> (i32, i32) {
        let bands = &self.refs[list].bands;
        (bands.width, bands.height)
    }

    fn resize(&mut self, list: usize, width: i32, height: i32) {
        let bands = self.bands(list);
        (bands.width, bands.height) = (width, height);
    }

    fn depth_and_average(&mut self) -> (&mut u32, &mut bool) {
        (&mut self.depth, &mut self.average)
    }

    fn read_args(q: &mut Query, r: &mut Reader) -> Read<()> {
        let a = &mut q.args;
        for list in 0..2 {
            let reference = &mut a.refs[list];
            reference.bands.width = r.i32()?;
            reference.bands.height = r.i32()?;
            q.lent[list] = Lent::read(r)?;
            reference.at = Scaled {
                start_x: r.i32()?,
                start_y: r.i32()?,
                step_x: r.i32()?,
                step_y: r.i32()?,
            };
        }
        for n in [&mut a.filter, &mut a.w, &mut a.h, &mut a.stride] {
            *n = r.size()?;
        }
        a.depth = r.u32()?;
        a.average = r.bool()?;
        Ok(())
    }

    fn write_args(q: &Query, w: &mut Writer) {
        let a = &q.args;
        for list in 0..2 {
            let Reference { bands, at } = &a.refs[list];
            w.i32(bands.width);
            w.i32(bands.height);
            q.lent[list].write(w);
            for n in [at.start_x, at.start_y, at.step_x, at.step_y] {
                w.i32(n);
            }
        }
        for n in [a.filter, a.w, a.h, a.stride] {
            w.size(n);
        }
        w.u32(a.depth);
        w.bool(a.average);
    }

    fn base() -> Query {
        let reference = |(width, height), [start_x, start_y, step_x, step_y]: [i32; 4]| Reference {
            bands: Bands {
                width,
                height,
                ..Bands::default()
            },
            at: Scaled {
                start_x,
                start_y,
                step_x,
                step_y,
            },
        };
        let mut q = Query {
            args: BlockArgs {
                refs: [
                    reference((16, 12), [37, 25, 16, 16]),
                    reference((9, 7), [-20, 50, 20, 13]),
                ],
                average: true,
                filter: 0,
                depth: 8,
                w: 5,
                h: 4,
                stride: 7,
            },
            lent: [Lent::fit(20, 5, 16, 12), Lent::fit(9, 4, 9, 7)],
            out: 0,
            room: ROOM,
        };
        q.fit_output();
        q
    }

    fn edges() -> Vec<Edge<Query>> {
        let mut edges = side_edges();
        edges.extend(filter_edges());
        edges.extend(edges_of_lists(list_edges));
        edges.extend(output_edges());
        edges.extend(phase_edges());
        edges
    }

    /// The largest planes, read at their end.
    fn large_queries() -> Numbered<Query> {
        let mut queries = Vec::new();
        for (width, height, stride, upper_rows) in LARGEST_PLANES {
            for list in 0..2 {
                let mut q = Self::base();
                q.resize(list, width, height);
                refit(&mut q, list, stride, upper_rows);
                q.at(list).start_x = 16 * (width - 3) + 5;
                q.at(list).start_y = 16 * (height - 3) + 9;
                queries.push((0, q.clone()));
                // Row 40,000 is the first of a lower band.
                q.at(list).start_y = 16 * 39_998 + 3;
                queries.push((0, q));
            }
        }
        queries
    }

    fn placed() -> [Query; 3] {
        [0, 16, 8].map(|start| {
            let mut q = Self::base();
            (q.at(0).start_x, q.at(0).start_y) = (start, start);
            q
        })
    }

    fn chance(rng: &mut Rng, bits: u32) -> Query {
        let mut q = Self::base();
        for list in 0..2 {
            let (width, height) = (chance_extent(rng), chance_extent(rng));
            q.resize(list, width, height);
            q.lent[list] = Lent::chance(rng, width, height);
            *q.at(list) = Scaled {
                start_x: chance_start(rng, width),
                start_y: chance_start(rng, height),
                step_x: chance_step(rng),
                step_y: chance_step(rng),
            };
        }
        let a = &mut q.args;
        a.filter = rng.size(0, 3);
        a.depth = chance_depth(rng, bits);
        a.average = rng.coin();
        (a.w, a.h) = (chance_side(rng), chance_side(rng));
        a.stride = a.w + rng.pick(&[0, 0, 1, 3]);
        q.fit_output();
        q.out += rng.pick(&[0, 0, 1, 6]);
        q
    }

    fn spoil(q: &mut Query, list: usize, rng: &mut Rng) {
        match rng.below(9) {
            0 => q.args.w = 65,
            1 => q.args.filter = 4,
            2 => q.args.depth = 9,
            3 => q.args.bands(list).width = 0,
            4 => q.at(list).step_x = rng.pick(&[0, 33]),
            5 => q.lent[list].stride = q.size(list).0 as usize - 1,
            6 => q.lent[list].lower = 0,
            7 => q.out -= 7.min(q.out),
            _ => q.room -= 1,
        }
    }
}

fn side_edges() -> Vec<Edge<Query>> {
    let mut edges = Vec::new();
    for (number, side) in SIDES {
        edges.push(edge(number, move |q: &mut Query| {
            (q.args.w, q.args.stride, q.out) = (side, 65, 3 * 65 + 65);
        }));
        edges.push(edge(number, move |q: &mut Query| {
            (q.args.h, q.args.stride, q.out) = (side, 5, 65 * 5);
        }));
    }
    // The room holds no more than this one.
    edges.push(edge(0, |q: &mut Query| {
        (q.args.w, q.args.h, q.args.stride) = (64, 64, 64);
        q.at(1).step_y = 32;
        q.fit_output();
    }));
    edges
}

fn filter_edges() -> Vec<Edge<Query>> {
    let mut edges = each(sizes_to(4, 3), |q: &mut Query, n| q.args.filter = n);
    for depth in [8, 10, 12] {
        edges.push(edge(0, move |q: &mut Query| q.args.depth = depth));
    }
    for depth in [0, 7, 9, 11, 13, 16, u32::MAX] {
        edges.push(edge(4, move |q: &mut Query| q.args.depth = depth));
    }
    edges
}

/// Rows 5 to 7 of the table for one reference.
fn list_edges(list: usize) -> Vec<Edge<Query>> {
    let mut edges = extent_edges(|q: &mut Query, list| &mut q.args.bands(list).width, list);
    edges.extend(extent_edges(
        |q: &mut Query, list| &mut q.args.bands(list).height,
        list,
    ));
    for (number, n) in values_within(6, -3_000_000, 3_000_000) {
        edges.push(edge(number, move |q: &mut Query| q.at(list).start_x = n));
        edges.push(edge(number, move |q: &mut Query| q.at(list).start_y = n));
    }
    for (number, n) in values_within(6, 1, 32) {
        edges.push(edge(number, move |q: &mut Query| q.at(list).step_x = n));
        edges.push(edge(number, move |q: &mut Query| q.at(list).step_y = n));
    }
    edges.extend(lent_edges(list, BlockArgs::base().size(list).1 as usize));
    edges
}

/// Stride and length of the output, and the room.
fn output_edges() -> Vec<Edge<Query>> {
    let near = [(0, 5), (7, 4), (7, 0)];
    let mut edges = each(near, |q: &mut Query, n| q.args.stride = n);
    let far = [
        (0, LARGEST_STRIDE),
        (7, LARGEST_STRIDE + 1),
        (7, 1 << 32),
        (7, usize::MAX),
    ];
    // Of one row the length doesn't depend on the stride.
    edges.extend(each(far, |q: &mut Query, stride| {
        (q.args.h, q.args.stride, q.out) = (1, stride, 5);
    }));
    edges.push(edge(7, |q: &mut Query| q.out -= 1));
    edges.push(edge(7, |q: &mut Query| q.out = 0));
    edges.push(edge(0, |q: &mut Query| q.out += 9));
    let rooms = [(0, ROOM), (7, ROOM - 1), (7, 0), (0, ROOM + 1)];
    edges.extend(each(rooms, |q: &mut Query, n| q.room = n));
    edges
}

/// Every filter at every phase, every step, and starts on both sides of the plane.
fn phase_edges() -> Vec<Edge<Query>> {
    let mut edges = Vec::new();
    for n in 0..64 {
        edges.push(edge(0, move |q: &mut Query| {
            q.args.filter = n as usize / 16;
            q.args.average = false;
            (q.at(0).start_x, q.at(0).start_y) = (16 + n % 16, 48 - n % 16);
        }));
    }
    for step in 1..=32 {
        edges.push(edge(0, move |q: &mut Query| {
            (q.at(0).step_x, q.at(0).step_y) = (step, 33 - step);
            (q.at(1).step_x, q.at(1).step_y) = (16, step);
        }));
    }
    for n in [
        -3_000_000, -999, -129, -128, -113, -64, -1, 0, 143, 255, 256, 400, 3_000_000,
    ] {
        edges.push(edge(0, move |q: &mut Query| q.at(0).start_x = n));
        edges.push(edge(0, move |q: &mut Query| q.at(0).start_y = n));
    }
    edges
}

fn chance_extent(rng: &mut Rng) -> i32 {
    if rng.once_in(5) { 1 } else { rng.within(1, 24) }
}

fn chance_start(rng: &mut Rng, extent: i32) -> i32 {
    match rng.below(12) {
        0 => rng.within(-3_000_000, 3_000_000),
        1 => rng.within(-1200, 1200),
        2 => 16 * rng.within(-2, extent + 2),
        _ => rng.within(-80, 16 * extent + 80),
    }
}

fn chance_step(rng: &mut Rng) -> i32 {
    if rng.coin() { 16 } else { rng.within(1, 32) }
}
