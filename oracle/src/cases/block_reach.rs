//! `block_reach`: the rectangle of document 02's Req 11. It is an addition of ours, so there is no
//! Rust to ask; the rectangle is that document's.

use super::bytes::{Read, Reader, Writer};
use super::edges::*;
use super::fixed::Fixed;
use super::prediction::{SIDES, chance_side};
use super::rng::Rng;
use crate::terms::{BlockReachArgs, Reach, Scaled};
use crate::{plain, table};

impl Fixed for BlockReachArgs {
    const LENGTH: usize = 80;

    /// Columns 3 to 16 of 40 and rows 8 to 19 of 30: no end is held, and no two are equal.
    fn base() -> Self {
        BlockReachArgs {
            w: 7,
            h: 5,
            width: 40,
            height: 30,
            at: Scaled {
                start_x: 101,
                start_y: 187,
                step_x: 16,
                step_y: 16,
            },
        }
    }

    fn edges() -> Vec<Edge<Self>> {
        let mut edges = number_edges();
        edges.extend(multiple_edges());
        edges.extend(step_edges());
        edges.extend(held_edges());
        edges.extend(largest_edges());
        edges
    }

    fn random(rng: &mut Rng) -> Self {
        let (width, height) = (chance_extent(rng), chance_extent(rng));
        let mut a = BlockReachArgs {
            w: chance_side(rng),
            h: chance_side(rng),
            width,
            height,
            at: Scaled {
                start_x: chance_start(rng, width),
                start_y: chance_start(rng, height),
                step_x: chance_step(rng),
                step_y: chance_step(rng),
            },
        };
        // Seldom refused, and then for up to three reasons.
        if rng.once_in(12) {
            (0..rng.size(1, 3)).for_each(|_| spoil(&mut a, rng));
        }
        a
    }

    fn read(r: &mut Reader) -> Read<Self> {
        Ok(BlockReachArgs {
            w: r.size()?,
            h: r.size()?,
            width: r.i32()?,
            height: r.i32()?,
            at: Scaled {
                start_x: r.i32()?,
                start_y: r.i32()?,
                step_x: r.i32()?,
                step_y: r.i32()?,
            },
        })
    }

    fn write(&self, w: &mut Writer) {
        w.size(self.w);
        w.size(self.h);
        w.i32(self.width);
        w.i32(self.height);
        let at = &self.at;
        for n in [at.start_x, at.start_y, at.step_x, at.step_y] {
            w.i32(n);
        }
        w.zeros(4);
    }

    fn number(&self) -> u32 {
        table::block_reach(self)
    }

    fn write_values(&self, w: &mut Writer) {
        write_reach(&plain::block_reach(self), w);
    }
}

/// The four ends, as the records of both calls hold them.
pub fn write_reach(reach: &Reach, w: &mut Writer) {
    for n in [
        reach.first_col,
        reach.last_col,
        reach.first_row,
        reach.last_row,
    ] {
        w.size(n);
    }
}

/// Rows 1, 5 and 6 of the table.
fn number_edges() -> Vec<Edge<BlockReachArgs>> {
    let mut edges = Vec::new();
    for (number, side) in SIDES {
        edges.push(edge(number, move |a: &mut BlockReachArgs| a.w = side));
        edges.push(edge(number, move |a: &mut BlockReachArgs| a.h = side));
    }
    for (number, n) in values_within(5, 1, 65_536) {
        edges.push(edge(number, move |a: &mut BlockReachArgs| a.width = n));
        edges.push(edge(number, move |a: &mut BlockReachArgs| a.height = n));
    }
    for (number, n) in values_within(6, -3_000_000, 3_000_000) {
        edges.push(edge(number, move |a: &mut BlockReachArgs| a.at.start_x = n));
        edges.push(edge(number, move |a: &mut BlockReachArgs| a.at.start_y = n));
    }
    for (number, n) in values_within(6, 1, 32) {
        edges.push(edge(number, move |a: &mut BlockReachArgs| a.at.step_x = n));
        edges.push(edge(number, move |a: &mut BlockReachArgs| a.at.step_y = n));
    }
    edges
}

/// Starts at multiples of 16 and at either side of them, from left of the plane and above it to
/// where the first end comes free of the edge.
fn multiple_edges() -> Vec<Edge<BlockReachArgs>> {
    let mut edges = Vec::new();
    for multiple in -8..=6 {
        for n in 16 * multiple - 1..=16 * multiple + 1 {
            edges.push(edge(0, move |a: &mut BlockReachArgs| a.at.start_x = n));
            edges.push(edge(0, move |a: &mut BlockReachArgs| a.at.start_y = n));
        }
    }
    edges
}

/// Every step, over few positions and over 64, in a plane that holds no end; and the last position
/// at a multiple of 16 and at either side of it.
fn step_edges() -> Vec<Edge<BlockReachArgs>> {
    let mut edges = Vec::new();
    for step in 1..=32 {
        edges.push(edge(0, move |a: &mut BlockReachArgs| {
            (a.width, a.height) = (300, 300);
            (a.at.step_x, a.at.step_y) = (step, 33 - step);
            (a.w, a.h) = (64, step as usize);
        }));
        for n in -1..=1 {
            edges.push(edge(0, move |a: &mut BlockReachArgs| {
                (a.width, a.height) = (300, 300);
                (a.at.step_x, a.at.step_y) = (step, step);
                (a.w, a.h) = (2, 11);
                (a.at.start_x, a.at.start_y) = (160 - step + n, 640 - 10 * step + n);
            }));
        }
    }
    edges
}

/// In columns and in rows: the last end just before, at and behind the plane's first sample, the
/// first end just before, at and behind its last. So both ends are held at one edge, or one is.
fn held_edges() -> Vec<Edge<BlockReachArgs>> {
    let mut edges = Vec::new();
    for extent in [1, 2, 9, 40] {
        for n in -2..=2 {
            // Seven positions: from floor(start / 16) = n - 10 on they end at n, from
            // n + extent + 2 on they begin at n + extent - 1.
            for start in [16 * (n - 10), 16 * (n - 9) - 1, 16 * (n + extent + 2)] {
                edges.push(edge(0, move |a: &mut BlockReachArgs| {
                    (a.w, a.width, a.at.start_x) = (7, extent, start);
                }));
                edges.push(edge(0, move |a: &mut BlockReachArgs| {
                    (a.h, a.height, a.at.start_y) = (7, extent, start);
                }));
            }
        }
    }
    edges
}

/// The largest planes at their ends, and the farthest starts with the largest steps.
fn largest_edges() -> Vec<Edge<BlockReachArgs>> {
    let mut edges = Vec::new();
    let last = 16 * 65_535;
    for start in [
        -3_000_000,
        -1,
        0,
        last - 129,
        last - 48,
        last,
        last + 48,
        last + 64,
        3_000_000,
    ] {
        for (w, h, step) in [(64, 1, 32), (1, 64, 32), (64, 64, 1)] {
            edges.push(edge(0, move |a: &mut BlockReachArgs| {
                (a.w, a.h) = (w, h);
                (a.width, a.height) = (65_536, 65_536);
                a.at = Scaled {
                    start_x: start,
                    start_y: last - start.clamp(0, last),
                    step_x: step,
                    step_y: step,
                };
            }));
        }
    }
    edges
}

fn chance_extent(rng: &mut Rng) -> i32 {
    let top = rng.pick(&[1, 8, 24, 100, 700, 65_536]);
    rng.within(1, top)
}

/// Around the plane, mostly; often at a multiple of 16.
fn chance_start(rng: &mut Rng, extent: i32) -> i32 {
    match rng.below(10) {
        0 => rng.within(-3_000_000, 3_000_000),
        1..=3 => 16 * rng.within(-8, extent + 8) + rng.within(-1, 1),
        4 => rng.within(-1200, 0),
        _ => rng.within(-128, 16 * extent + 128),
    }
}

fn chance_step(rng: &mut Rng) -> i32 {
    if rng.coin() { 16 } else { rng.within(1, 32) }
}

fn spoil(a: &mut BlockReachArgs, rng: &mut Rng) {
    match rng.below(8) {
        0 => a.w = rng.pick(&[0, 65]),
        1 => a.h = rng.pick(&[0, 65]),
        2 => a.width = rng.pick(&[0, -1, 65_537]),
        3 => a.height = rng.pick(&[0, -1, 65_537]),
        4 => a.at.start_x = rng.pick(&[-3_000_001, 3_000_001]),
        5 => a.at.start_y = rng.pick(&[-3_000_001, 3_000_001]),
        6 => a.at.step_x = rng.pick(&[0, 33]),
        _ => a.at.step_y = rng.pick(&[0, 33]),
    }
}
