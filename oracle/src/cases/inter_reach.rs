//! `inter_reach`: how far a whole prediction can reach in the plane of one list's reference. The
//! vector, the start and the steps are the Rust's, the rectangle is document 02's.

use super::block_reach::write_reach;
use super::bytes::{Read, Reader, Writer};
use super::edges::*;
use super::fixed::Fixed;
use super::planes::WRONG_EXTENTS;
use super::predict::{chance_block, chance_grid, chance_vectors};
use super::predict::{read_kind, read_place, read_sizes, read_vectors};
use super::predict::{write_kind, write_place, write_sizes, write_vectors};
use super::prediction::{SIDES, chance_side};
use super::rng::Rng;
use super::scale::{ratio, ratios};
use crate::terms::{PredictArgs, Vector};
use crate::{plain, table};

/// A whole prediction, of whose references only the size is given, the same for both lists, and
/// of whose destination nothing is; and whether list 1 is meant.
#[derive(Clone, Debug, Default)]
pub struct InterReachArgs {
    pub of: PredictArgs,
    pub second: bool,
}

impl InterReachArgs {
    pub fn list(&self) -> usize {
        usize::from(self.second)
    }

    /// Gives the reference's frame this width, and the next one this height.
    fn ref_width(&mut self, n: i32) {
        self.of.refs.iter_mut().for_each(|r| r.frame_width = n);
    }

    fn ref_height(&mut self, n: i32) {
        self.of.refs.iter_mut().for_each(|r| r.frame_height = n);
    }
}

impl Fixed for InterReachArgs {
    const LENGTH: usize = 192;

    /// Of list 0 in luma, of another size than the frame; no end is held.
    fn base() -> Self {
        let mut a = InterReachArgs {
            of: PredictArgs {
                x: 20,
                y: 16,
                w: 6,
                h: 4,
                grid: BASE_GRID,
                frame_width: 64,
                frame_height: 48,
                vectors: [
                    [[10, -20], [31, 40], [-52, 60], [73, -80]],
                    [[-11, 21], [-32, 41], [53, -61], [-74, -81]],
                ],
                depth: 8,
                ..PredictArgs::default()
            },
            second: false,
        };
        a.ref_width(70);
        a.ref_height(60);
        a
    }

    fn edges() -> Vec<Edge<Self>> {
        let mut edges = block_edges();
        edges.extend(grid_edges(|a: &mut InterReachArgs| &mut a.of.grid));
        edges.extend(column_edges(|a: &mut InterReachArgs| &mut a.of.grid));
        edges.extend(size_edges());
        edges.extend(place_edges());
        edges.extend(vector_edges());
        edges.extend(partner_edges());
        edges.extend(unread_edges());
        edges.extend(rounded_edges());
        edges.extend(held_edges());
        edges.extend(largest_edges());
        edges
    }

    fn random(rng: &mut Rng) -> Self {
        let (frame_width, ref_width) = ratio(rng);
        let (frame_height, ref_height) = ratio(rng);
        let (sub_x, sub_y) = (rng.coin(), rng.coin());
        let (x, y) = (
            chance_place(rng, frame_width),
            chance_place(rng, frame_height),
        );
        let of = PredictArgs {
            plane: rng.size(0, 2),
            x,
            y,
            w: chance_side(rng),
            h: chance_side(rng),
            block: chance_block(rng, sub_x, sub_y),
            filter: rng.size(0, 4),
            depth: rng.pick(&[8, 9, 10, 12]),
            average: rng.coin(),
            grid: chance_grid(rng, x, y),
            frame_width,
            frame_height,
            sub_x,
            sub_y,
            vectors: chance_vectors(rng),
            ..PredictArgs::default()
        };
        let mut a = InterReachArgs {
            of,
            second: rng.coin(),
        };
        a.ref_width(ref_width);
        a.ref_height(ref_height);
        // Seldom refused, and then for up to three reasons.
        if rng.once_in(16) {
            (0..rng.size(1, 3)).for_each(|_| spoil(&mut a, rng));
        }
        a
    }

    fn read(r: &mut Reader) -> Read<Self> {
        let mut a = InterReachArgs::default();
        read_vectors(&mut a.of, r)?;
        read_sizes(&mut a.of, r)?;
        read_place(&mut a.of, r)?;
        a.ref_width(r.i32()?);
        a.ref_height(r.i32()?);
        read_kind(&mut a.of, r)?;
        a.second = r.bool()?;
        Ok(a)
    }

    fn write(&self, w: &mut Writer) {
        write_vectors(&self.of, w);
        write_sizes(&self.of, w);
        write_place(&self.of, w);
        let reference = &self.of.refs[self.list()];
        w.i32(reference.frame_width);
        w.i32(reference.frame_height);
        write_kind(&self.of, w);
        w.bool(self.second);
        w.zeros(3);
    }

    fn number(&self) -> u32 {
        table::inter_reach(&self.of, self.list())
    }

    fn write_values(&self, w: &mut Writer) {
        write_reach(&plain::inter_reach(&self.of, self.list()), w);
    }
}

type Args = InterReachArgs;

/// Row 1 of the table but for the block size, which comes with the grid, and the partner.
fn block_edges() -> Vec<Edge<Args>> {
    let mut edges = each(sizes_to(1, 2), |a: &mut Args, n| a.of.plane = n);
    edges.extend(each(sizes_to(1, 3), |a: &mut Args, n| a.of.block = n));
    for (number, side) in SIDES {
        edges.push(edge(number, move |a: &mut Args| a.of.w = side));
        edges.push(edge(number, move |a: &mut Args| a.of.h = side));
    }
    edges
}

/// Row 5: the frame's own size, and frame and reference at every boundary of their ratio.
fn size_edges() -> Vec<Edge<Args>> {
    let mut edges = Vec::new();
    for n in WRONG_EXTENTS {
        edges.push(edge(5, move |a: &mut Args| a.of.frame_width = n));
        edges.push(edge(5, move |a: &mut Args| a.of.frame_height = n));
        edges.push(edge(5, move |a: &mut Args| a.ref_width(n)));
        edges.push(edge(5, move |a: &mut Args| a.ref_height(n)));
    }
    for (number, frame, reference) in ratios() {
        edges.push(edge(number, move |a: &mut Args| {
            a.of.frame_width = frame;
            a.ref_width(reference);
        }));
        edges.push(edge(number, move |a: &mut Args| {
            a.of.frame_height = frame;
            a.ref_height(reference);
            a.second = true;
        }));
    }
    edges
}

/// Row 6.
fn place_edges() -> Vec<Edge<Args>> {
    let mut edges = Vec::new();
    for (number, n) in values_within(6, 0, 65_535) {
        edges.push(edge(number, move |a: &mut Args| a.of.x = n));
        edges.push(edge(number, move |a: &mut Args| a.of.y = n));
    }
    edges
}

/// Row 9: each component of the list that is meant, and of the other, where nothing is wrong.
fn vector_edges() -> Vec<Edge<Args>> {
    let mut edges = Vec::new();
    for i in 0..16 {
        for second in [false, true] {
            for (number, n) in values_within(9, -32_767, 32_767) {
                let number = if second == (i >= 8) { number } else { 0 };
                edges.push(edge(number, move |a: &mut Args| {
                    (a.of.vectors[i / 8][i / 2 % 4][i % 2], a.second) = (n, second);
                }));
            }
        }
    }
    edges
}

/// Every sub-block of every list under every subsampling, below and from 8x8 on, in each plane.
fn partner_edges() -> Vec<Edge<Args>> {
    let missing = [(false, true, 2), (false, true, 3), (true, false, 3)];
    let mut edges = Vec::new();
    for (sub_x, sub_y) in [(false, false), (false, true), (true, false), (true, true)] {
        for (n, mi_size) in (0..24).flat_map(|n| [(n, 2), (n, 3)]) {
            let (block, plane, second) = (n % 4, n / 4 % 3, n / 12 == 1);
            let below = plane > 0 && mi_size < 3;
            let refused = below && missing.contains(&(sub_x, sub_y, block));
            edges.push(edge(u32::from(refused), move |a: &mut Args| {
                (a.of.plane, a.of.block, a.second, a.of.grid.mi_size) =
                    (plane, block, second, mi_size);
                (a.of.sub_x, a.of.sub_y) = (sub_x, sub_y);
            }));
        }
    }
    edges
}

/// Filter, depth and averaging are not looked at.
fn unread_edges() -> Vec<Edge<Args>> {
    let filters = [3, 4, usize::MAX].map(|n| (0, n));
    let mut edges = each(filters, |a: &mut Args, n| a.of.filter = n);
    let depths = [0, 9, 13, u32::MAX].map(|n| (0, n));
    edges.extend(each(depths, |a: &mut Args, n| a.of.depth = n));
    for second in [false, true] {
        edges.push(edge(0, move |a: &mut Args| {
            (a.of.average, a.second) = (true, second);
        }));
    }
    edges
}

/// Frames of even and of odd size, whose halves are rounded up, and a block at their end.
fn rounded_edges() -> Vec<Edge<Args>> {
    let mut edges = Vec::new();
    for (sub_x, sub_y) in [(false, false), (false, true), (true, false), (true, true)] {
        for (width, height) in [(23, 19), (24, 20), (1, 2), (2, 1), (3, 3)] {
            for second in [false, true] {
                edges.push(edge(0, move |a: &mut Args| {
                    (a.of.plane, a.of.sub_x, a.of.sub_y, a.second) = (1, sub_x, sub_y, second);
                    (a.of.frame_width, a.of.frame_height) = (width, height);
                    a.ref_width(width);
                    a.ref_height(height);
                    (a.of.x, a.of.y) = (width / 2, height / 2);
                }));
            }
        }
    }
    edges
}

/// Vectors that lead beyond each side of the plane, as far as the clamp lets them and farther: both
/// ends are held at one edge, or one of them.
fn held_edges() -> Vec<Edge<Args>> {
    let mut edges = Vec::new();
    for (row, col) in [(-1, -1), (-1, 1), (1, -1), (1, 1), (0, 1), (1, 0)] {
        for reach in [8 * 40, 8 * 90, 32_767] {
            for (plane, second) in [(0, false), (1, true)] {
                edges.push(edge(0, move |a: &mut Args| {
                    let to: Vector = [row * reach, col * reach];
                    a.of.vectors[usize::from(second)] = [to; 4];
                    (a.of.plane, a.second) = (plane, second);
                    (a.of.sub_x, a.of.sub_y) = (true, true);
                }));
            }
        }
    }
    edges
}

/// The largest frames under every ratio, at their ends.
fn largest_edges() -> Vec<Edge<Args>> {
    let mut edges = Vec::new();
    for (frame, reference) in [
        (65_536, 65_536),
        (32_768, 65_536),
        (65_536, 4096),
        (65_535, 40_000),
    ] {
        for grid in large_grids() {
            for plane in 0..2 {
                edges.push(edge(0, move |a: &mut Args| {
                    (a.of.frame_width, a.of.frame_height) = (frame, frame);
                    a.ref_width(reference);
                    a.ref_height(reference);
                    (a.of.w, a.of.h) = (64, 64);
                    (a.of.x, a.of.y) = (grid.mi_col * frame / 8192, grid.mi_row * frame / 8192);
                    (a.of.plane, a.of.sub_x, a.second) = (plane, true, plane == 1);
                    a.of.grid = grid;
                }));
            }
        }
    }
    edges
}

/// In the frame, mostly.
fn chance_place(rng: &mut Rng, extent: i32) -> i32 {
    match rng.below(12) {
        0 => rng.within(0, 65_535),
        1..=2 => rng.within(0, (extent + 70).min(65_535)),
        _ => rng.within(0, (extent - 1) / 4) * 4,
    }
}

fn spoil(a: &mut InterReachArgs, rng: &mut Rng) {
    let list = usize::from(rng.coin());
    match rng.below(10) {
        0 => a.of.grid.mi_size = 13,
        1 => a.of.block = rng.pick(&[3, 4]),
        2 => a.of.plane = 3,
        3 => a.of.w = rng.pick(&[0, 65]),
        4 => a.of.grid.mi_row = a.of.grid.mi_rows,
        5 => a.of.grid.mi_col = -1,
        6 => a.ref_width(2 * a.of.frame_width + 1),
        7 => a.ref_height(0),
        8 => a.of.y = rng.pick(&[-1, 65_536]),
        // Of either list.
        _ => a.of.vectors[list][rng.size(0, 3)][rng.size(0, 1)] = rng.pick(&[-32_768, 32_768]),
    }
}
