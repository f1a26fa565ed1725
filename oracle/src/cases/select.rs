//! `select_mv`.

use super::bytes::{Read, Reader, Writer};
use super::edges::*;
use super::fixed::Fixed;
use super::rng::Rng;
use crate::terms::{BlockVectors, SelectArgs};
use crate::{door, table};

impl Fixed for SelectArgs {
    const LENGTH: usize = 96;

    fn base() -> Self {
        SelectArgs {
            vectors: [
                [[10, -20], [31, 40], [-52, 60], [73, -80]],
                [[-11, 21], [-32, 41], [53, -61], [-74, -81]],
            ],
            mi_size: 3,
            ..SelectArgs::default()
        }
    }

    fn edges() -> Vec<Edge<Self>> {
        let mut edges = each(BLOCK_SIZES, |a: &mut SelectArgs, n| a.mi_size = n);
        edges.extend(each(sizes_to(1, 2), |a: &mut SelectArgs, n| a.plane = n));
        edges.extend(each(sizes_to(1, 3), |a: &mut SelectArgs, n| a.block = n));
        edges.extend(partner_edges());
        edges.extend(vector_edges());
        edges.extend(rounding_edges());
        edges
    }

    fn random(rng: &mut Rng) -> Self {
        let limit = if rng.once_in(12) { 32769 } else { 32767 };
        let mut vectors = BlockVectors::default();
        for c in vectors.iter_mut().flatten().flatten() {
            *c = component(rng, limit);
        }
        SelectArgs {
            vectors,
            second: rng.coin(),
            plane: if rng.once_in(40) { 3 } else { rng.size(0, 2) },
            mi_size: rng.pick(&[0, 1, 2, 0, 1, 2, 3, 4, 8, 12]),
            block: if rng.once_in(40) { 4 } else { rng.size(0, 3) },
            sub_x: rng.coin(),
            sub_y: rng.coin(),
        }
    }

    fn read(r: &mut Reader) -> Read<Self> {
        let mut a = SelectArgs::default();
        for c in a.vectors.iter_mut().flatten().flatten() {
            *c = r.i32()?;
        }
        a.plane = r.size()?;
        a.block = r.size()?;
        a.mi_size = r.u8()?;
        a.second = r.bool()?;
        a.sub_x = r.bool()?;
        a.sub_y = r.bool()?;
        Ok(a)
    }

    fn write(&self, w: &mut Writer) {
        self.vectors.iter().flatten().for_each(|v| w.vector(v));
        w.size(self.plane);
        w.size(self.block);
        w.u8(self.mi_size);
        w.bool(self.second);
        w.bool(self.sub_x);
        w.bool(self.sub_y);
    }

    fn number(&self) -> u32 {
        table::select_mv(self)
    }

    fn write_values(&self, w: &mut Writer) {
        w.vector(&door::select_mv(self));
    }
}

/// Every sub-block under every subsampling, above and below 8x8, in each plane.
fn partner_edges() -> Vec<Edge<SelectArgs>> {
    let missing = [(false, true, 2), (false, true, 3), (true, false, 3)];
    let mut edges = Vec::new();
    for (sub_x, sub_y) in [(false, false), (false, true), (true, false), (true, true)] {
        for (block, plane, mi_size) in corners() {
            let below = plane > 0 && mi_size < 3;
            let refused = below && missing.contains(&(sub_x, sub_y, block));
            edges.push(edge(u32::from(refused), move |a: &mut SelectArgs| {
                (a.plane, a.mi_size, a.block) = (plane, mi_size, block);
                (a.sub_x, a.sub_y) = (sub_x, sub_y);
                a.second = plane == 2;
            }));
        }
    }
    edges
}

fn corners() -> impl Iterator<Item = (usize, usize, u8)> {
    let sizes = |block, plane| [0, 2, 3].map(move |mi_size| (block, plane, mi_size));
    (0..4).flat_map(move |block| (0..3).flat_map(move |plane| sizes(block, plane)))
}

/// "any of all sixteen components", also of the list that isn't asked for.
fn vector_edges() -> Vec<Edge<SelectArgs>> {
    let mut edges = Vec::new();
    for i in 0..16 {
        edges.extend(component_edges(move |a: &mut SelectArgs, n| {
            a.vectors[i / 8][i / 2 % 4][i % 2] = n;
        }));
    }
    edges
}

/// The sums of document 01's examples of halving and quartering, as pairs and as all four, and the
/// largest sums.
fn rounding_edges() -> Vec<Edge<SelectArgs>> {
    let mut edges = Vec::new();
    for (sub_x, sub_y) in [(false, true), (true, false), (true, true)] {
        for sum in -7..=7 {
            edges.push(edge(0, move |a: &mut SelectArgs| {
                // Three components of 5, -2 and -3 cancel out.
                a.vectors[0] = [[sum, 5 - sum], [5, -2], [-2, -3], [-3, 0]];
                if !(sub_x && sub_y) {
                    a.vectors[0] = [[sum - 4, 4 - sum], [4, -4], [4, -4], [9, 9]];
                }
                (a.plane, a.mi_size) = (1, 0);
                (a.sub_x, a.sub_y) = (sub_x, sub_y);
            }));
        }
        for sign in [-1, 1] {
            edges.push(edge(0, move |a: &mut SelectArgs| {
                a.vectors = [[[sign * 32767, sign * -32767]; 4]; 2];
                (a.plane, a.mi_size) = (2, 1);
                (a.sub_x, a.sub_y) = (sub_x, sub_y);
            }));
        }
    }
    edges
}
