//! `clamp_mv`.

use super::bytes::{Read, Reader, Writer};
use super::edges::*;
use super::fixed::Fixed;
use super::rng::Rng;
use crate::terms::{ClampArgs, Grid};
use crate::{door, table};

impl Fixed for ClampArgs {
    const LENGTH: usize = 48;

    fn base() -> Self {
        ClampArgs {
            grid: BASE_GRID,
            vector: [5, -7],
            ..ClampArgs::default()
        }
    }

    fn edges() -> Vec<Edge<Self>> {
        let mut edges = grid_edges(|a: &mut ClampArgs| &mut a.grid);
        edges.extend(column_edges(|a: &mut ClampArgs| &mut a.grid));
        for grid in large_grids() {
            edges.push(edge(0, move |a: &mut ClampArgs| {
                (a.grid, a.vector) = (grid, [32767, -32767]);
            }));
        }
        edges.extend(each(sizes_to(1, 2), |a: &mut ClampArgs, n| a.plane = n));
        for i in 0..2 {
            edges.extend(component_edges(move |a: &mut ClampArgs, n| a.vector[i] = n));
        }
        edges.extend(held_edges());
        edges
    }

    fn random(rng: &mut Rng) -> Self {
        let (mi_row, mi_rows) = position(rng);
        let (mi_col, mi_cols) = position(rng);
        let mut a = ClampArgs {
            grid: Grid {
                mi_row,
                mi_col,
                mi_rows,
                mi_cols,
                mi_size: if rng.once_in(50) {
                    13
                } else {
                    rng.within(0, 12) as u8
                },
            },
            vector: [0, 0],
            plane: if rng.once_in(50) { 3 } else { rng.size(0, 2) },
            sub_x: rng.coin(),
            sub_y: rng.coin(),
        };
        a.vector = [near(rng, &a, 0), near(rng, &a, 1)];
        a
    }

    fn read(r: &mut Reader) -> Read<Self> {
        let mut a = ClampArgs {
            plane: r.size()?,
            grid: r.position()?,
            vector: r.vector()?,
            ..ClampArgs::default()
        };
        a.grid.mi_size = r.u8()?;
        a.sub_x = r.bool()?;
        a.sub_y = r.bool()?;
        Ok(a)
    }

    fn write(&self, w: &mut Writer) {
        w.size(self.plane);
        w.position(&self.grid);
        w.vector(&self.vector);
        w.u8(self.grid.mi_size);
        w.bool(self.sub_x);
        w.bool(self.sub_y);
        w.zeros(1);
    }

    fn number(&self) -> u32 {
        table::clamp_mv(self)
    }

    fn write_values(&self, w: &mut Writer) {
        w.vector(&door::clamp_mv(self));
    }
}

/// A row among rows, or a column among columns: mostly few, so that both sides are near; seldom
/// outside.
fn position(rng: &mut Rng) -> (i32, i32) {
    let count = rng.pick(&[1, 2, 3, 5, 8, 9, 17, 64, 511, 8192]);
    if rng.once_in(40) {
        return (rng.pick(&[-1, count]), count);
    }
    (rng.within(0, count - 1), count)
}

/// A component near a side of what the clamp lets through, or any other.
fn near(rng: &mut Rng, a: &ClampArgs, i: usize) -> i32 {
    if a.grid.mi_size > 12 || rng.once_in(3) {
        let limit = if rng.once_in(12) { 32769 } else { 32767 };
        return component(rng, limit);
    }
    near_side(rng, sides(a, i))
}

/// The least and the largest component, in eighths, that the clamp passes on: the edges of the
/// standard's section 8.5.2.2 turned back into eighths. Only aims the cases; no answer rests on it.
fn sides(a: &ClampArgs, i: usize) -> (i32, i32) {
    let (at, count, span) = rows_and_columns(&a.grid)[i];
    let halved = a.plane > 0 && [a.sub_y, a.sub_x][i];
    let (reach, one) = if halved {
        (16 * (4 + 4 * span), 16)
    } else {
        (8 * (4 + 8 * span), 8)
    };
    (-64 * at - reach, 64 * (count - span - at) + reach - one)
}

/// Both components at each side of what passes, and one beyond, for every size, in luma and in
/// chroma with both halved.
fn held_edges() -> Vec<Edge<ClampArgs>> {
    let mut edges = Vec::new();
    for mi_size in 0..13 {
        for plane in [0, 1] {
            for (upper, beyond) in [(false, 0), (false, -1), (true, 0), (true, 1)] {
                edges.push(edge(0, move |a: &mut ClampArgs| {
                    (a.grid.mi_size, a.plane) = (mi_size, plane);
                    (a.sub_x, a.sub_y) = (true, true);
                    let bounds = [sides(a, 0), sides(a, 1)];
                    a.vector = bounds.map(|(low, high)| if upper { high } else { low } + beyond);
                }));
            }
        }
    }
    edges
}
