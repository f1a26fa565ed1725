//! `find_best_ref_mvs`.

use super::bytes::{Read, Reader, Writer};
use super::edges::*;
use super::fixed::Fixed;
use super::rng::Rng;
use crate::terms::{BestArgs, Grid, Tile, Vector};
use crate::{door, table};

impl Fixed for BestArgs {
    const LENGTH: usize = 64;

    fn base() -> Self {
        BestArgs {
            grid: BASE_GRID,
            tile: Tile { start: 0, end: 8 },
            pair: [[3, -3], [-5, 64]],
            high_precision: false,
        }
    }

    fn edges() -> Vec<Edge<Self>> {
        let mut edges = grid_edges(|a: &mut BestArgs| &mut a.grid);
        edges.extend(tile_edges(|a: &mut BestArgs| (&mut a.grid, &mut a.tile)));
        for grid in large_grids() {
            edges.push(edge(0, move |a: &mut BestArgs| {
                (a.grid, a.tile.end) = (grid, grid.mi_cols);
                a.pair = [[32767, -32767], [-32767, 32767]];
            }));
        }
        for i in 0..4 {
            edges.extend(component_edges(move |a: &mut BestArgs, n| {
                a.pair[i / 2][i % 2] = n;
            }));
        }
        edges.extend(precision_edges());
        edges.extend(held_edges());
        edges
    }

    fn random(rng: &mut Rng) -> Self {
        let mi_rows = rng.pick(&[1, 2, 5, 8, 40, 600, 8192]);
        let mi_cols = rng.pick(&[1, 2, 5, 8, 40, 600, 8192]);
        let mi_col = rng.within(0, mi_cols - 1);
        let beyond = i32::from(rng.once_in(40));
        let mut a = BestArgs {
            grid: Grid {
                mi_row: rng.within(0, mi_rows - 1 + beyond),
                mi_col,
                mi_rows,
                mi_cols,
                mi_size: rng.within(0, 12 + beyond) as u8,
            },
            tile: Tile {
                start: rng.within(0, mi_col + beyond),
                end: rng.within(mi_col + 1 - beyond, mi_cols),
            },
            pair: [[0, 0]; 2],
            high_precision: rng.coin(),
        };
        a.pair = [vector(rng, &a), vector(rng, &a)];
        a
    }

    fn read(r: &mut Reader) -> Read<Self> {
        let mut a = BestArgs {
            grid: r.position()?,
            tile: r.tile()?,
            pair: [r.vector()?, r.vector()?],
            ..BestArgs::default()
        };
        a.grid.mi_size = r.u8()?;
        a.high_precision = r.bool()?;
        Ok(a)
    }

    fn write(&self, w: &mut Writer) {
        w.position(&self.grid);
        w.tile(&self.tile);
        self.pair.iter().for_each(|v| w.vector(v));
        w.u8(self.grid.mi_size);
        w.bool(self.high_precision);
        w.zeros(2);
    }

    fn number(&self) -> u32 {
        table::find_best_ref_mvs(self)
    }

    fn write_values(&self, w: &mut Writer) {
        door::find_best_ref_mvs(self)
            .iter()
            .for_each(|v| w.vector(v));
    }
}

/// A vector near what use_mv_hp or the clamp tells apart, or any.
fn vector(rng: &mut Rng, a: &BestArgs) -> Vector {
    let limit = if rng.once_in(25) { 32769 } else { 32767 };
    let mut one = |i| match rng.below(4) {
        0 => rng.pick(&[-65, -64, -63, 63, 64, 65]),
        1 if a.grid.mi_size <= 12 => near_side(rng, sides(a, i)),
        _ => component(rng, limit),
    };
    [one(0), one(1)]
}

/// Document 01: "low = -64 x mi_row - border; high = 64 x (mi_rows - height - mi_row) + border".
/// Only aims the cases; no answer rests on it.
fn sides(a: &BestArgs, i: usize) -> (i32, i32) {
    let (at, count, span) = rows_and_columns(&a.grid)[i];
    (-64 * at - 1248, 64 * (count - span - at) + 1248)
}

/// Around 63 and 64, in either component, of either sign, odd and even, with and without high
/// precision, in either vector of the pair.
fn precision_edges() -> Vec<Edge<BestArgs>> {
    let mut edges = Vec::new();
    for high_precision in [false, true] {
        for large in [-65, -64, -63, 62, 63, 64, 65] {
            for small in [-3, 0, 1] {
                edges.push(edge(0, move |a: &mut BestArgs| {
                    a.high_precision = high_precision;
                    a.pair = [[large, small], [small, large]];
                }));
            }
        }
    }
    edges
}

/// Both sides of what the clamp passes, for every size.
fn held_edges() -> Vec<Edge<BestArgs>> {
    let mut edges = Vec::new();
    for mi_size in 0..13 {
        for (upper, beyond) in [(false, 0), (false, -2), (true, 0), (true, 2), (true, 1)] {
            edges.push(edge(0, move |a: &mut BestArgs| {
                a.grid.mi_size = mi_size;
                let bounds = [sides(a, 0), sides(a, 1)];
                let at = bounds.map(|(low, high)| if upper { high } else { low } + beyond);
                a.pair = [at, [at[0], 7]];
            }));
        }
    }
    edges
}
