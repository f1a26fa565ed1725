//! The test door: each bought call in document 01's terms, answered by the Rust as it is. The door
//! judges nothing: what the Rust panics on panics here, what it answers unjudged is answered.

mod driver;
mod rows;
mod source;
pub mod tables;

use crate::block_inter_pred::{self, SampleRows};
use crate::frame_buf::Px;
use crate::inter_mv::{self, BlockGrid, ScaleGeom};
use crate::mv_ref::MvRefGeometry;
use crate::terms::*;
pub use driver::{predict_inter, predict_inter_banded};
use rows::BandRows;
use source::LentTables;

pub fn select_mv(a: &SelectArgs) -> Vector {
    let list = &a.vectors[usize::from(a.second)];
    inter_mv::select_mv(list, a.plane, a.mi_size, a.block, a.sub_x, a.sub_y)
}

pub fn clamp_mv(a: &ClampArgs) -> Vector {
    inter_mv::clamp_mv(&block_grid(&a.grid), a.vector, a.plane, a.sub_x, a.sub_y)
}

pub fn scale_mv(a: &ScaleArgs) -> Scaled {
    let geom = ScaleGeom {
        ref_frame_width: a.ref_width,
        ref_frame_height: a.ref_height,
        frame_width: a.frame_width,
        frame_height: a.frame_height,
        subsampling_x: a.sub_x,
        subsampling_y: a.sub_y,
    };
    let s = inter_mv::scale_mv(&geom, a.plane, a.x, a.y, a.vector);
    Scaled {
        start_x: s.start_x,
        start_y: s.start_y,
        step_x: s.step_x,
        step_y: s.step_y,
    }
}

/// The roundings of the chroma choice; the Rust has them as functions of their own.
pub fn round_mv_comp_q2(value: i32) -> i32 {
    inter_mv::round_mv_comp_q2(value)
}

pub fn round_mv_comp_q4(value: i32) -> i32 {
    inter_mv::round_mv_comp_q4(value)
}

/// One component held by the search's clamp, rows; the Rust has it as a function of its own.
pub fn clamp_mv_row(grid: &Grid, component: i32, border: i32) -> i32 {
    geometry(grid, &Tile::default()).clamp_mv_row(component, border)
}

/// The same, columns.
pub fn clamp_mv_col(grid: &Grid, component: i32, border: i32) -> i32 {
    geometry(grid, &Tile::default()).clamp_mv_col(component, border)
}

pub fn find_mv_refs(tables: &Tables, a: &SearchArgs) -> Found {
    let source = LentTables {
        tables,
        mi_cols: a.grid.mi_cols,
    };
    let found = geometry(&a.grid, &a.tile).find_mv_refs(
        &source,
        a.target,
        a.block,
        &a.sign_bias,
        a.use_prev,
    );
    Found {
        pair: found.ref_list_mv,
        context: found.mode_context,
    }
}

/// The Rust takes the sub-block unsigned: -1 gets there as the largest usize.
pub fn append_sub8x8_mvs(tables: &Tables, a: &AppendArgs) -> [Vector; 2] {
    let s = &a.search;
    let source = LentTables {
        tables,
        mi_cols: s.grid.mi_cols,
    };
    geometry(&s.grid, &s.tile).append_sub8x8_mvs(
        &source,
        s.block as usize,
        s.target,
        &a.block_vectors,
        &s.sign_bias,
        s.use_prev,
    )
}

pub fn find_best_ref_mvs(a: &BestArgs) -> [Vector; 2] {
    geometry(&a.grid, &a.tile).find_best_ref_mvs(a.pair, a.high_precision)
}

/// Block prediction by the Rust's fast path, `block_inter_predict_into`, as the driver runs it:
/// list 0 straight into the output, list 1 beside it and averaged onto it.
pub fn block_inter_predict(a: &BlockArgs, out: &mut [u16]) {
    predict_into(a, &a.refs[0], out, a.stride);
    if a.average {
        let mut second = vec![0; a.w * a.h];
        predict_into(a, &a.refs[1], &mut second, a.w);
        average_onto(a, &second, out);
    }
}

/// Block prediction by the Rust's generic form, which asks a closure for each sample.
pub fn block_inter_predict_generic(a: &BlockArgs, out: &mut [u16]) {
    let first = predict_generic(a, &a.refs[0]);
    for (r, row) in first.chunks_exact(a.w).enumerate() {
        for (o, &p) in out[r * a.stride..][..a.w].iter_mut().zip(row) {
            *o = p as u16;
        }
    }
    if a.average {
        average_onto(a, &predict_generic(a, &a.refs[1]), out);
    }
}

fn predict_into<O: Px>(a: &BlockArgs, r: &Reference, out: &mut [O], stride: usize) {
    // The driver lends the same room; only the unscaled two passes use it.
    let mut room = Box::new([0; 64 * 71]);
    block_inter_pred::block_inter_predict_into(
        &BandRows(&r.bands),
        r.at.start_x,
        r.at.start_y,
        r.at.step_x,
        r.at.step_y,
        a.w,
        a.h,
        a.filter,
        r.bands.width - 1,
        r.bands.height - 1,
        a.depth,
        out,
        stride,
        &mut room,
    );
}

fn predict_generic(a: &BlockArgs, r: &Reference) -> Vec<i32> {
    let rows = BandRows(&r.bands);
    block_inter_pred::block_inter_predict(
        |row, col| i32::from(rows.row(row as usize)[col as usize]),
        r.at.start_x,
        r.at.start_y,
        r.at.step_x,
        r.at.step_y,
        a.w,
        a.h,
        a.filter,
        r.bands.width - 1,
        r.bands.height - 1,
        a.depth,
    )
}

/// The Rust averages in its driver alone, by `round2(a + b, 1)`; this is that.
fn average_onto(a: &BlockArgs, second: &[i32], out: &mut [u16]) {
    for r in 0..a.h {
        let row = &mut out[r * a.stride..][..a.w];
        for (o, &b) in row.iter_mut().zip(&second[r * a.w..][..a.w]) {
            *o = ((i32::from(*o) + b + 1) >> 1) as u16;
        }
    }
}

fn block_grid(g: &Grid) -> BlockGrid {
    BlockGrid {
        mi_row: g.mi_row,
        mi_col: g.mi_col,
        mi_rows: g.mi_rows,
        mi_cols: g.mi_cols,
        mi_size: g.mi_size,
    }
}

fn geometry(g: &Grid, tile: &Tile) -> MvRefGeometry {
    MvRefGeometry {
        mi_row: g.mi_row,
        mi_col: g.mi_col,
        mi_rows: g.mi_rows,
        mi_cols: g.mi_cols,
        mi_size: usize::from(g.mi_size),
        mi_col_start: tile.start,
        mi_col_end: tile.end,
    }
}
