//! Document 01's section 'Samples' in plain Rust, sentence by sentence, with no thought of speed:
//! signed positions, each column and each row held, both passes always done and clipped. It is not
//! written from the Rust; only the taps are taken from it. Then document 02's Req 11, the rectangle
//! that a block can reach.

use crate::block_inter_pred::SUBPEL_FILTERS;
use crate::door;
use crate::terms::*;

/// What a call filters with: one of the four filters, and the depth that the passes clip to.
#[derive(Clone, Copy)]
struct Kernel {
    filter: usize,
    depth: u32,
}

pub fn block_inter_predict(a: &BlockArgs, out: &mut [u16]) {
    let kernel = Kernel {
        filter: a.filter,
        depth: a.depth,
    };
    for r in 0..a.h {
        for c in 0..a.w {
            out[r * a.stride + c] = predicted(&a.refs, a.average, kernel, r, c);
        }
    }
}

/// Vectors, starts and steps are the door's; samples and the part written are document 01's: "a
/// reference's chroma size, where halved, is rounded up", "only the part of the block inside".
pub fn predict_inter(a: &PredictArgs, dst: &mut [u16]) {
    let kernel = Kernel {
        filter: a.filter,
        depth: a.depth,
    };
    let refs = [0, 1].map(|list| {
        let used = list == 0 || a.average;
        if used {
            plane_reference(a, list)
        } else {
            Reference::default()
        }
    });
    for r in 0..a.h {
        for c in 0..a.w {
            let (x, y) = (a.x as usize + c, a.y as usize + r);
            if x < a.dst_width && y < a.dst_height {
                dst[y * a.dst_width + x] = predicted(&refs, a.average, kernel, r, c);
            }
        }
    }
}

fn plane_reference(a: &PredictArgs, list: usize) -> Reference {
    let (width, height) = plane_size(a, list);
    Reference {
        bands: Bands {
            width,
            height,
            ..a.refs[list].bands.clone()
        },
        at: start_and_step(a, list),
    }
}

fn plane_size(a: &PredictArgs, list: usize) -> (i32, i32) {
    let halved = |size: i32, sub: bool| {
        if a.plane > 0 && sub {
            (size + 1) / 2
        } else {
            size
        }
    };
    let frame = &a.refs[list];
    (
        halved(frame.frame_width, a.sub_x),
        halved(frame.frame_height, a.sub_y),
    )
}

pub fn start_and_step(a: &PredictArgs, list: usize) -> Scaled {
    let vector = door::select_mv(&SelectArgs {
        vectors: a.vectors,
        second: list == 1,
        plane: a.plane,
        mi_size: a.grid.mi_size,
        block: a.block,
        sub_x: a.sub_x,
        sub_y: a.sub_y,
    });
    let clamped = door::clamp_mv(&ClampArgs {
        grid: a.grid,
        vector,
        plane: a.plane,
        sub_x: a.sub_x,
        sub_y: a.sub_y,
    });
    door::scale_mv(&ScaleArgs {
        ref_width: a.refs[list].frame_width,
        ref_height: a.refs[list].frame_height,
        frame_width: a.frame_width,
        frame_height: a.frame_height,
        sub_x: a.sub_x,
        sub_y: a.sub_y,
        plane: a.plane,
        x: a.x,
        y: a.y,
        vector: clamped,
    })
}

/// "compound: (a + b + 1) / 2, rounded down"
fn predicted(refs: &[Reference; 2], average: bool, kernel: Kernel, r: usize, c: usize) -> u16 {
    let first = vertical(&refs[0], kernel, r, c);
    let value = match average {
        true => (first + vertical(&refs[1], kernel, r, c) + 1).div_euclid(2),
        false => first,
    };
    value as u16
}

/// "the same over eight horizontal results at rows floor(Q/16) + t - 3, with the taps of Q mod 16"
fn vertical(from: &Reference, kernel: Kernel, r: usize, c: usize) -> i64 {
    let q = i64::from(from.at.start_y) + i64::from(from.at.step_y) * r as i64;
    pass(kernel, q, |row| horizontal(from, kernel, row, c))
}

/// "at reference row v, sum over t = 0..7 of tap(P mod 16, t) times the sample at row v, column
/// floor(P/16) + t - 3, both held into 0..Y and 0..X"
fn horizontal(from: &Reference, kernel: Kernel, v: i64, c: usize) -> i64 {
    let p = i64::from(from.at.start_x) + i64::from(from.at.step_x) * c as i64;
    pass(kernel, p, |column| held_sample(&from.bands, v, column))
}

/// "add 64, divide by 128 rounding down, hold into 0..2^depth - 1"
fn pass(kernel: Kernel, position: i64, value_at: impl Fn(i64) -> i64) -> i64 {
    let taps = &SUBPEL_FILTERS[kernel.filter][position.rem_euclid(16) as usize];
    let first = position.div_euclid(16) - 3;
    let sum: i64 = (first..)
        .zip(taps)
        .map(|(at, &tap)| i64::from(tap) * value_at(at))
        .sum();
    (sum + 64).div_euclid(128).clamp(0, (1 << kernel.depth) - 1)
}

fn held_sample(bands: &Bands, row: i64, column: i64) -> i64 {
    let row = row.clamp(0, i64::from(bands.height) - 1) as usize;
    let column = column.clamp(0, i64::from(bands.width) - 1) as usize;
    let sample = match row.checked_sub(bands.upper_rows) {
        None => bands.upper[row * bands.stride + column],
        Some(below) => bands.lower[below * bands.stride + column],
    };
    i64::from(sample)
}

/// Document 02, Req 11: "columns floor(start_x / 16) - 3 to floor((start_x + step_x x (w - 1)) /
/// 16) + 4 and on the rows worked out alike, each end held into the plane".
pub fn block_reach(a: &BlockReachArgs) -> Reach {
    let (first_col, last_col) = ends(a.at.start_x, a.at.step_x, a.w, a.width);
    let (first_row, last_row) = ends(a.at.start_y, a.at.step_y, a.h, a.height);
    Reach {
        first_col,
        last_col,
        first_row,
        last_row,
    }
}

/// Of `count` positions from `start` on, in a plane of `extent` columns or rows.
fn ends(start: i32, step: i32, count: usize, extent: i32) -> (usize, usize) {
    let (start, step, count) = (i64::from(start), i64::from(step), count as i64);
    let held = |n: i64| n.clamp(0, i64::from(extent) - 1) as usize;
    let first = start.div_euclid(16) - 3;
    let last = (start + step * (count - 1)).div_euclid(16) + 4;
    (held(first), held(last))
}

/// The same of a whole prediction, in the plane of one list's reference: its start and steps are the
/// door's, as in `predict_inter`. Of bands and destination nothing is looked at.
pub fn inter_reach(a: &PredictArgs, list: usize) -> Reach {
    let (width, height) = plane_size(a, list);
    block_reach(&BlockReachArgs {
        w: a.w,
        h: a.h,
        width,
        height,
        at: start_and_step(a, list),
    })
}
