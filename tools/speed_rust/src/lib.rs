//! The Rust as published (`oracle/src/vp9`), for the C program `tools/speed.c` to call in its own process. Each function takes a pointer to
//! the same arguments that Knobspindle's call is made from. Nothing is judged, copied or allocated here beyond what the Rust does itself.

// As in the oracle: the first six are as published and name each other as modules of the crate root.
#[path = "../../../oracle/src/vp9/block_inter_pred.rs"]
#[allow(dead_code, clippy::all)]
#[rustfmt::skip]
mod block_inter_pred;
#[path = "../../../oracle/src/vp9/frame_buf.rs"]
#[allow(dead_code, clippy::all)]
#[rustfmt::skip]
mod frame_buf;
#[path = "../../../oracle/src/vp9/inter_mv.rs"]
#[allow(dead_code, clippy::all)]
#[rustfmt::skip]
mod inter_mv;
#[path = "../../../oracle/src/vp9/inter_pred.rs"]
#[allow(dead_code, clippy::all)]
#[rustfmt::skip]
mod inter_pred;
#[path = "../../../oracle/src/vp9/intra.rs"]
#[allow(dead_code, clippy::all)]
#[rustfmt::skip]
mod intra;
#[path = "../../../oracle/src/vp9/mv_ref.rs"]
#[allow(dead_code, clippy::all)]
#[rustfmt::skip]
mod mv_ref;
#[path = "../../../oracle/src/vp9/decoded_frame.rs"]
#[allow(dead_code)]
mod decoded_frame;
#[path = "../../../oracle/src/vp9/header.rs"]
#[allow(dead_code)]
mod header;
#[path = "../../../oracle/src/vp9/mv.rs"]
#[allow(dead_code)]
#[rustfmt::skip]
mod mv;
#[path = "../../../oracle/src/vp9/partition.rs"]
#[allow(dead_code)]
#[rustfmt::skip]
mod partition;
#[path = "../../../oracle/src/vp9/residual.rs"]
#[allow(dead_code)]
#[rustfmt::skip]
mod residual;

use block_inter_pred::{SampleRows, block_inter_predict_into};
use decoded_frame::Vp9DecodedFrame;
use frame_buf::FrameBuf;
use inter_mv::{BlockGrid, ScaleGeom};
use inter_pred::{InterPredArgs, PredScratch, RefPlane, RefPlanes};
use intra::Plane;
use mv_ref::{MvCandidateSource, MvRefGeometry};
use std::slice::from_raw_parts;

// ---- the arguments, as tools/speed.c lays them out

#[repr(C)]
pub struct Select {
    vectors: [[[i32; 2]; 4]; 2],
    second: bool,
    sub_x: bool,
    sub_y: bool,
    size: u8,
    plane: usize,
    block: usize,
}

#[repr(C)]
pub struct Clamp {
    mi_row: i32,
    mi_col: i32,
    mi_rows: i32,
    mi_cols: i32,
    vector: [i32; 2],
    plane: usize,
    size: u8,
    sub_x: bool,
    sub_y: bool,
}

#[repr(C)]
pub struct Scale {
    sizes: [i32; 4],
    x: i32,
    y: i32,
    vector: [i32; 2],
    plane: usize,
    sub_x: bool,
    sub_y: bool,
}

#[repr(C)]
pub struct Search {
    mi_row: i32,
    mi_col: i32,
    mi_rows: i32,
    mi_cols: i32,
    tile_start: i32,
    tile_end: i32,
    target: i32,
    block: i32,
    size: usize,
    sign_bias: [bool; 4],
    use_prev: bool,
    modes: *const u8,
    frames: *const i8,
    vectors: *const i16,
    sub_vectors: *const i16,
    prev_frames: *const i8,
    prev_vectors: *const i16,
}

#[repr(C)]
pub struct Reference {
    width: i32,
    height: i32,
    stride: usize,
    samples: *const u16,
    start_x: i32,
    start_y: i32,
    step_x: i32,
    step_y: i32,
}

#[repr(C)]
pub struct Block {
    w: usize,
    h: usize,
    filter: usize,
    depth: u32,
    average: bool,
    refs: [Reference; 2],
    out: *mut u16,
    stride: usize,
}

#[repr(C)]
pub struct Predict {
    vectors: [[[i32; 2]; 4]; 2],
    plane: usize,
    x: i32,
    y: i32,
    w: usize,
    h: usize,
    block: usize,
    filter: usize,
    depth: u32,
    average: bool,
    size: u8,
    sub_x: bool,
    sub_y: bool,
    grid: [i32; 4],
    frame_width: i32,
    frame_height: i32,
    ref_width: i32,
    ref_height: i32,
    stride: usize,
    samples: [*const u16; 2],
    dest_width: usize,
    dest_height: usize,
    dest: *const u16,
}

// ---- the calls

/// # Safety
/// The pointers are to what tools/speed.c made.
#[unsafe(no_mangle)]
pub unsafe extern "C" fn rust_select_mv(a: &Select, out: &mut [i32; 2]) {
    let list = &a.vectors[usize::from(a.second)];
    *out = inter_mv::select_mv(list, a.plane, a.size, a.block, a.sub_x, a.sub_y);
}

/// # Safety
/// As above.
#[unsafe(no_mangle)]
pub unsafe extern "C" fn rust_clamp_mv(a: &Clamp, out: &mut [i32; 2]) {
    let grid = BlockGrid {
        mi_row: a.mi_row,
        mi_col: a.mi_col,
        mi_rows: a.mi_rows,
        mi_cols: a.mi_cols,
        mi_size: a.size,
    };
    *out = inter_mv::clamp_mv(&grid, a.vector, a.plane, a.sub_x, a.sub_y);
}

/// # Safety
/// As above.
#[unsafe(no_mangle)]
pub unsafe extern "C" fn rust_scale_mv(a: &Scale, out: &mut [i32; 4]) {
    let geom = ScaleGeom {
        ref_frame_width: a.sizes[0],
        ref_frame_height: a.sizes[1],
        frame_width: a.sizes[2],
        frame_height: a.sizes[3],
        subsampling_x: a.sub_x,
        subsampling_y: a.sub_y,
    };
    let s = inter_mv::scale_mv(&geom, a.plane, a.x, a.y, a.vector);
    *out = [s.start_x, s.start_y, s.step_x, s.step_y];
}

struct Lent<'a> {
    cols: i32,
    modes: &'a [u8],
    frames: &'a [i8],
    vectors: &'a [i16],
    sub_vectors: &'a [i16],
    prev_frames: &'a [i8],
    prev_vectors: &'a [i16],
}

impl Lent<'_> {
    fn cell(&self, r: i32, c: i32) -> usize {
        (r * self.cols + c) as usize
    }
}

fn pair(table: &[i16], at: usize) -> [i32; 2] {
    [i32::from(table[2 * at]), i32::from(table[2 * at + 1])]
}

impl MvCandidateSource for Lent<'_> {
    fn y_mode(&self, r: i32, c: i32) -> u8 {
        self.modes[self.cell(r, c)]
    }
    fn ref_frame(&self, r: i32, c: i32, list: usize) -> i32 {
        i32::from(self.frames[2 * self.cell(r, c) + list])
    }
    fn mv(&self, r: i32, c: i32, list: usize) -> [i32; 2] {
        pair(self.vectors, 2 * self.cell(r, c) + list)
    }
    fn sub_mv(&self, r: i32, c: i32, list: usize, idx: usize) -> [i32; 2] {
        pair(self.sub_vectors, (2 * self.cell(r, c) + list) * 4 + idx)
    }
    fn prev_ref_frame(&self, r: i32, c: i32, list: usize) -> i32 {
        i32::from(self.prev_frames[2 * self.cell(r, c) + list])
    }
    fn prev_mv(&self, r: i32, c: i32, list: usize) -> [i32; 2] {
        pair(self.prev_vectors, 2 * self.cell(r, c) + list)
    }
}

impl Search {
    /// # Safety
    /// Each table holds what document 01 asks of mi_rows x mi_cols cells.
    unsafe fn tables(&self) -> Lent<'_> {
        let n = (self.mi_rows * self.mi_cols) as usize;
        unsafe {
            Lent {
                cols: self.mi_cols,
                modes: from_raw_parts(self.modes, n),
                frames: from_raw_parts(self.frames, 2 * n),
                vectors: from_raw_parts(self.vectors, 4 * n),
                sub_vectors: from_raw_parts(self.sub_vectors, 16 * n),
                prev_frames: from_raw_parts(self.prev_frames, 2 * n),
                prev_vectors: from_raw_parts(self.prev_vectors, 4 * n),
            }
        }
    }

    fn geometry(&self) -> MvRefGeometry {
        MvRefGeometry {
            mi_row: self.mi_row,
            mi_col: self.mi_col,
            mi_rows: self.mi_rows,
            mi_cols: self.mi_cols,
            mi_size: self.size,
            mi_col_start: self.tile_start,
            mi_col_end: self.tile_end,
        }
    }
}

/// The two vectors and the context.
/// # Safety
/// As above; the tables as said there.
#[unsafe(no_mangle)]
pub unsafe extern "C" fn rust_find_mv_refs(a: &Search, out: &mut [i32; 5]) {
    let source = unsafe { a.tables() };
    let found = a.geometry().find_mv_refs(&source, a.target, a.block, &a.sign_bias, a.use_prev);
    let [first, second] = found.ref_list_mv;
    *out = [first[0], first[1], second[0], second[1], i32::from(found.mode_context)];
}

/// # Safety
/// As above.
#[unsafe(no_mangle)]
pub unsafe extern "C" fn rust_append_sub8x8_mvs(a: &Search, own: &[[i32; 2]; 4], out: &mut [[i32; 2]; 2]) {
    let source = unsafe { a.tables() };
    *out = a.geometry().append_sub8x8_mvs(&source, a.block as usize, a.target, own, &a.sign_bias, a.use_prev);
}

/// # Safety
/// As above; no table is looked at.
#[unsafe(no_mangle)]
pub unsafe extern "C" fn rust_find_best_ref_mvs(a: &Search, pair: &[[i32; 2]; 2], high: bool, out: &mut [[i32; 2]; 2]) {
    *out = a.geometry().find_best_ref_mvs(*pair, high);
}

/// A plane in one piece, rows in one window: the shortest way through the Rust.
struct Flat<'a> {
    samples: &'a [u16],
    stride: usize,
}

impl SampleRows for Flat<'_> {
    type Px = u16;

    #[inline]
    fn row(&self, y: usize) -> &[u16] {
        &self.samples[y * self.stride..(y + 1) * self.stride]
    }

    #[inline]
    fn window(&self, y0: usize, y1: usize) -> Option<(&[u16], usize)> {
        Some((&self.samples[y0 * self.stride..y1 * self.stride], self.stride))
    }
}

fn from_one<O: frame_buf::Px>(a: &Block, r: &Reference, out: &mut [O], stride: usize, room: &mut [i32; 64 * 71]) {
    let n = r.height as usize * r.stride;
    let rows = Flat {
        samples: unsafe { from_raw_parts(r.samples, n) },
        stride: r.stride,
    };
    block_inter_predict_into(
        &rows,
        r.start_x,
        r.start_y,
        r.step_x,
        r.step_y,
        a.w,
        a.h,
        a.filter,
        r.width - 1,
        r.height - 1,
        a.depth,
        out,
        stride,
        room,
    );
}

/// As the decoder's driver runs it: list 0 straight into the output, list 1 beside it and averaged onto it. The rooms are lent, as the
/// driver lends its own.
/// # Safety
/// As above; each plane holds height x stride samples.
#[unsafe(no_mangle)]
pub unsafe extern "C" fn rust_block_inter_predict(a: &Block, room: &mut [i32; 64 * 71], beside: &mut [i32; 64 * 64]) {
    let n = (a.h - 1) * a.stride + a.w;
    let out = unsafe { std::slice::from_raw_parts_mut(a.out, n) };
    from_one(a, &a.refs[0], out, a.stride, room);
    if a.average {
        from_one(a, &a.refs[1], &mut beside[..], a.w, room);
        for (r, second) in beside.chunks_exact(a.w).take(a.h).enumerate() {
            for (o, &b) in out[r * a.stride..][..a.w].iter_mut().zip(second) {
                *o = ((i32::from(*o) + b + 1) >> 1) as u16;
            }
        }
    }
}

/// What a decoder has before it predicts: the references in its own storage (`FrameBuf`), the destination, the working storage.
pub struct Ready {
    frames: [FrameBuf; 2],
    dest: Plane,
    scratch: Box<PredScratch>,
}

/// # Safety
/// As above; each reference holds ref_height x stride samples of luma, the destination dest_width x dest_height.
#[unsafe(no_mangle)]
pub unsafe extern "C" fn rust_predict_ready(a: &Predict) -> *mut Ready {
    let n = a.ref_height as usize * a.stride;
    let frames = a.samples.map(|samples| {
        let luma: Vec<i32> = unsafe { from_raw_parts(samples, n) }.iter().map(|&s| i32::from(s)).collect();
        let chroma = vec![0; a.ref_height as usize];
        let planes = [(&luma[..], a.stride), (&chroma[..], 1), (&chroma[..], 1)];
        FrameBuf::from_flat(planes, a.ref_width as u32, a.ref_height as u32, a.sub_x, a.sub_y, a.depth as u8)
    });
    let mut dest = Plane::new(a.dest_width, a.dest_height);
    dest.samples_mut().copy_from_slice(unsafe { from_raw_parts(a.dest, a.dest_width * a.dest_height) });
    let scratch = PredScratch::new_boxed();
    Box::into_raw(Box::new(Ready { frames, dest, scratch }))
}

/// # Safety
/// As above; `ready` was made from the same arguments.
#[unsafe(no_mangle)]
pub unsafe extern "C" fn rust_predict_inter(a: &Predict, ready: &mut Ready) {
    let list = [0, 1].map(|i| {
        (i == 0 || a.average).then_some(RefPlane {
            samples: &[],
            stride: a.stride,
            ref_frame_width: a.ref_width,
            ref_frame_height: a.ref_height,
            bands: Some((&ready.frames[i], a.plane)),
        })
    });
    let args = InterPredArgs {
        plane: a.plane,
        x: a.x,
        y: a.y,
        w: a.w,
        h: a.h,
        block_idx: a.block,
        interp_filter: a.filter,
        bit_depth: a.depth,
        is_compound: a.average,
    };
    let [mi_row, mi_col, mi_rows, mi_cols] = a.grid;
    let grid = BlockGrid {
        mi_row,
        mi_col,
        mi_rows,
        mi_cols,
        mi_size: a.size,
    };
    let geom = ScaleGeom {
        ref_frame_width: a.ref_width,
        ref_frame_height: a.ref_height,
        frame_width: a.frame_width,
        frame_height: a.frame_height,
        subsampling_x: a.sub_x,
        subsampling_y: a.sub_y,
    };
    let refs = RefPlanes { list };
    inter_pred::predict_inter_with(&mut ready.dest, &args, &grid, &geom, &a.vectors, &refs, a.sub_x, a.sub_y, &mut ready.scratch);
}

/// # Safety
/// As above.
#[unsafe(no_mangle)]
pub unsafe extern "C" fn rust_predict_dest(ready: &Ready) -> *const u16 {
    ready.dest.samples().as_ptr()
}

/// # Safety
/// `ready` is from `rust_predict_ready` and is not used again.
#[unsafe(no_mangle)]
pub unsafe extern "C" fn rust_predict_done(ready: *mut Ready) {
    drop(unsafe { Box::from_raw(ready) });
}
