//! The C boundary as include/knobspindle.h declares it.

use crate::{BlockGrid, BlockMvs, FrameGeom, Mv, PlaneMv, ScaleGeom, Stepping};

#[repr(C)]
pub struct SelectedMv {
    pub answer: u32,
    pub mv: Mv,
}

#[repr(C)]
pub struct ClampedMv {
    pub answer: u32,
    pub mv: PlaneMv,
}

#[repr(C)]
pub struct ScaledMv {
    pub answer: u32,
    pub stepping: Stepping,
}

#[repr(C)]
pub struct MvRefGeometry {
    pub mi_row: i32,
    pub mi_col: i32,
    pub mi_rows: i32,
    pub mi_cols: i32,
    pub mi_size: usize,
    pub mi_col_start: i32,
    pub mi_col_end: i32,
}

#[repr(C)]
pub struct SignBias {
    pub frame: [bool; 4],
}

#[repr(C)]
pub struct SubMvs {
    pub mvs: [Mv; 4],
}

#[repr(C)]
pub struct MvRefs {
    pub answer: u32,
    pub first: Mv,
    pub second: Mv,
    pub context: u8,
}

#[repr(C)]
pub struct MvPair {
    pub answer: u32,
    pub first: Mv,
    pub second: Mv,
}

#[repr(C)]
pub struct PlaneGeom {
    pub width: i32,
    pub height: i32,
    pub stride: usize,
    pub upper_rows: usize,
}

#[repr(C)]
pub struct RowPlace {
    pub answer: u32,
    pub band: u32,
    pub first: usize,
    pub samples: usize,
}

#[repr(C)]
pub struct BlockShape {
    pub w: usize,
    pub h: usize,
    pub filter: usize,
    pub depth: u32,
    pub average: bool,
}

#[repr(C)]
pub struct InterPredArgs {
    pub plane: usize,
    pub x: i32,
    pub y: i32,
    pub w: usize,
    pub h: usize,
    pub block: usize,
    pub filter: usize,
    pub depth: u32,
    pub average: bool,
}

#[repr(C)]
pub struct RefGeom {
    pub frame_width: i32,
    pub frame_height: i32,
    pub stride: usize,
    pub upper_rows: usize,
}

#[repr(C)]
pub struct DestGeom {
    pub width: usize,
    pub height: usize,
}

#[repr(C)]
pub struct Reach {
    pub answer: u32,
    pub first_col: usize,
    pub last_col: usize,
    pub first_row: usize,
    pub last_row: usize,
}

macro_rules! boundary {
    ($(fn $name:ident($($arg:ident: $kind:ty),* $(,)?) -> $result:ty;)*) => {
        #[cfg(target_arch = "x86_64")]
        extern "C" {
            $(pub fn $name($($arg: $kind),*) -> $result;)*
        }

        // The library is x86-64 code: elsewhere the crate is compiled without it.
        $(
            #[cfg(not(target_arch = "x86_64"))]
            #[allow(clippy::too_many_arguments)]
            pub unsafe fn $name($(_: $kind),*) -> $result {
                panic!(concat!(stringify!($name), ": the library is x86-64 code and is not in this build"))
            }
        )*
    };
}

boundary! {
    fn knobspindle_select_mv(
        of: BlockMvs, second: bool, plane: usize, size: u8, block: usize, subsampling_x: bool, subsampling_y: bool,
    ) -> SelectedMv;

    fn knobspindle_clamp_mv(grid: BlockGrid, mv: Mv, plane: usize, subsampling_x: bool, subsampling_y: bool) -> ClampedMv;

    fn knobspindle_scale_mv(geom: ScaleGeom, plane: usize, x: i32, y: i32, mv: PlaneMv) -> ScaledMv;

    fn knobspindle_find_mv_refs(
        modes: *const u8, modes_len: usize, frames: *const i8, frames_len: usize, mvs: *const i16, mvs_len: usize,
        subs: *const i16, subs_len: usize, prev_frames: *const i8, prev_frames_len: usize, prev_mvs: *const i16, prev_mvs_len: usize,
        geometry: MvRefGeometry, target: i32, block: i32, sign_bias: SignBias, use_prev: bool,
    ) -> MvRefs;

    fn knobspindle_append_sub8x8_mvs(
        modes: *const u8, modes_len: usize, frames: *const i8, frames_len: usize, mvs: *const i16, mvs_len: usize,
        subs: *const i16, subs_len: usize, prev_frames: *const i8, prev_frames_len: usize, prev_mvs: *const i16, prev_mvs_len: usize,
        geometry: MvRefGeometry, block: usize, target: i32, own: SubMvs, sign_bias: SignBias, use_prev: bool,
    ) -> MvPair;

    fn knobspindle_find_best_ref_mvs(geometry: MvRefGeometry, first: Mv, second: Mv, high_precision: bool) -> MvPair;

    fn knobspindle_row_read(
        upper: *const u16, upper_len: usize, lower: *const u16, lower_len: usize, geom: PlaneGeom, y: usize,
    ) -> RowPlace;

    fn knobspindle_block_inter_predict(
        shape: BlockShape, geom: PlaneGeom, from: Stepping, upper: *const u16, upper_len: usize, lower: *const u16, lower_len: usize,
        geom2: PlaneGeom, from2: Stepping, upper2: *const u16, upper2_len: usize, lower2: *const u16, lower2_len: usize,
        room: *mut u16, room_len: usize, out: *mut u16, out_len: usize, stride: usize,
    ) -> u32;

    fn knobspindle_block_reach(w: usize, h: usize, width: i32, height: i32, from: Stepping) -> Reach;

    fn knobspindle_predict_inter(
        args: InterPredArgs, grid: BlockGrid, frame: FrameGeom, mvs: BlockMvs,
        geom: RefGeom, upper: *const u16, upper_len: usize, lower: *const u16, lower_len: usize,
        geom2: RefGeom, upper2: *const u16, upper2_len: usize, lower2: *const u16, lower2_len: usize,
        room: *mut u16, room_len: usize, out: *mut u16, out_len: usize, dest: DestGeom,
    ) -> u32;

    fn knobspindle_inter_reach(
        args: InterPredArgs, grid: BlockGrid, frame: FrameGeom, mvs: BlockMvs, second: bool, ref_width: i32, ref_height: i32,
    ) -> Reach;
}
