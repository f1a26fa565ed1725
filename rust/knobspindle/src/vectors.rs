//! The calls on vectors.

use crate::error::judged;
use crate::{raw, Error};

/// A vector in eighths of a luma sample: what blocks and candidates have.
#[derive(Clone, Copy, Debug, Default, PartialEq, Eq, Hash)]
#[repr(C)]
pub struct Mv {
    /// Down.
    pub row: i32,
    /// To the right.
    pub col: i32,
}

/// A vector in sixteenths of a plane's sample. [`clamp_mv`] alone makes one of an [`Mv`].
#[derive(Clone, Copy, Debug, Default, PartialEq, Eq, Hash)]
#[repr(C)]
pub struct PlaneMv {
    /// Down.
    pub row: i32,
    /// To the right.
    pub col: i32,
}

/// A block's vectors: sub-blocks 0 to 3 of each list. A block that is not below 8x8 has its vector four times; a list that is not used has zeros.
#[derive(Clone, Copy, Debug, Default, PartialEq, Eq, Hash)]
#[repr(C)]
pub struct BlockMvs {
    /// Of list 0.
    pub list0: [Mv; 4],
    /// Of list 1.
    pub list1: [Mv; 4],
}

/// One of a block's two reference lists.
#[derive(Clone, Copy, Debug, PartialEq, Eq, Hash)]
pub enum List {
    /// List 0.
    Zero,
    /// List 1.
    One,
}

/// Whether chroma is halved across and down: both for 4:2:0, neither for 4:4:4.
#[derive(Clone, Copy, Debug, Default, PartialEq, Eq, Hash)]
pub struct Subsampling {
    /// Across.
    pub x: bool,
    /// Down.
    pub y: bool,
}

/// Where a block stands in its frame, in cells of 8 by 8 luma samples: a frame has (width + 7) / 8 across and (height + 7) / 8 down.
#[derive(Clone, Copy, Debug, Default, PartialEq, Eq, Hash)]
#[repr(C)]
pub struct BlockGrid {
    /// The block's first row of cells.
    pub mi_row: i32,
    /// The block's first column of cells.
    pub mi_col: i32,
    /// The frame's rows of cells, 1..=8192.
    pub mi_rows: i32,
    /// The frame's columns of cells, 1..=8192.
    pub mi_cols: i32,
    /// The standard's block size 0..=12: a [`crate::BlockSize`] as a number.
    pub mi_size: u8,
}

/// The sizes of a reference frame and of the frame in luma samples (1..=65536), and whether chroma is halved.
#[derive(Clone, Copy, Debug, Default, PartialEq, Eq, Hash)]
#[repr(C)]
pub struct ScaleGeom {
    /// Of the reference.
    pub ref_frame_width: i32,
    /// Of the reference.
    pub ref_frame_height: i32,
    /// Of the frame.
    pub frame_width: i32,
    /// Of the frame.
    pub frame_height: i32,
    /// Across.
    pub subsampling_x: bool,
    /// Down.
    pub subsampling_y: bool,
}

/// Where a block starts in a reference's plane and the step from sample to sample, in sixteenths of a sample.
#[derive(Clone, Copy, Debug, Default, PartialEq, Eq, Hash)]
#[repr(C)]
pub struct Stepping {
    /// First column.
    pub start_x: i32,
    /// First row.
    pub start_y: i32,
    /// 16 where the reference is as wide as the frame.
    pub step_x: i32,
    /// 16 where the reference is as high as the frame.
    pub step_y: i32,
}

/// A block's place with its tile: columns `tile.start` to `tile.end - 1`.
#[derive(Clone, Debug, PartialEq, Eq, Hash)]
pub struct Place {
    /// Where the block stands.
    pub grid: BlockGrid,
    /// The tile's columns of cells.
    pub tile: std::ops::Range<i32>,
}

impl Place {
    fn geometry(&self) -> raw::MvRefGeometry {
        let g = self.grid;
        raw::MvRefGeometry {
            mi_row: g.mi_row,
            mi_col: g.mi_col,
            mi_rows: g.mi_rows,
            mi_cols: g.mi_cols,
            mi_size: usize::from(g.mi_size),
            mi_col_start: self.tile.start,
            mi_col_end: self.tile.end,
        }
    }
}

/// What earlier blocks of the frame decided, by cells i = row x `mi_cols` + column; n is `mi_rows` x `mi_cols`. Longer tables are taken. The vectors
/// of an unused list are judged, too: zeros belong there.
#[derive(Clone, Copy, Debug)]
pub struct Tables<'a> {
    /// Prediction modes 0..=13 ([`crate::Mode`] as numbers): n.
    pub modes: &'a [u8],
    /// Reference frames -1..=3 ([`crate::RefFrame`] as numbers): 2n, at 2i + list.
    pub frames: &'a [i8],
    /// Vectors: 4n, at (2i + list) x 2, row before column. A block below 8x8 has that of its sub-block 3.
    pub mvs: &'a [i16],
    /// Sub-vectors: 16n, at ((2i + list) x 4 + sub-block) x 2. A block that is not below 8x8 has its vector four times.
    pub subs: &'a [i16],
    /// Those of the previous frame, where it is used.
    pub previous: Option<Previous<'a>>,
}

/// What the previous frame decided.
#[derive(Clone, Copy, Debug)]
pub struct Previous<'a> {
    /// As [`Tables::frames`].
    pub frames: &'a [i8],
    /// As [`Tables::mvs`].
    pub mvs: &'a [i16],
}

/// What the candidate search finds: two vectors and the context 0..=6.
#[derive(Clone, Copy, Debug, PartialEq, Eq, Hash)]
pub struct MvRefs {
    /// The nearest candidate.
    pub first: Mv,
    /// The near one.
    pub second: Mv,
    /// The context of the block's mode.
    pub context: u8,
}

/// The vector that a plane (0 luma, 1 and 2 chroma) takes; `size` is the block size, `block` the number of the 4x4 block in the plane. Below 8x8:
///
/// | Plane | `block`, counted row by row | Vector |
/// |---|---|---|
/// | luma, and chroma in 4:4:4 | 0, 1 above, 2, 3 below | of that sub-block |
/// | chroma in 4:2:0 | 0 | the mean of all four |
/// | chroma in 4:2:2 | 0 above, 1 below | the mean of 0 and 1; the mean of 1 and 2, as the standard's decoders do |
/// | chroma in 4:4:0 | 0 on the left, 1 on the right | the mean of 0 and 2; the mean of 1 and 3 |
///
/// # Errors
/// [`Error::Block`]; [`Error::Vector`] for a component of either list outside -32767..=32767.
///
/// # Examples
#[cfg_attr(target_arch = "x86_64", doc = "```")]
#[cfg_attr(not(target_arch = "x86_64"), doc = "```no_run")]
/// use knobspindle::{select_mv, BlockMvs, List, Mv, Subsampling};
///
/// let of = BlockMvs { list0: [Mv { row: 1, col: 3 }, Mv::default(), Mv { row: 2, col: 0 }, Mv::default()], ..Default::default() };
/// // 4:4:0 chroma pairs sub-block 0 with 2, and ties go away from zero
/// let mv = select_mv(&of, List::Zero, 1, 0, 0, Subsampling { x: false, y: true })?;
/// assert_eq!(mv, Mv { row: 2, col: 2 });
/// # Ok::<(), knobspindle::Error>(())
/// ```
pub fn select_mv(of: &BlockMvs, list: List, plane: usize, size: u8, block: usize, subsampling: Subsampling) -> Result<Mv, Error> {
    // SAFETY: numbers alone cross.
    let r = unsafe { raw::knobspindle_select_mv(*of, list == List::One, plane, size, block, subsampling.x, subsampling.y) };
    judged(r.answer, r.mv)
}

/// A vector in the plane's own units, held near the frame.
///
/// # Errors
/// [`Error::Block`], [`Error::Grid`]; [`Error::Vector`] for a component outside -32767..=32767.
///
/// # Examples
#[cfg_attr(target_arch = "x86_64", doc = "```")]
#[cfg_attr(not(target_arch = "x86_64"), doc = "```no_run")]
/// use knobspindle::{clamp_mv, BlockGrid, Mv, PlaneMv, Subsampling};
///
/// let grid = BlockGrid { mi_row: 0, mi_col: 3, mi_rows: 4, mi_cols: 5, mi_size: 3 };
/// let near = clamp_mv(grid, Mv { row: -7, col: 9 }, 0, Subsampling { x: true, y: true })?;
/// assert_eq!(near, PlaneMv { row: -14, col: 18 });
/// # Ok::<(), knobspindle::Error>(())
/// ```
pub fn clamp_mv(grid: BlockGrid, mv: Mv, plane: usize, subsampling: Subsampling) -> Result<PlaneMv, Error> {
    // SAFETY: numbers alone cross.
    let r = unsafe { raw::knobspindle_clamp_mv(grid, mv, plane, subsampling.x, subsampling.y) };
    judged(r.answer, r.mv)
}

/// Where a clamped vector leads from sample (x, y) of the plane, and the steps.
///
/// # Errors
/// [`Error::Block`], [`Error::Size`], [`Error::Start`]; [`Error::Vector`] for a component outside -65534..=65534.
///
/// # Examples
#[cfg_attr(target_arch = "x86_64", doc = "```")]
#[cfg_attr(not(target_arch = "x86_64"), doc = "```no_run")]
/// use knobspindle::{scale_mv, Error, PlaneMv, ScaleGeom, Stepping};
///
/// let geom = ScaleGeom { ref_frame_width: 640, ref_frame_height: 720, frame_width: 640, frame_height: 360, ..Default::default() };
/// let at = scale_mv(geom, 0, 100, 50, PlaneMv { row: -5, col: 7 })?;
/// assert_eq!(at, Stepping { start_x: 1607, start_y: 1590, step_x: 16, step_y: 32 });
/// assert_eq!(scale_mv(geom, 0, -1, 0, PlaneMv::default()), Err(Error::Start));
/// # Ok::<(), knobspindle::Error>(())
/// ```
pub fn scale_mv(geom: ScaleGeom, plane: usize, x: i32, y: i32, mv: PlaneMv) -> Result<Stepping, Error> {
    // SAFETY: numbers alone cross.
    let r = unsafe { raw::knobspindle_scale_mv(geom, plane, x, y, mv) };
    judged(r.answer, r.stepping)
}

/// A call over the search's tables: they come first, what the call has of its own between the place and the sign bias.
macro_rules! searched {
    ($call:ident, $tables:expr, $place:expr, $sign_bias:expr, $($own:expr),+) => {{
        let t = $tables;
        let previous = t.previous.unwrap_or(Previous { frames: &[], mvs: &[] });
        // SAFETY: each pointer comes with the length of its slice; the library reads no more and keeps none.
        unsafe {
            raw::$call(
                t.modes.as_ptr(),
                t.modes.len(),
                t.frames.as_ptr(),
                t.frames.len(),
                t.mvs.as_ptr(),
                t.mvs.len(),
                t.subs.as_ptr(),
                t.subs.len(),
                previous.frames.as_ptr(),
                previous.frames.len(),
                previous.mvs.as_ptr(),
                previous.mvs.len(),
                $place.geometry(),
                $($own),+,
                raw::SignBias { frame: $sign_bias },
                t.previous.is_some(),
            )
        }
    }};
}

/// The candidate search for a target reference frame 1..=3, of a whole block (`None`) or of its sub-block 0..=3.
///
/// # Errors
/// [`Error::Block`], [`Error::Grid`], [`Error::Target`], [`Error::Short`], [`Error::Record`].
///
/// # Examples
#[cfg_attr(target_arch = "x86_64", doc = "```")]
#[cfg_attr(not(target_arch = "x86_64"), doc = "```no_run")]
/// use knobspindle::{find_mv_refs, BlockGrid, BlockSize, Mode, Mv, Place, RefFrame, Tables};
///
/// // two cells in a row; the left one has a vector of its own from the last frame
/// let modes = [Mode::New as u8, 0];
/// let frames = [RefFrame::Last as i8, RefFrame::None as i8, 0, 0];
/// let mut mvs = [0; 8];
/// mvs[..2].copy_from_slice(&[24, -40]);
/// let mut subs = [0; 32];
/// subs[..8].copy_from_slice(&[24, -40, 24, -40, 24, -40, 24, -40]);
/// let tables = Tables { modes: &modes, frames: &frames, mvs: &mvs, subs: &subs, previous: None };
/// let grid = BlockGrid { mi_row: 0, mi_col: 1, mi_rows: 1, mi_cols: 2, mi_size: BlockSize::B8x8 as u8 };
/// let found = find_mv_refs(&tables, &Place { grid, tile: 0..2 }, RefFrame::Last as i32, None, [false; 4])?;
/// assert_eq!((found.first, found.second, found.context), (Mv { row: 24, col: -40 }, Mv::default(), 3));
/// # Ok::<(), knobspindle::Error>(())
/// ```
pub fn find_mv_refs(tables: &Tables<'_>, place: &Place, target: i32, block: Option<u8>, sign_bias: [bool; 4]) -> Result<MvRefs, Error> {
    let r = searched!(knobspindle_find_mv_refs, tables, place, sign_bias, target, block.map_or(-1, i32::from));
    judged(r.answer, MvRefs { first: r.first, second: r.second, context: r.context })
}

/// The two predictors of sub-block 0..=3 of a block below 8x8; `own` has the block's vectors so far.
///
/// # Errors
/// [`Error::Block`], [`Error::Grid`], [`Error::Target`], [`Error::Short`], [`Error::Record`]; [`Error::Vector`] for a component of `own` outside
/// -32767..=32767.
///
/// # Examples
#[cfg_attr(target_arch = "x86_64", doc = "```")]
#[cfg_attr(not(target_arch = "x86_64"), doc = "```no_run")]
/// use knobspindle::{append_sub8x8_mvs, BlockGrid, Mv, Place, Tables};
///
/// let tables = Tables { modes: &[0], frames: &[0; 2], mvs: &[0; 4], subs: &[0; 16], previous: None };
/// let place = Place { grid: BlockGrid { mi_row: 0, mi_col: 0, mi_rows: 1, mi_cols: 1, mi_size: 0 }, tile: 0..1 };
/// let own = [Mv { row: 8, col: 16 }; 4];
/// assert_eq!(append_sub8x8_mvs(&tables, &place, 3, 1, own, [false; 4])?, [Mv { row: 8, col: 16 }, Mv::default()]);
/// # Ok::<(), knobspindle::Error>(())
/// ```
pub fn append_sub8x8_mvs(
    tables: &Tables<'_>,
    place: &Place,
    block: usize,
    target: i32,
    own: [Mv; 4],
    sign_bias: [bool; 4],
) -> Result<[Mv; 2], Error> {
    let r = searched!(knobspindle_append_sub8x8_mvs, tables, place, sign_bias, block, target, raw::SubMvs { mvs: own });
    judged(r.answer, [r.first, r.second])
}

/// A pair of candidates lowered to the precision in use and held near the frame.
///
/// # Errors
/// [`Error::Block`], [`Error::Grid`]; [`Error::Vector`] for a component outside -32767..=32767.
///
/// # Examples
#[cfg_attr(target_arch = "x86_64", doc = "```")]
#[cfg_attr(not(target_arch = "x86_64"), doc = "```no_run")]
/// use knobspindle::{find_best_ref_mvs, BlockGrid, Mv, Place};
///
/// let place = Place { grid: BlockGrid { mi_row: 50, mi_col: 50, mi_rows: 100, mi_cols: 100, mi_size: 3 }, tile: 0..100 };
/// let best = find_best_ref_mvs(&place, [Mv { row: 3, col: -3 }, Mv::default()], false)?;
/// assert_eq!(best, [Mv { row: 2, col: -2 }, Mv::default()]);
/// # Ok::<(), knobspindle::Error>(())
/// ```
pub fn find_best_ref_mvs(place: &Place, pair: [Mv; 2], high_precision: bool) -> Result<[Mv; 2], Error> {
    // SAFETY: numbers alone cross.
    let r = unsafe { raw::knobspindle_find_best_ref_mvs(place.geometry(), pair[0], pair[1], high_precision) };
    judged(r.answer, [r.first, r.second])
}
