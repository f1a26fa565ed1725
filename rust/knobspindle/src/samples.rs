//! The calls on samples.

use std::ops::RangeInclusive;

use crate::error::judged;
use crate::{raw, BlockGrid, BlockMvs, Error, Filter, List, Stepping};

/// A reference plane, lent in two bands with one stride: the upper one has rows 0 to `upper_rows` - 1, the lower one the rest. A band of k rows
/// holds (k - 1) x stride + width samples or more, or none if k is 0. Width and height are the visible ones (see [`Reference`]): beyond them every
/// position is held at the edge.
#[derive(Clone, Copy, Debug)]
pub struct Plane<'a> {
    /// Samples of a row.
    pub width: i32,
    /// Rows.
    pub height: i32,
    /// From a row's first sample to that of the next.
    pub stride: usize,
    /// Rows of the upper band.
    pub upper_rows: usize,
    /// The upper band.
    pub upper: &'a [u16],
    /// The lower band.
    pub lower: &'a [u16],
}

impl<'a> Plane<'a> {
    /// A plane in one piece.
    pub fn whole(samples: &'a [u16], width: i32, height: i32, stride: usize) -> Self {
        Plane { width, height, stride, upper_rows: usize::try_from(height).unwrap_or(0), upper: samples, lower: &[] }
    }

    fn geom(&self) -> raw::PlaneGeom {
        raw::PlaneGeom { width: self.width, height: self.height, stride: self.stride, upper_rows: self.upper_rows }
    }

    /// Row y of the plane: a part of the band that holds it, not a copy.
    ///
    /// # Errors
    /// [`Error::Size`], [`Error::Start`], [`Error::Short`].
    ///
    /// # Examples
    #[cfg_attr(target_arch = "x86_64", doc = "```")]
    #[cfg_attr(not(target_arch = "x86_64"), doc = "```no_run")]
    /// use knobspindle::{Error, Plane};
    ///
    /// let plane = Plane { width: 3, height: 2, stride: 4, upper_rows: 1, upper: &[1, 2, 3], lower: &[4, 5, 6] };
    /// assert_eq!(plane.row(1)?, [4, 5, 6]);
    /// assert_eq!(plane.row(2), Err(Error::Start));
    /// # Ok::<(), Error>(())
    /// ```
    pub fn row(&self, y: usize) -> Result<&'a [u16], Error> {
        // SAFETY: each pointer comes with the length of its slice; the library reads no more and keeps none.
        let r = unsafe { raw::knobspindle_row_read(self.upper.as_ptr(), self.upper.len(), self.lower.as_ptr(), self.lower.len(), self.geom(), y) };
        let band = if r.band == 0 { self.upper } else { self.lower };
        judged(r.answer, &band[r.first..r.first + r.samples])
    }
}

/// A block's size in samples (1..=64 each), its filter and the bit depth (8, 10 or 12).
#[derive(Clone, Copy, Debug)]
pub struct BlockShape {
    /// Width.
    pub w: usize,
    /// Height.
    pub h: usize,
    /// The filter.
    pub filter: Filter,
    /// The bit depth.
    pub depth: u32,
}

/// Numbers of working room that a prediction asks for.
pub const ROOM: usize = 8576;

/// Working room for predictions. What it holds never matters; one room serves any number of calls of one thread.
#[derive(Clone, Debug)]
pub struct Room(Box<[u16; ROOM]>);

impl Room {
    /// A room of one's own.
    pub fn new() -> Self {
        Room(Box::new([0; ROOM]))
    }
}

impl Default for Room {
    fn default() -> Self {
        Room::new()
    }
}

/// A plane and where a block starts in it.
#[derive(Clone, Copy, Debug)]
pub struct Source<'a> {
    /// The reference plane.
    pub plane: Plane<'a>,
    /// What [`crate::scale_mv`] gives.
    pub from: Stepping,
}

const NO_PLANE: Plane<'static> = Plane { width: 0, height: 0, stride: 0, upper_rows: 0, upper: &[], lower: &[] };

/// Predicts a block from one reference or, with a second, from both and averaged, into `out`: row r from `out[r * stride]` on. Nothing else
/// of `out` is changed, and nothing at all where the call is refused.
///
/// # Errors
/// [`Error::Block`], [`Error::Filter`], [`Error::Size`], [`Error::Start`], [`Error::Short`].
///
/// # Examples
#[cfg_attr(target_arch = "x86_64", doc = "```")]
#[cfg_attr(not(target_arch = "x86_64"), doc = "```no_run")]
/// use knobspindle::{block_inter_predict, BlockShape, Filter, Plane, Room, Source, Stepping};
///
/// // half a sample to the right by the bilinear filter; beyond the edge each sample is the nearest one of the edge
/// let source = Source { plane: Plane::whole(&[10, 20], 2, 1, 2), from: Stepping { start_x: 8, start_y: 0, step_x: 16, step_y: 16 } };
/// let mut out = [0; 2];
/// let shape = BlockShape { w: 2, h: 1, filter: Filter::Bilinear, depth: 8 };
/// block_inter_predict(shape, &source, None, &mut Room::new(), &mut out, 2)?;
/// assert_eq!(out, [15, 20]);
/// # Ok::<(), knobspindle::Error>(())
/// ```
pub fn block_inter_predict(
    shape: BlockShape,
    first: &Source<'_>,
    second: Option<&Source<'_>>,
    room: &mut Room,
    out: &mut [u16],
    stride: usize,
) -> Result<(), Error> {
    let other = second.copied().unwrap_or(Source { plane: NO_PLANE, from: Stepping::default() });
    let (p, q) = (first.plane, other.plane);
    let shape = raw::BlockShape { w: shape.w, h: shape.h, filter: shape.filter as usize, depth: shape.depth, average: second.is_some() };
    // SAFETY: each pointer comes with the length of its slice; the library touches no more and keeps none; room and out are borrowed alone.
    let answer = unsafe {
        raw::knobspindle_block_inter_predict(
            shape,
            p.geom(),
            first.from,
            p.upper.as_ptr(),
            p.upper.len(),
            p.lower.as_ptr(),
            p.lower.len(),
            q.geom(),
            other.from,
            q.upper.as_ptr(),
            q.upper.len(),
            q.lower.as_ptr(),
            q.lower.len(),
            room.0.as_mut_ptr(),
            ROOM,
            out.as_mut_ptr(),
            out.len(),
            stride,
        )
    };
    judged(answer, ())
}

/// The columns and rows of a reference's plane that matter to a prediction. What samples outside hold makes no difference to its answer or its output:
/// they may be unfinished, or released and overwritten. But they are lent, since a plane's lengths are checked; a band without any row of the rectangle
/// may be a spare slice of the right length.
#[derive(Clone, Debug, PartialEq, Eq, Hash)]
pub struct Reach {
    /// Columns of the plane.
    pub cols: RangeInclusive<usize>,
    /// Rows of the plane.
    pub rows: RangeInclusive<usize>,
}

fn reached(r: raw::Reach) -> Result<Reach, Error> {
    judged(r.answer, Reach { cols: r.first_col..=r.last_col, rows: r.first_row..=r.last_row })
}

/// How far a block of w x h samples reaches in a plane of width x height: columns floor(`start_x` / 16) - 3 to
/// floor((`start_x` + `step_x` x (w - 1)) / 16) + 4, rows alike, each end held into the plane. That is what matters to [`block_inter_predict`], whatever
/// its filter.
///
/// # Errors
/// [`Error::Block`], [`Error::Size`], [`Error::Start`].
///
/// # Examples
#[cfg_attr(target_arch = "x86_64", doc = "```")]
#[cfg_attr(not(target_arch = "x86_64"), doc = "```no_run")]
/// use knobspindle::{block_reach, Error, Stepping};
///
/// // from column 20 and row 78.5 of 100 x 80: three before the first and four after the last, as far as the plane goes
/// let from = Stepping { start_x: 320, start_y: 1256, step_x: 16, step_y: 16 };
/// let reach = block_reach(8, 4, 100, 80, from)?;
/// assert_eq!((reach.cols, reach.rows), (17..=31, 75..=79));
/// assert_eq!(block_reach(65, 4, 100, 80, from), Err(Error::Block));
/// # Ok::<(), Error>(())
/// ```
pub fn block_reach(w: usize, h: usize, width: i32, height: i32, from: Stepping) -> Result<Reach, Error> {
    // SAFETY: numbers alone cross.
    reached(unsafe { raw::knobspindle_block_reach(w, h, width, height, from) })
}

/// A block for the whole prediction.
#[derive(Clone, Copy, Debug)]
pub struct InterPred {
    /// 0 luma, 1 and 2 chroma.
    pub plane: usize,
    /// The block's first column in the plane, 0..=65535.
    pub x: i32,
    /// The block's first row in the plane, 0..=65535.
    pub y: i32,
    /// 0 where the block is not below 8x8. Of a block below 8x8 every plane is predicted in blocks of 4x4, and this counts them in the plane, row
    /// by row: see [`crate::select_mv`].
    pub block: usize,
    /// Size, filter and depth.
    pub shape: BlockShape,
}

impl InterPred {
    fn args(&self, average: bool) -> raw::InterPredArgs {
        raw::InterPredArgs {
            plane: self.plane,
            x: self.x,
            y: self.y,
            w: self.shape.w,
            h: self.shape.h,
            block: self.block,
            filter: self.shape.filter as usize,
            depth: self.shape.depth,
            average,
        }
    }
}

/// The frame's visible size in luma samples, and whether chroma is halved, of the frame and of its references.
#[derive(Clone, Copy, Debug, Default, PartialEq, Eq, Hash)]
#[repr(C)]
pub struct FrameGeom {
    /// 1..=65536
    pub width: i32,
    /// 1..=65536
    pub height: i32,
    /// Across.
    pub subsampling_x: bool,
    /// Down.
    pub subsampling_y: bool,
}

/// A reference of the whole prediction: its frame's visible size in luma samples, and the plane that is lent, which has that size or, for chroma
/// where halved, half of it rounded up; stride and bands as in [`Plane`]. Beyond the visible edge every position is held at it, whatever stands in
/// memory there. A frame of 35 x 21 in 4:2:0 is lent as 35 x 21 and its chroma as 18 x 11, with the stride that it was decoded with.
#[derive(Clone, Copy, Debug)]
pub struct Reference<'a> {
    /// The reference frame's width.
    pub frame_width: i32,
    /// The reference frame's height.
    pub frame_height: i32,
    /// From a row's first sample to that of the next.
    pub stride: usize,
    /// Rows of the upper band.
    pub upper_rows: usize,
    /// The upper band.
    pub upper: &'a [u16],
    /// The lower band.
    pub lower: &'a [u16],
}

impl Reference<'_> {
    fn geom(&self) -> raw::RefGeom {
        raw::RefGeom { frame_width: self.frame_width, frame_height: self.frame_height, stride: self.stride, upper_rows: self.upper_rows }
    }
}

const NO_REFERENCE: Reference<'static> = Reference { frame_width: 0, frame_height: 0, stride: 0, upper_rows: 0, upper: &[], lower: &[] };

/// The plane that a prediction is written into. Its stride is its width. It has to be the decoded size: whole cells, 8 x `mi_cols` by 8 x `mi_rows`,
/// for chroma, where halved, half of it. A frame of 35 x 21 in 4:2:0 has a destination of 40 x 24, its chroma one of 20 x 12. The visible size is
/// accepted, too, but then the samples beyond it are not written, and intra prediction, which reads them, draws a wrong picture.
#[derive(Debug)]
pub struct Dest<'a> {
    /// width x height samples or more.
    pub samples: &'a mut [u16],
    /// 1..=65536
    pub width: usize,
    /// 1..=65536
    pub height: usize,
}

/// The whole prediction of a block: its vectors selected, clamped and scaled, its samples predicted from list 0 or, with a second reference, from
/// both lists and averaged. Only the part of the block inside the destination is written; a block wholly beyond it writes nothing. Of list 1
/// nothing is looked at without a second reference.
///
/// # Errors
/// [`Error::Block`], [`Error::Grid`], [`Error::Filter`], [`Error::Size`], [`Error::Start`], [`Error::Short`]; [`Error::Vector`] for a component in
/// use outside -32767..=32767.
///
/// # Examples
#[cfg_attr(target_arch = "x86_64", doc = "```")]
#[cfg_attr(not(target_arch = "x86_64"), doc = "```no_run")]
/// use knobspindle::{predict_inter, BlockGrid, BlockMvs, BlockShape, Dest, Filter, FrameGeom, InterPred, Mv, Reference, Room};
///
/// let samples: Vec<u16> = (0..64).map(|i| i % 8 * 10).collect(); // 0, 10, .. 70 in each row
/// let reference = Reference { frame_width: 8, frame_height: 8, stride: 8, upper_rows: 8, upper: &samples, lower: &[] };
/// let block = InterPred { plane: 0, x: 0, y: 0, block: 0, shape: BlockShape { w: 8, h: 8, filter: Filter::Bilinear, depth: 8 } };
/// let grid = BlockGrid { mi_row: 0, mi_col: 0, mi_rows: 1, mi_cols: 1, mi_size: 3 };
/// let frame = FrameGeom { width: 8, height: 8, subsampling_x: true, subsampling_y: true };
/// let mvs = BlockMvs { list0: [Mv { row: 0, col: 4 }; 4], ..Default::default() }; // half a sample to the right
/// let mut samples = [0; 64];
/// let dest = Dest { samples: &mut samples, width: 8, height: 8 };
/// predict_inter(block, grid, frame, &mvs, &reference, None, &mut Room::new(), dest)?;
/// assert_eq!(samples[..8], [5, 15, 25, 35, 45, 55, 65, 70]);
/// # Ok::<(), knobspindle::Error>(())
/// ```
#[allow(clippy::too_many_arguments)]
pub fn predict_inter(
    block: InterPred,
    grid: BlockGrid,
    frame: FrameGeom,
    mvs: &BlockMvs,
    first: &Reference<'_>,
    second: Option<&Reference<'_>>,
    room: &mut Room,
    dest: Dest<'_>,
) -> Result<(), Error> {
    let other = second.copied().unwrap_or(NO_REFERENCE);
    // SAFETY: each pointer comes with the length of its slice; the library touches no more and keeps none; room and dest are borrowed alone.
    let answer = unsafe {
        raw::knobspindle_predict_inter(
            block.args(second.is_some()),
            grid,
            frame,
            *mvs,
            first.geom(),
            first.upper.as_ptr(),
            first.upper.len(),
            first.lower.as_ptr(),
            first.lower.len(),
            other.geom(),
            other.upper.as_ptr(),
            other.upper.len(),
            other.lower.as_ptr(),
            other.lower.len(),
            room.0.as_mut_ptr(),
            ROOM,
            dest.samples.as_mut_ptr(),
            dest.samples.len(),
            raw::DestGeom { width: dest.width, height: dest.height },
        )
    };
    judged(answer, ())
}

/// How far a whole prediction reaches in the plane of one list's reference, whose frame has this visible size in luma samples: what matters of it to
/// [`predict_inter`]. The size is handed in and no [`Reference`], so that it can be asked before the reference has a row. Filter and depth are not looked
/// at, nor is the other list. The rectangle is that of all w x h samples; of a block that leaves the destination, ask with the w and h of the part inside.
///
/// # Errors
/// [`Error::Block`], [`Error::Grid`], [`Error::Size`], [`Error::Start`]; [`Error::Vector`] for a component of the list outside -32767..=32767.
///
/// # Examples
/// The rows of a frame of 16 x 64 that a block waits for are finished, and those below are still being decoded:
///
#[cfg_attr(target_arch = "x86_64", doc = "```")]
#[cfg_attr(not(target_arch = "x86_64"), doc = "```no_run")]
/// use knobspindle::{inter_reach, predict_inter, BlockGrid, BlockMvs, BlockShape, BlockSize, Dest, Filter, FrameGeom, InterPred, List, Mv, Reference, Room};
///
/// let block = InterPred { plane: 0, x: 0, y: 16, block: 0, shape: BlockShape { w: 16, h: 16, filter: Filter::Regular, depth: 8 } };
/// let grid = BlockGrid { mi_row: 2, mi_col: 0, mi_rows: 8, mi_cols: 2, mi_size: BlockSize::B16x16 as u8 };
/// let frame = FrameGeom { width: 16, height: 64, subsampling_x: true, subsampling_y: true };
/// let mvs = BlockMvs { list0: [Mv { row: 4, col: 0 }; 4], ..Default::default() }; // half a sample down
/// let reach = inter_reach(block, grid, frame, &mvs, List::Zero, 16, 64)?;
/// assert_eq!((reach.cols, reach.rows.clone()), (0..=15, 13..=35));
///
/// let mut last: Vec<u16> = (0..64 * 16).map(|i| i / 16 * 2).collect(); // 2 x row
/// let ready = reach.rows.end() + 1;
/// let (finished, decoding) = last.split_at_mut(ready * 16);
/// let spare = vec![0; decoding.len()]; // stands for the rows that make no difference
/// let from = Reference { frame_width: 16, frame_height: 64, stride: 16, upper_rows: ready, upper: finished, lower: &spare };
/// let mut next = [0; 64 * 16];
/// predict_inter(block, grid, frame, &mvs, &from, None, &mut Room::new(), Dest { samples: &mut next, width: 16, height: 64 })?;
/// assert!((16..32).all(|row| next[row * 16] as usize == 2 * row + 1));
/// decoding.fill(7); // not lent: a thread may have written here at the time
/// # Ok::<(), knobspindle::Error>(())
/// ```
pub fn inter_reach(
    block: InterPred,
    grid: BlockGrid,
    frame: FrameGeom,
    mvs: &BlockMvs,
    list: List,
    ref_width: i32,
    ref_height: i32,
) -> Result<Reach, Error> {
    // SAFETY: numbers alone cross.
    reached(unsafe { raw::knobspindle_inter_reach(block.args(false), grid, frame, *mvs, list == List::One, ref_width, ref_height) })
}
