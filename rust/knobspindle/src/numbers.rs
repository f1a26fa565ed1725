//! Names of numbers. The search's tables hold the numbers themselves: `Mode::New as u8`, `RefFrame::Last as i8`.

/// The mode of a block, as [`crate::Tables::modes`] has it: the standard's `y_mode`. A block below 8x8 has that of its last sub-block.
#[derive(Clone, Copy, Debug, PartialEq, Eq, Hash)]
#[repr(u8)]
pub enum Mode {
    /// Intra: the mean of the neighbours.
    Dc = 0,
    /// Intra: down.
    V = 1,
    /// Intra: to the right.
    H = 2,
    /// Intra: 45 degrees.
    D45 = 3,
    /// Intra: 135 degrees.
    D135 = 4,
    /// Intra: 117 degrees.
    D117 = 5,
    /// Intra: 153 degrees.
    D153 = 6,
    /// Intra: 207 degrees.
    D207 = 7,
    /// Intra: 63 degrees.
    D63 = 8,
    /// Intra: `TM_PRED`.
    Tm = 9,
    /// `NEARESTMV`: the first candidate.
    Nearest = 10,
    /// `NEARMV`: the second one.
    Near = 11,
    /// `ZEROMV`: no motion.
    Zero = 12,
    /// `NEWMV`: a vector of its own.
    New = 13,
}

/// A reference frame, as [`crate::Tables::frames`] has it. An intra block has `Intra` and `None`, an inter block with one reference that one and
/// `None`. A target is one of the last three: `RefFrame::Last as i32`.
///
/// # Examples
/// ```
/// use knobspindle::RefFrame;
///
/// let intra_then_last_and_altref = [RefFrame::Intra, RefFrame::None, RefFrame::Last, RefFrame::AltRef].map(|frame| frame as i8);
/// assert_eq!(intra_then_last_and_altref, [0, -1, 1, 3]);
/// ```
#[derive(Clone, Copy, Debug, PartialEq, Eq, Hash)]
#[repr(i8)]
pub enum RefFrame {
    /// The list is not used.
    None = -1,
    /// The block is an intra block.
    Intra = 0,
    /// `LAST_FRAME`
    Last = 1,
    /// `GOLDEN_FRAME`
    Golden = 2,
    /// `ALTREF_FRAME`
    AltRef = 3,
}

/// A block's size in luma samples, width before height, as [`crate::BlockGrid::mi_size`] has it: `BlockSize::B8x8 as u8`.
#[derive(Clone, Copy, Debug, PartialEq, Eq, Hash)]
#[repr(u8)]
pub enum BlockSize {
    /// 4 x 4
    B4x4 = 0,
    /// 4 x 8
    B4x8 = 1,
    /// 8 x 4
    B8x4 = 2,
    /// 8 x 8
    B8x8 = 3,
    /// 8 x 16
    B8x16 = 4,
    /// 16 x 8
    B16x8 = 5,
    /// 16 x 16
    B16x16 = 6,
    /// 16 x 32
    B16x32 = 7,
    /// 32 x 16
    B32x16 = 8,
    /// 32 x 32
    B32x32 = 9,
    /// 32 x 64
    B32x64 = 10,
    /// 64 x 32
    B64x32 = 11,
    /// 64 x 64
    B64x64 = 12,
}

/// A block's filter. What a stream writes for it may be another number: go by the name, or by the two middle taps at half a sample.
#[derive(Clone, Copy, Debug, PartialEq, Eq, Hash)]
pub enum Filter {
    /// `EIGHTTAP`, 78
    Regular = 0,
    /// `EIGHTTAP_SMOOTH`, 55
    Smooth = 1,
    /// `EIGHTTAP_SHARP`, 80
    Sharp = 2,
    /// `BILINEAR`, 64
    Bilinear = 3,
}
