//! The arguments and the answers of every call, in document 01's terms: plain numbers, lent tables,
//! flat planes. `door` answers them with the Rust, `plain` where the Rust has no such call, `table`
//! reads document 01's refusals over them, `cases` makes them up and writes them down.

/// Row before column, in eighths of a luma sample or, once clamped, sixteenths of a plane sample.
pub type Vector = [i32; 2];

/// List, then sub-block.
pub type BlockVectors = [[Vector; 4]; 2];

/// Where a block stands, in cells of 8 by 8 luma samples.
#[derive(Clone, Copy, Debug, Default, PartialEq, Eq)]
pub struct Grid {
    pub mi_row: i32,
    pub mi_col: i32,
    pub mi_rows: i32,
    pub mi_cols: i32,
    pub mi_size: u8,
}

/// The columns of the block's tile: start, and the first column after it.
#[derive(Clone, Copy, Debug, Default, PartialEq, Eq)]
pub struct Tile {
    pub start: i32,
    pub end: i32,
}

#[derive(Clone, Copy, Debug, Default, PartialEq, Eq)]
pub struct SelectArgs {
    pub vectors: BlockVectors,
    /// Whether list 1 is meant.
    pub second: bool,
    pub plane: usize,
    pub mi_size: u8,
    pub block: usize,
    pub sub_x: bool,
    pub sub_y: bool,
}

#[derive(Clone, Copy, Debug, Default, PartialEq, Eq)]
pub struct ClampArgs {
    pub grid: Grid,
    pub vector: Vector,
    pub plane: usize,
    pub sub_x: bool,
    pub sub_y: bool,
}

#[derive(Clone, Copy, Debug, Default, PartialEq, Eq)]
pub struct ScaleArgs {
    pub ref_width: i32,
    pub ref_height: i32,
    pub frame_width: i32,
    pub frame_height: i32,
    pub sub_x: bool,
    pub sub_y: bool,
    pub plane: usize,
    pub x: i32,
    pub y: i32,
    pub vector: Vector,
}

#[derive(Clone, Copy, Debug, Default, PartialEq, Eq)]
pub struct Scaled {
    pub start_x: i32,
    pub start_y: i32,
    pub step_x: i32,
    pub step_y: i32,
}

/// Document 01's lent tables, cell i = row * mi_cols + column.
#[derive(Clone, Debug, Default, PartialEq, Eq)]
pub struct Tables {
    pub modes: Vec<u8>,
    pub frames: Vec<i8>,
    pub vectors: Vec<i16>,
    pub sub_vectors: Vec<i16>,
    pub prev_frames: Vec<i8>,
    pub prev_vectors: Vec<i16>,
}

#[derive(Clone, Copy, Debug, Default, PartialEq, Eq)]
pub struct SearchArgs {
    pub grid: Grid,
    pub tile: Tile,
    pub target: i32,
    /// -1 for the whole block, else 0..3.
    pub block: i32,
    /// Of reference frames 0..3; that of frame 0 is never looked at.
    pub sign_bias: [bool; 4],
    pub use_prev: bool,
}

#[derive(Clone, Copy, Debug, Default, PartialEq, Eq)]
pub struct Found {
    pub pair: [Vector; 2],
    pub context: u8,
}

/// The sub-8x8 list: the search's arguments (its `block` is 0..3) and the block's four vectors.
#[derive(Clone, Copy, Debug, Default, PartialEq, Eq)]
pub struct AppendArgs {
    pub search: SearchArgs,
    pub block_vectors: [Vector; 4],
}

#[derive(Clone, Copy, Debug, Default, PartialEq, Eq)]
pub struct BestArgs {
    pub grid: Grid,
    pub tile: Tile,
    pub pair: [Vector; 2],
    pub high_precision: bool,
}

/// A plane lent in two bands with one stride; the upper one has rows 0..upper_rows.
#[derive(Clone, Debug, Default, PartialEq, Eq)]
pub struct Bands {
    pub width: i32,
    pub height: i32,
    pub stride: usize,
    pub upper_rows: usize,
    pub upper: Vec<u16>,
    pub lower: Vec<u16>,
}

/// A reference of block prediction: its plane, where it starts and how it steps.
#[derive(Clone, Debug, Default, PartialEq, Eq)]
pub struct Reference {
    pub bands: Bands,
    pub at: Scaled,
}

#[derive(Clone, Debug, Default, PartialEq, Eq)]
pub struct BlockArgs {
    pub refs: [Reference; 2],
    pub average: bool,
    pub filter: usize,
    pub depth: u32,
    pub w: usize,
    pub h: usize,
    /// Stride of the output.
    pub stride: usize,
}

/// A reference of the whole prediction: the size of its frame in luma samples, and the plane.
#[derive(Clone, Debug, Default, PartialEq, Eq)]
pub struct FrameReference {
    pub frame_width: i32,
    pub frame_height: i32,
    pub bands: Bands,
}

#[derive(Clone, Debug, Default, PartialEq, Eq)]
pub struct PredictArgs {
    pub plane: usize,
    pub x: i32,
    pub y: i32,
    pub w: usize,
    pub h: usize,
    pub block: usize,
    pub filter: usize,
    pub depth: u32,
    pub average: bool,
    pub grid: Grid,
    pub frame_width: i32,
    pub frame_height: i32,
    pub sub_x: bool,
    pub sub_y: bool,
    pub vectors: BlockVectors,
    pub refs: [FrameReference; 2],
    /// Of the destination plane; its stride is its width.
    pub dst_width: usize,
    pub dst_height: usize,
}

/// How far a block can reach: its size, the size of the plane, where it starts there and how it
/// steps.
#[derive(Clone, Copy, Debug, Default, PartialEq, Eq)]
pub struct BlockReachArgs {
    pub w: usize,
    pub h: usize,
    pub width: i32,
    pub height: i32,
    pub at: Scaled,
}

/// The first and the last column and row that a block can reach in a plane.
#[derive(Clone, Copy, Debug, Default, PartialEq, Eq)]
pub struct Reach {
    pub first_col: usize,
    pub last_col: usize,
    pub first_row: usize,
    pub last_row: usize,
}
