//! VP9 inter prediction, proved: a safe wrapper over Knobspindle's static library `libhost.a`, which is x86-64 code.
//!
//! Every call takes any input and makes its own checks. A refused call gives an [`Error`], whose value is the library's answer number, and changes
//! no buffer. No call allocates or keeps anything, so calls may run in any number of threads, each with a [`Room`] of its own.
//!
//! What the library can't see is seen to here: a slice's length is its own, an output or a room can't overlap a band (`&mut`), a truth value is
//! one, a filter is one of four, and a row comes back as a part of the band that holds it.
//!
//! ```text
//! find_mv_refs, find_best_ref_mvs, append_sub8x8_mvs    a block's candidate vectors, in eighths of a luma sample (Mv)
//! select_mv -> clamp_mv -> scale_mv                     an Mv, a PlaneMv (sixteenths of the plane's sample), a Stepping
//! block_inter_predict                                   samples from a Stepping
//! predict_inter                                         all of the last four at once
//! block_reach, inter_reach                              the columns and rows of a reference that matter to the two before (Reach)
//! ```

mod error;
mod numbers;
mod raw;
mod samples;
mod vectors;

pub use error::Error;
pub use numbers::{BlockSize, Filter, Mode, RefFrame};
pub use samples::{
    block_inter_predict, block_reach, inter_reach, predict_inter, BlockShape, Dest, FrameGeom, InterPred, Plane, Reach, Reference, Room, Source, ROOM,
};
pub use vectors::{
    append_sub8x8_mvs, clamp_mv, find_best_ref_mvs, find_mv_refs, scale_mv, select_mv, BlockGrid, BlockMvs, List, Mv, MvRefs, Place, PlaneMv,
    Previous, ScaleGeom, Stepping, Subsampling, Tables,
};
