//! See README.md.

// The Rust that Knobspindle is held against: the six first files are as published, so they are
// neither formatted nor linted here; they name each other as modules of the crate root.
#[path = "vp9/block_inter_pred.rs"]
#[allow(dead_code, clippy::all)]
#[rustfmt::skip]
mod block_inter_pred;
#[path = "vp9/frame_buf.rs"]
#[allow(dead_code, clippy::all)]
#[rustfmt::skip]
mod frame_buf;
#[path = "vp9/inter_mv.rs"]
#[allow(dead_code, clippy::all)]
#[rustfmt::skip]
mod inter_mv;
#[path = "vp9/inter_pred.rs"]
#[allow(dead_code, clippy::all)]
#[rustfmt::skip]
mod inter_pred;
#[path = "vp9/intra.rs"]
#[allow(dead_code, clippy::all)]
#[rustfmt::skip]
mod intra;
#[path = "vp9/mv_ref.rs"]
#[allow(dead_code, clippy::all)]
#[rustfmt::skip]
mod mv_ref;

// What the six lean on: three files cut to what is used, and two stubs for files not given.
#[path = "vp9/decoded_frame.rs"]
#[allow(dead_code)]
mod decoded_frame;
#[path = "vp9/header.rs"]
mod header;
#[path = "vp9/mv.rs"]
#[rustfmt::skip]
mod mv;
#[path = "vp9/partition.rs"]
#[rustfmt::skip]
mod partition;
#[path = "vp9/residual.rs"]
#[rustfmt::skip]
mod residual;

use decoded_frame::Vp9DecodedFrame;

pub mod cases;
pub mod door;
pub mod plain;
pub mod table;
pub mod terms;
