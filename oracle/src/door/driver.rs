//! The whole prediction by the Rust's own driver, `predict_inter` of inter_pred.rs. It takes the
//! size of a plane from that of its frame, so the width and height of the bands are not looked at.

use super::{block_grid, rows};
use crate::frame_buf::FrameBuf;
use crate::inter_mv::ScaleGeom;
use crate::inter_pred::{self, InterPredArgs, RefPlane, RefPlanes};
use crate::intra::Plane;
use crate::terms::*;

/// The references as flat planes, our two bands joined.
pub fn predict_inter(a: &PredictArgs, dst: &mut [u16]) {
    let flat = of_used(a, |r| rows::join(&r.bands));
    let list = [0, 1].map(|i| {
        Some(RefPlane {
            samples: flat[i].as_deref()?,
            ..described(&a.refs[i])
        })
    });
    run(a, RefPlanes { list }, dst);
}

/// The references in the decoder's own storage, bands of a superblock's height: what a real decoder
/// reads from. For references that hold what they have to.
pub fn predict_inter_banded(a: &PredictArgs, dst: &mut [u16]) {
    let stored = of_used(a, |r| frame_buf(a, r));
    let list = [0, 1].map(|i| {
        Some(RefPlane {
            bands: Some((stored[i].as_ref()?, a.plane)),
            ..described(&a.refs[i])
        })
    });
    run(a, RefPlanes { list }, dst);
}

/// What `make` makes of each list's reference. Without averaging list 1 may lend nonsense, and is
/// not looked at.
fn of_used<T>(a: &PredictArgs, make: impl Fn(&FrameReference) -> T) -> [Option<T>; 2] {
    [0, 1].map(|list| (list == 0 || a.average).then(|| make(&a.refs[list])))
}

fn described(r: &FrameReference) -> RefPlane<'static> {
    RefPlane {
        samples: &[],
        stride: r.bands.stride,
        ref_frame_width: r.frame_width,
        ref_frame_height: r.frame_height,
        bands: None,
    }
}

/// A frame that holds the plane asked for; the others are there for their heights alone.
fn frame_buf(a: &PredictArgs, r: &FrameReference) -> FrameBuf {
    let sub_y = u32::from(a.sub_y);
    let luma_rows = r.frame_height as usize;
    let chroma_rows = (luma_rows + sub_y as usize) >> sub_y;
    let mut planes = [luma_rows, chroma_rows, chroma_rows].map(|rows| (vec![0; rows], 1));
    let (rows, stride) = (planes[a.plane].0.len(), r.bands.stride);
    let mut samples = rows::join(&r.bands);
    samples.resize(rows * stride, 0);
    planes[a.plane] = (samples, stride);
    let lent = planes
        .each_ref()
        .map(|(samples, stride)| (&samples[..], *stride));
    let (width, height) = (r.frame_width as u32, r.frame_height as u32);
    FrameBuf::from_flat(lent, width, height, a.sub_x, a.sub_y, a.depth as u8)
}

fn run(a: &PredictArgs, refs: RefPlanes, dst: &mut [u16]) {
    let args = InterPredArgs {
        plane: a.plane,
        x: a.x,
        y: a.y,
        w: a.w,
        h: a.h,
        block_idx: a.block,
        interp_filter: a.filter,
        bit_depth: a.depth,
        is_compound: a.average,
    };
    // The driver overwrites the reference's sizes here by those of each list.
    let geom = ScaleGeom {
        ref_frame_width: 0,
        ref_frame_height: 0,
        frame_width: a.frame_width,
        frame_height: a.frame_height,
        subsampling_x: a.sub_x,
        subsampling_y: a.sub_y,
    };
    let mut plane = Plane::new(a.dst_width, a.dst_height);
    let held = &mut dst[..a.dst_width * a.dst_height];
    plane.samples_mut().copy_from_slice(held);
    inter_pred::predict_inter(
        &mut plane,
        &args,
        &block_grid(&a.grid),
        &geom,
        &a.vectors,
        &refs,
        a.sub_x,
        a.sub_y,
    );
    held.copy_from_slice(plane.samples());
}
