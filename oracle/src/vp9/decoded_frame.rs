// STUB: the crate root that declares Vp9DecodedFrame was not given. The fields are those that
// `to_decoded_frame` of frame_buf.rs fills in; no bought call makes one.

pub(crate) struct Vp9DecodedFrame {
    pub(crate) width: u32,
    pub(crate) height: u32,
    pub(crate) bit_depth: u8,
    pub(crate) subsampling_x: bool,
    pub(crate) subsampling_y: bool,
    pub(crate) y: Vec<u16>,
    pub(crate) u: Vec<u16>,
    pub(crate) v: Vec<u16>,
}
