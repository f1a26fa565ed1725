// STUB: the real header.rs was not given. frame_buf.rs stores a colour space as a label and makes
// one value of it; no bought call looks at it.

#[derive(Clone, Copy, Debug)]
pub(crate) enum ColorSpace {
    Unknown,
}
