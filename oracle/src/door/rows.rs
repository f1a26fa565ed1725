//! A plane in two bands, as the rows that the Rust asks for.

use crate::block_inter_pred::{Pieces, SampleRows};
use crate::terms::Bands;

pub(super) struct BandRows<'a>(pub(super) &'a Bands);

// Like the decoder's own `FrameRows`: a window or pieces where whole rows lie together, so that
// the Rust takes the same ways here as in the decoder; else row by row.
impl SampleRows for BandRows<'_> {
    type Px = u16;

    fn row(&self, y: usize) -> &[u16] {
        let b = self.0;
        let from = match y.checked_sub(b.upper_rows) {
            None => &b.upper[y * b.stride..],
            Some(below) => &b.lower[below * b.stride..],
        };
        &from[..b.stride.min(from.len())]
    }

    fn window(&self, y0: usize, y1: usize) -> Option<(&[u16], usize)> {
        let b = self.0;
        let rows = if y1 <= b.upper_rows {
            whole_rows(&b.upper, b.stride, y0, y1)
        } else {
            let below = y0.checked_sub(b.upper_rows)?;
            whole_rows(&b.lower, b.stride, below, y1 - b.upper_rows)
        };
        rows.map(|data| (data, b.stride))
    }

    fn pieces(&self, y0: usize, y1: usize) -> Option<Pieces<'_, u16>> {
        let b = self.0;
        let k = b.upper_rows;
        if y0 >= k || k >= y1 {
            return None;
        }
        let upper = whole_rows(&b.upper, b.stride, y0, k)?;
        let lower = whole_rows(&b.lower, b.stride, 0, y1 - k)?;
        let parts = [(upper, y0, k), (lower, k, y1), (&[], 0, 0), (&[], 0, 0)];
        Some(Pieces {
            parts,
            n: 2,
            stride: b.stride,
        })
    }
}

/// None where the last row stops short of the stride, as document 01 allows.
fn whole_rows(band: &[u16], stride: usize, y0: usize, y1: usize) -> Option<&[u16]> {
    band.get(y0 * stride..y1 * stride)
}

/// Both bands as the Rust's one flat plane. The upper band's last row may stop short of the stride
/// and is filled up with zeros, which no row of the plane reaches.
pub(super) fn join(b: &Bands) -> Vec<i32> {
    let upper = b.upper_rows * b.stride;
    let mut flat: Vec<i32> = b.upper.iter().take(upper).map(|&s| i32::from(s)).collect();
    flat.resize(upper, 0);
    flat.extend(b.lower.iter().map(|&s| i32::from(s)));
    flat
}
