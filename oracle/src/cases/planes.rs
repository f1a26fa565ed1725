//! Scenes of the calls that read samples: the contents of two references' bands. A query lends
//! them, or less of them, as planes of its own size, stride and parting.

use super::bytes::{Read, Reader, Writer};
use super::edges::{Edge, each, edge};
use super::rng::Rng;
use crate::table::band_need;
use crate::terms::Bands;

/// Samples of a band that the file holds.
const HELD: usize = 1024;

/// The longest band that any query lends.
pub const LONGEST: usize = 65_536;

// Document 01's numbers once more, so that the table is not held against itself.
pub const ROOM: usize = 8_576;
pub const LARGEST_STRIDE: usize = 131_072;

#[derive(Clone, Debug)]
pub struct Scene {
    /// The longest band that its queries lend.
    pub longest: usize,
    /// Reference 0's upper and lower band, then reference 1's; sample i of a lent band is sample
    /// i mod 1024 of these.
    held: [Vec<u16>; 4],
}

impl Scene {
    /// Samples below 2^bits, a third of them at either end, so that sums are clipped.
    pub fn chance(rng: &mut Rng, bits: u32, longest: usize) -> Scene {
        let top = (1 << bits) - 1;
        let mut sample = || match rng.below(6) {
            0 => 0,
            1 => top as u16,
            _ => rng.within(0, top) as u16,
        };
        let held = [0; 4].map(|_| (0..HELD).map(|_| sample()).collect());
        Scene { longest, held }
    }

    pub fn bands(&self, list: usize, width: i32, height: i32, lent: &Lent) -> Bands {
        let lend = |held: &[u16], n: usize| held.iter().copied().cycle().take(n).collect();
        Bands {
            width,
            height,
            stride: lent.stride,
            upper_rows: lent.upper_rows,
            upper: lend(&self.held[2 * list], lent.upper),
            lower: lend(&self.held[2 * list + 1], lent.lower),
        }
    }

    pub fn read(r: &mut Reader) -> Read<Scene> {
        let longest = r.len()?;
        r.take(4)?;
        let mut held = [const { Vec::new() }; 4];
        for band in &mut held {
            *band = (0..HELD).map(|_| r.u16()).collect::<Read<_>>()?;
        }
        Ok(Scene { longest, held })
    }

    pub fn write(&self, w: &mut Writer) {
        w.len(self.longest);
        w.zeros(4);
        self.held.iter().flatten().for_each(|&s| w.u16(s));
    }
}

/// How a plane is lent: its stride, its parting, and the lengths of the two bands.
#[derive(Clone, Copy, Debug, Default)]
pub struct Lent {
    pub stride: usize,
    pub upper_rows: usize,
    pub upper: usize,
    pub lower: usize,
}

impl Lent {
    /// As many samples as document 01 asks for.
    pub fn fit(stride: usize, upper_rows: usize, width: i32, height: i32) -> Lent {
        let need = |rows| band_need(rows, stride, width as usize) as usize;
        Lent {
            stride,
            upper_rows,
            upper: need(upper_rows),
            lower: need(height as usize - upper_rows),
        }
    }

    /// A stride and a parting by chance; the bands are long enough, seldom longer.
    pub fn chance(rng: &mut Rng, width: i32, height: i32) -> Lent {
        let stride = width as usize + rng.pick(&[0, 0, 1, 5]);
        let upper_rows = rng.size(0, height as usize);
        let mut lent = Lent::fit(stride, upper_rows, width, height);
        if rng.once_in(4) {
            (lent.upper, lent.lower) = (HELD, HELD);
        }
        lent
    }

    pub fn read(r: &mut Reader) -> Read<Lent> {
        let lent = Lent {
            stride: r.size()?,
            upper_rows: r.size()?,
            upper: r.len()?,
            lower: r.len()?,
        };
        if lent.upper.max(lent.lower) > LONGEST {
            return Err("more is lent than any scene has".to_string());
        }
        Ok(lent)
    }

    pub fn write(&self, w: &mut Writer) {
        w.size(self.stride);
        w.size(self.upper_rows);
        w.len(self.upper);
        w.len(self.lower);
    }
}

/// A query that lends planes.
pub trait Lends {
    fn lent(&mut self, list: usize) -> &mut Lent;

    /// Makes the plane of that list one of another size, and nothing else wrong by it.
    fn resize(&mut self, list: usize, width: i32, height: i32);

    fn size(&self, list: usize) -> (i32, i32);
}

/// Lends the plane of that list anew, as long as its size asks for.
pub fn refit<A: Lends>(a: &mut A, list: usize, stride: usize, upper_rows: usize) {
    let (width, height) = a.size(list);
    *a.lent(list) = Lent::fit(stride, upper_rows, width, height);
}

/// Row 7 of the table for one plane, which has this height in the base: stride, parting, lengths.
pub fn lent_edges<A: Lends + 'static>(list: usize, height: usize) -> Vec<Edge<A>> {
    let mut edges = Vec::new();
    for k in 0..=height {
        edges.push(edge(0, move |a: &mut A| {
            let stride = a.lent(list).stride;
            refit(a, list, stride, k);
        }));
    }
    edges.push(edge(0, move |a: &mut A| {
        let (width, _) = a.size(list);
        refit(a, list, width as usize, height / 2);
    }));
    for less in [1, 2] {
        edges.push(edge(7, move |a: &mut A| {
            let (width, _) = a.size(list);
            a.lent(list).stride = width as usize - less;
        }));
    }
    for rows in [height + 1, 1 << 32, usize::MAX] {
        edges.push(edge(7, move |a: &mut A| {
            a.lent(list).upper_rows = rows;
            (a.lent(list).upper, a.lent(list).lower) = (HELD, HELD);
        }));
    }
    edges.extend(far_stride_edges(list));
    edges.extend(short_edges(list));
    edges
}

/// Two rows in two bands: no length depends on the stride.
fn far_stride_edges<A: Lends + 'static>(list: usize) -> Vec<Edge<A>> {
    let strides = [
        (0, LARGEST_STRIDE),
        (7, LARGEST_STRIDE + 1),
        (7, (1 << 32) + 16),
        (7, usize::MAX),
    ];
    each(strides, move |a: &mut A, stride| {
        a.resize(list, 9, 2);
        refit(a, list, 9, 1);
        a.lent(list).stride = stride;
    })
}

/// Each band one sample short, empty, or longer than needed.
fn short_edges<A: Lends + 'static>(list: usize) -> Vec<Edge<A>> {
    vec![
        edge(7, move |a: &mut A| a.lent(list).upper -= 1),
        edge(7, move |a: &mut A| a.lent(list).lower -= 1),
        edge(7, move |a: &mut A| a.lent(list).upper = 0),
        edge(7, move |a: &mut A| a.lent(list).lower = 0),
        edge(0, move |a: &mut A| a.lent(list).upper += 1),
        edge(0, move |a: &mut A| a.lent(list).lower = HELD),
    ]
}

/// Extents that no plane has.
pub const WRONG_EXTENTS: [i32; 5] = [0, -1, 65_537, i32::MIN, i32::MAX];

/// Row 5 of the table for a plane whose size is an argument.
pub fn extent_edges<A: 'static>(
    extent: fn(&mut A, usize) -> &mut i32,
    list: usize,
) -> Vec<Edge<A>> {
    let wrong = WRONG_EXTENTS.map(|n| (5, n));
    each(wrong, move |a, n| *extent(a, list) = n)
}

/// Planes of the largest extents: width, height, stride and upper rows.
pub const LARGEST_PLANES: [(i32, i32, usize, usize); 7] = [
    (65_536, 1, 65_536, 0),
    (65_536, 1, 65_536, 1),
    (65_536, 2, 131_072, 1),
    (1, 65_536, 1, 0),
    (1, 65_536, 1, 1),
    (1, 65_536, 1, 40_000),
    (1, 65_536, 1, 65_536),
];
