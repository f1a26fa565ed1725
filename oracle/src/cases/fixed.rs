//! Files of the calls that read no lent buffer: `count` records of one length each, the arguments
//! first and then what the oracle answers.

use super::bytes::{Read, Reader, Writer};
use super::edges::{Edge, spread};
use super::rng::Rng;

pub trait Fixed: Clone {
    /// Bytes of a record.
    const LENGTH: usize;

    /// An accepted case, to which each edge is applied.
    fn base() -> Self;

    fn edges() -> Vec<Edge<Self>>;

    fn random(rng: &mut Rng) -> Self;

    fn read(r: &mut Reader) -> Read<Self>;

    fn write(&self, w: &mut Writer);

    /// The number of document 01's table.
    fn number(&self) -> u32;

    /// The values beside it, from the Rust or, where it has no such call, from the definition;
    /// asked for accepted cases only.
    fn write_values(&self, w: &mut Writer);
}

/// A refused call returns zeros, which is what a record is filled up with.
fn write_record<A: Fixed>(a: &A, w: &mut Writer) {
    let start = w.0.len();
    a.write(w);
    let number = a.number();
    w.u32(number);
    if number == 0 {
        a.write_values(w);
    }
    assert!(w.0.len() - start <= A::LENGTH);
    w.0.resize(start + A::LENGTH, 0);
}

/// The boundaries with the number that each was written to give.
pub fn boundaries<A: Fixed>() -> Vec<(u32, A)> {
    spread(&A::base(), &A::edges())
}

/// The boundaries come first, chance fills up.
pub fn make<A: Fixed>(rng: &mut Rng, count: usize, w: &mut Writer) {
    let edges = boundaries::<A>();
    for (_, a) in edges.iter().take(count) {
        write_record(a, w);
    }
    for _ in edges.len()..count {
        write_record(&A::random(rng), w);
    }
}

/// How many of `count` records are not what the oracle says now.
pub fn ask<A: Fixed>(r: &mut Reader, count: usize) -> Read<usize> {
    let mut differences = 0;
    for _ in 0..count {
        let stored = r.take(A::LENGTH)?;
        let mut now = Writer::default();
        write_record(&A::read(&mut Reader::new(stored))?, &mut now);
        differences += usize::from(now.0 != stored);
    }
    Ok(differences)
}
