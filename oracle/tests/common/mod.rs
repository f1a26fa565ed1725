//! What several test files need: small planes and blocks, asking for a panic, random numbers.
// Each test file is a crate of its own and uses a part of this.
#![allow(dead_code)]

use oracle::terms::*;
use std::cell::Cell;
use std::panic::{AssertUnwindSafe, catch_unwind, set_hook, take_hook};
use std::sync::Once;

/// The plane in its lower band, the stride as wide as the plane.
pub fn plane(width: usize, height: usize, samples: &[u16]) -> Bands {
    assert_eq!(samples.len(), width * height);
    Bands {
        width: width as i32,
        height: height as i32,
        stride: width,
        upper_rows: 0,
        upper: vec![],
        lower: samples.to_vec(),
    }
}

pub const UNSCALED: Scaled = Scaled {
    start_x: 0,
    start_y: 0,
    step_x: 16,
    step_y: 16,
};

pub fn reference(bands: Bands, at: Scaled) -> Reference {
    Reference { bands, at }
}

/// One reference, depth 8, output rows without a gap.
pub fn block(from: Reference, filter: usize, w: usize, h: usize) -> BlockArgs {
    let refs = [from, Reference::default()];
    BlockArgs {
        refs,
        average: false,
        filter,
        depth: 8,
        w,
        h,
        stride: w,
    }
}

/// The answer of a block call into an output that held nothing but `MARK`.
pub fn answer(call: impl Fn(&BlockArgs, &mut [u16]), a: &BlockArgs) -> Vec<u16> {
    let mut out = vec![MARK; a.stride * a.h];
    call(a, &mut out);
    out
}

pub const MARK: u16 = 0xaaaa;

pub fn grid(mi_row: i32, mi_col: i32, mi_rows: i32, mi_cols: i32, mi_size: u8) -> Grid {
    Grid {
        mi_row,
        mi_col,
        mi_rows,
        mi_cols,
        mi_size,
    }
}

/// Tables of `cells` intra cells, the previous frame's included.
pub fn intra_tables(cells: usize) -> Tables {
    Tables {
        modes: vec![0; cells],
        frames: [0, -1].repeat(cells),
        vectors: vec![0; 4 * cells],
        sub_vectors: vec![0; 16 * cells],
        prev_frames: [0, -1].repeat(cells),
        prev_vectors: vec![0; 4 * cells],
    }
}

/// Cell `i` gets a vector, and the same for all four sub-blocks, in `list`.
pub fn set_vector(t: &mut Tables, i: usize, list: usize, frame: i8, vector: [i16; 2]) {
    t.frames[2 * i + list] = frame;
    t.vectors[2 * (2 * i + list)..][..2].copy_from_slice(&vector);
    t.sub_vectors[8 * (2 * i + list)..][..8].copy_from_slice(&vector.repeat(4));
}

thread_local! { static QUIET: Cell<bool> = const { Cell::new(false) }; }

/// What `f` gives, or the message that it panics with; other threads' panics stay loud.
pub fn try_quietly<T>(f: impl FnOnce() -> T) -> Result<T, String> {
    static HOOK: Once = Once::new();
    HOOK.call_once(|| {
        let loud = take_hook();
        set_hook(Box::new(move |info| {
            if !QUIET.get() {
                loud(info);
            }
        }));
    });
    QUIET.set(true);
    let result = catch_unwind(AssertUnwindSafe(f));
    QUIET.set(false);
    result.map_err(|payload| match payload.downcast::<String>() {
        Ok(message) => *message,
        Err(payload) => payload
            .downcast_ref::<&str>()
            .expect("a message")
            .to_string(),
    })
}

/// Asserts that `f` panics and that the message holds `part`.
#[track_caller]
pub fn assert_panics<T: std::fmt::Debug>(part: &str, f: impl FnOnce() -> T) {
    match try_quietly(f) {
        Ok(value) => panic!("no panic, but {value:?}"),
        Err(message) => assert!(message.contains(part), "panicked with: {message}"),
    }
}

/// The Rust's message for an index beyond a slice or an array.
pub fn beyond(len: usize, index: i64) -> String {
    let index = index as usize;
    format!("index out of bounds: the len is {len} but the index is {index}")
}

/// splitmix64.
pub struct Random(pub u64);

impl Random {
    pub fn next(&mut self) -> u64 {
        self.0 = self.0.wrapping_add(0x9e37_79b9_7f4a_7c15);
        let z = (self.0 ^ (self.0 >> 30)).wrapping_mul(0xbf58_476d_1ce4_e5b9);
        let z = (z ^ (z >> 27)).wrapping_mul(0x94d0_49bb_1331_11eb);
        z ^ (z >> 31)
    }

    /// Any of `low..=high`.
    pub fn within(&mut self, low: i64, high: i64) -> i64 {
        low + (self.next() % (high - low + 1) as u64) as i64
    }

    pub fn chance(&mut self, percent: u64) -> bool {
        self.next() % 100 < percent
    }

    pub fn pick<T: Copy>(&mut self, of: &[T]) -> T {
        of[(self.next() % of.len() as u64) as usize]
    }
}
