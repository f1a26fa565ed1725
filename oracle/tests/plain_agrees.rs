//! With samples within the depth, the Rust's fast path, its generic form and document 01's
//! definition in plain Rust give the same samples, whatever the way that the Rust takes; and its
//! driver does so from a flat plane and from the decoder's own storage.

mod common;

use common::{MARK, Random, answer};
use oracle::terms::*;
use oracle::{door, plain};

const BLOCKS: usize = 20_000;
const PREDICTIONS: usize = 6000;

fn random_samples(random: &mut Random, n: usize, depth: u32) -> Vec<u16> {
    let most = (1 << depth) - 1;
    // The extremes, so that both passes meet their limits; else anything.
    let extremes = random.chance(40);
    let any = |random: &mut Random| random.within(0, most) as u16;
    (0..n)
        .map(|_| {
            if extremes {
                random.pick(&[0, most as u16])
            } else {
                any(random)
            }
        })
        .collect()
}

/// A plane parted anywhere, each band's last row as short as document 01 allows.
fn random_bands(random: &mut Random, width: usize, height: usize, depth: u32) -> Bands {
    let stride = width + random.pick(&[0, 0, 1, 7]);
    let upper_rows = random.within(0, height as i64) as usize;
    let need = |rows: usize| {
        if rows == 0 {
            0
        } else {
            (rows - 1) * stride + width
        }
    };
    Bands {
        width: width as i32,
        height: height as i32,
        stride,
        upper_rows,
        upper: random_samples(random, need(upper_rows), depth),
        lower: random_samples(random, need(height - upper_rows), depth),
    }
}

/// Mostly in the plane or near it, now and then as far off as document 01 allows.
fn random_start(random: &mut Random, size: usize) -> i32 {
    let size = size as i64;
    let start = match random.within(0, 9) {
        0 => random.within(-3_000_000, 3_000_000),
        1 => random.pick(&[-3_000_000, 3_000_000, -1, 0, 1, -16, 16]),
        2 => 16 * random.within(-8, size + 8),
        3 | 4 => random.within(-1280, 16 * size + 1280),
        5 | 6 => 16 * random.within(3, 3 + size / 3),
        _ => random.within(48, 48 + 16 * size / 3),
    };
    start as i32
}

fn random_steps(random: &mut Random) -> (i32, i32) {
    let any = |random: &mut Random| random.within(1, 32) as i32;
    match random.within(0, 5) {
        0 => (16, any(random)),
        1 => (any(random), 16),
        2 => (any(random), any(random)),
        _ => (16, 16),
    }
}

fn random_reference(random: &mut Random, depth: u32) -> Reference {
    let size = |random: &mut Random| match random.within(0, 5) {
        0 => 1,
        1 => random.within(2, 8),
        _ => random.within(9, 150),
    };
    let (width, height) = (size(random) as usize, size(random) as usize);
    let (step_x, step_y) = random_steps(random);
    Reference {
        bands: random_bands(random, width, height, depth),
        at: Scaled {
            start_x: random_start(random, width),
            start_y: random_start(random, height),
            step_x,
            step_y,
        },
    }
}

fn random_block(random: &mut Random) -> BlockArgs {
    let depth = random.pick(&[8, 10, 12]);
    let side = |random: &mut Random| match random.chance(40) {
        true => random.pick(&[4, 8, 16, 32, 64]),
        false => random.within(1, 64) as usize,
    };
    let (w, h) = (side(random), side(random));
    BlockArgs {
        refs: [
            random_reference(random, depth),
            random_reference(random, depth),
        ],
        average: random.chance(40),
        filter: random.within(0, 3) as usize,
        depth,
        w,
        h,
        stride: w + random.pick(&[0, 0, 3]),
    }
}

/// Which of the Rust's ways a reference takes, to see that all are met.
fn way(a: &BlockArgs, r: &Reference) -> &'static str {
    if (r.at.step_x, r.at.step_y) != (16, 16) {
        return "scaled";
    }
    let within =
        |start: i32, n: usize, size: i32| (start >> 4) >= 3 && (start >> 4) + n as i32 + 4 <= size;
    let inside =
        within(r.at.start_x, a.w, r.bands.width) && within(r.at.start_y, a.h, r.bands.height);
    match (inside, r.at.start_x & 15, r.at.start_y & 15) {
        (false, 0, 0) => "edge copy",
        (false, _, 0) => "edge horizontal",
        (false, 0, _) => "edge vertical",
        (false, _, _) => "edge both",
        (true, 0, 0) => "copy",
        (true, _, 0) => "horizontal",
        (true, 0, _) => "vertical",
        (true, _, _) => "both",
    }
}

#[test]
fn blocks_agree() {
    let mut random = Random(1);
    let mut met = std::collections::BTreeMap::<&str, usize>::new();
    for n in 0..BLOCKS {
        let a = random_block(&mut random);
        for r in &a.refs[..1 + usize::from(a.average)] {
            *met.entry(way(&a, r)).or_default() += 1;
        }
        let fast = answer(door::block_inter_predict, &a);
        assert_eq!(
            fast,
            answer(door::block_inter_predict_generic, &a),
            "block {n}: generic form"
        );
        assert_eq!(
            fast,
            answer(plain::block_inter_predict, &a),
            "block {n}: plain"
        );
        let between = |(i, _): &(usize, &u16)| i % a.stride >= a.w;
        assert!(
            fast.iter()
                .enumerate()
                .filter(between)
                .all(|(_, &s)| s == MARK),
            "block {n}"
        );
    }
    println!("ways met: {met:?}");
    assert_eq!(met.len(), 9);
    assert!(met.values().all(|&times| times >= 20), "{met:?}");
}

/// The largest block at the largest step: 134 rows of 64 columns between the passes, as document 01
/// has it. The Rust takes them from the heap; the room that its driver lends holds 71 rows.
#[test]
fn largest_scaled_block() {
    let mut random = Random(5);
    let bands = random_bands(&mut random, 150, 150, 12);
    let at = Scaled {
        start_x: 15,
        start_y: 15,
        step_x: 32,
        step_y: 32,
    };
    let a = BlockArgs {
        depth: 12,
        ..common::block(Reference { bands, at }, 2, 64, 64)
    };
    assert_eq!(
        answer(door::block_inter_predict, &a),
        answer(plain::block_inter_predict, &a)
    );
}

fn random_frame_reference(random: &mut Random, a: &PredictArgs) -> FrameReference {
    let other = |random: &mut Random, size: i32| match random.chance(50) {
        true => size,
        false => random.within((i64::from(size) + 15) / 16, 2 * i64::from(size)) as i32,
    };
    let same = random.chance(50);
    let frame_width = if same {
        a.frame_width
    } else {
        other(random, a.frame_width)
    };
    let frame_height = if same {
        a.frame_height
    } else {
        other(random, a.frame_height)
    };
    let halved = |size: i32, sub: bool| (size + i32::from(sub)) >> u32::from(sub);
    let width = halved(frame_width, a.plane > 0 && a.sub_x) as usize;
    let height = halved(frame_height, a.plane > 0 && a.sub_y) as usize;
    let bands = random_bands(random, width, height, a.depth);
    FrameReference {
        frame_width,
        frame_height,
        bands,
    }
}

/// Vectors from still to the farthest that document 01 takes.
fn random_vectors(random: &mut Random) -> BlockVectors {
    let reach = random.pick(&[0, 16, 200, 2000, 32767]);
    [(); 2].map(|_| [(); 4].map(|_| [(); 2].map(|_| random.within(-reach, reach) as i32)))
}

fn random_prediction(random: &mut Random) -> PredictArgs {
    let frame_width = random.within(1, 140) as i32;
    let frame_height = random.within(1, 140) as i32;
    let (mi_rows, mi_cols) = ((frame_height + 7) / 8, (frame_width + 7) / 8);
    let mi_row = random.within(0, i64::from(mi_rows) - 1) as i32;
    let mi_col = random.within(0, i64::from(mi_cols) - 1) as i32;
    let plane = random.within(0, 2) as usize;
    let (sub_x, sub_y) = (random.chance(50), random.chance(50));
    let shift = |sub: bool| u32::from(plane > 0 && sub);
    let mut a = PredictArgs {
        plane,
        x: (8 * mi_col) >> shift(sub_x),
        y: (8 * mi_row) >> shift(sub_y),
        w: random.within(1, 64) as usize,
        h: random.within(1, 64) as usize,
        // Sub-blocks 0 and 1 have a partner under every subsampling.
        block: random.within(0, 1) as usize,
        filter: random.within(0, 3) as usize,
        depth: random.pick(&[8, 10, 12]),
        average: random.chance(40),
        grid: Grid {
            mi_row,
            mi_col,
            mi_rows,
            mi_cols,
            mi_size: random.within(0, 12) as u8,
        },
        frame_width,
        frame_height,
        sub_x,
        sub_y,
        vectors: random_vectors(random),
        refs: Default::default(),
        dst_width: ((8 * mi_cols) >> shift(sub_x)) as usize,
        dst_height: ((8 * mi_rows) >> shift(sub_y)) as usize,
    };
    a.refs = [
        random_frame_reference(random, &a),
        random_frame_reference(random, &a),
    ];
    a
}

#[test]
fn predictions_agree() {
    let mut random = Random(2);
    let (mut cut_off, mut scaled) = (0, 0);
    for n in 0..PREDICTIONS {
        let a = random_prediction(&mut random);
        cut_off += usize::from(a.x as usize + a.w > a.dst_width);
        scaled += usize::from(a.refs[0].frame_width != a.frame_width);
        let before = vec![MARK; a.dst_width * a.dst_height];
        let [mut by_rust, mut by_bands, mut by_plain] = [(); 3].map(|_| before.clone());
        door::predict_inter(&a, &mut by_rust);
        door::predict_inter_banded(&a, &mut by_bands);
        plain::predict_inter(&a, &mut by_plain);
        assert!(by_rust == by_plain, "prediction {n} differs: {a:?}");
        assert!(
            by_rust == by_bands,
            "prediction {n} differs in the decoder's storage: {a:?}"
        );
    }
    println!("of {PREDICTIONS}, cut off at the right edge {cut_off}, scaled {scaled}");
    assert!(cut_off >= 100 && scaled >= 100);
}
