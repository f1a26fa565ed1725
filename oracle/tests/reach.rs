//! Document 02's Req 11 held against document 01's definition and against the Rust: the ends of the
//! rectangle are the first and the last sample that a prediction reads, and what stands outside
//! makes no difference to it.

mod common;

use common::{MARK, Random, answer, grid};
use oracle::terms::*;
use oracle::{door, plain};

const BLOCKS: usize = 6000;
const PREDICTIONS: usize = 3000;

fn random_step(random: &mut Random) -> i32 {
    let any = random.within(1, 32) as i32;
    random.pick(&[16, any])
}

fn random_at(random: &mut Random, width: i32, height: i32) -> Scaled {
    let start = |random: &mut Random, extent: i32| {
        let far = random.within(-3_000_000, 3_000_000) as i32;
        let near = random.within(-200, 16 * i64::from(extent) + 200) as i32;
        if random.chance(5) { far } else { near }
    };
    Scaled {
        start_x: start(random, width),
        start_y: start(random, height),
        step_x: random_step(random),
        step_y: random_step(random),
    }
}

fn reach(w: usize, h: usize, bands: &Bands, at: Scaled) -> Reach {
    plain::block_reach(&BlockReachArgs {
        w,
        h,
        width: bands.width,
        height: bands.height,
        at,
    })
}

/// "column floor(P/16) + t - 3 .. held into .. 0..X", over every position and tap.
fn read_by_definition(start: i32, step: i32, count: usize, extent: i32) -> (usize, usize) {
    let positions = (0..count as i32).map(|c| start + step * c);
    let samples = positions.flat_map(|p| (0..8).map(move |t| p.div_euclid(16) + t - 3));
    let held: Vec<i32> = samples.map(|n| n.clamp(0, extent - 1)).collect();
    let (first, last) = (held.iter().min(), held.iter().max());
    (*first.unwrap() as usize, *last.unwrap() as usize)
}

#[test]
fn the_ends_are_what_the_definition_reads() {
    let random = &mut Random(11);
    for _ in 0..40_000 {
        let side = |random: &mut Random| random.within(1, 64) as usize;
        let extent = |random: &mut Random| random.within(1, 150) as i32;
        let (w, h) = (side(random), side(random));
        let (width, height) = (extent(random), extent(random));
        let at = random_at(random, width, height);
        let a = BlockReachArgs {
            w,
            h,
            width,
            height,
            at,
        };
        let r = plain::block_reach(&a);
        let columns = read_by_definition(at.start_x, at.step_x, w, width);
        let rows = read_by_definition(at.start_y, at.step_y, h, height);
        assert_eq!((r.first_col, r.last_col), columns, "{a:?}");
        assert_eq!((r.first_row, r.last_row), rows, "{a:?}");
    }
}

/// Samples that a depth of 8 holds; parted anywhere, with something between the rows.
fn random_bands(random: &mut Random, width: i32, height: i32) -> Bands {
    let stride = width as usize + random.pick(&[0, 3]);
    let upper_rows = random.within(0, i64::from(height)) as usize;
    let mut samples = |n: usize| (0..n).map(|_| random.within(0, 255) as u16).collect();
    Bands {
        width,
        height,
        stride,
        upper_rows,
        upper: samples(upper_rows * stride),
        lower: samples((height as usize - upper_rows) * stride),
    }
}

/// Other samples, still of 8 bits, wherever the rectangle is not.
fn replaced(random: &mut Random, bands: &Bands, keep: Reach) -> Bands {
    let mut other = bands.clone();
    let k = bands.upper_rows;
    for (first, band) in [(0, &mut other.upper), (k, &mut other.lower)] {
        for (i, sample) in band.iter_mut().enumerate() {
            let (row, col) = (first + i / bands.stride, i % bands.stride);
            let kept = (keep.first_row..=keep.last_row).contains(&row)
                && (keep.first_col..=keep.last_col).contains(&col);
            if !kept {
                *sample ^= random.within(1, 255) as u16;
            }
        }
    }
    other
}

fn random_block(random: &mut Random) -> BlockArgs {
    let reference = |random: &mut Random| {
        let (width, height) = (random.within(1, 40) as i32, random.within(1, 40) as i32);
        Reference {
            bands: random_bands(random, width, height),
            at: random_at(random, width, height),
        }
    };
    let w = random.pick(&[1, 3, 4, 8, 16]);
    BlockArgs {
        refs: [reference(random), reference(random)],
        average: random.chance(50),
        filter: random.within(0, 3) as usize,
        depth: 8,
        w,
        h: random.pick(&[1, 2, 4, 8, 16]),
        stride: w,
    }
}

/// Whether a block changes when every sample outside its rectangles does, these made smaller by
/// `shorten`; to the definition and to both forms of the Rust alike.
fn block_differs(random: &mut Random, shorten: impl Fn(&mut Reach)) -> bool {
    let a = random_block(random);
    let mut b = a.clone();
    for r in &mut b.refs {
        let mut keep = reach(a.w, a.h, &r.bands, r.at);
        shorten(&mut keep);
        r.bands = replaced(random, &r.bands, keep);
    }
    let by_definition = answer(plain::block_inter_predict, &a);
    assert_eq!(answer(door::block_inter_predict, &a), by_definition);
    let same = [
        answer(plain::block_inter_predict, &b) == by_definition,
        answer(door::block_inter_predict, &b) == by_definition,
        answer(door::block_inter_predict_generic, &b) == by_definition,
    ];
    assert!(same.iter().all(|s| *s == same[0]), "{a:?}");
    !same[0]
}

#[test]
fn nothing_outside_matters_to_a_block() {
    let random = &mut Random(12);
    let differ = (0..BLOCKS)
        .filter(|_| block_differs(random, |_| ()))
        .count();
    assert_eq!(differ, 0);
}

/// A column or row less on each side, where there is more than one.
const SHORTEN: [fn(&mut Reach); 4] = [
    |r| r.first_col += usize::from(r.first_col < r.last_col),
    |r| r.last_col -= usize::from(r.first_col < r.last_col),
    |r| r.first_row += usize::from(r.first_row < r.last_row),
    |r| r.last_row -= usize::from(r.first_row < r.last_row),
];

#[test]
fn a_column_or_row_less_matters_to_a_block() {
    for (i, less) in SHORTEN.into_iter().enumerate() {
        let random = &mut Random(13);
        let differ = (0..2000).filter(|_| block_differs(random, less)).count();
        assert!(differ >= 400, "{i}: {differ}");
    }
}

/// A block of a frame of up to 60 by 60, from references of its size or another that is allowed.
fn random_prediction(random: &mut Random) -> PredictArgs {
    let size = |random: &mut Random| random.within(1, 60) as i32;
    let (frame_width, frame_height) = (size(random), size(random));
    let (mi_rows, mi_cols) = ((frame_height + 7) / 8, (frame_width + 7) / 8);
    let mi_row = random.within(0, i64::from(mi_rows) - 1) as i32;
    let mi_col = random.within(0, i64::from(mi_cols) - 1) as i32;
    let far = random.pick(&[16, 200, 2000, 32_767]);
    let mut component = || random.within(-far, far) as i32;
    let vectors = [(); 2].map(|_| [(); 4].map(|_| [component(), component()]));
    let mut a = PredictArgs {
        plane: random.within(0, 2) as usize,
        x: 4 * mi_col,
        y: 4 * mi_row,
        w: random.pick(&[1, 4, 8, 16]),
        h: random.pick(&[1, 4, 8, 16]),
        // Sub-blocks 0 and 1 have a partner under every subsampling.
        block: random.within(0, 1) as usize,
        filter: random.within(0, 3) as usize,
        depth: 8,
        average: random.chance(50),
        grid: grid(mi_row, mi_col, mi_rows, mi_cols, random.pick(&[0, 2, 3, 6])),
        frame_width,
        frame_height,
        sub_x: random.chance(50),
        sub_y: random.chance(50),
        vectors,
        refs: Default::default(),
        dst_width: 8 * mi_cols as usize,
        dst_height: 8 * mi_rows as usize,
    };
    a.refs = [(); 2].map(|_| random_frame(random, &a));
    a
}

fn random_frame(random: &mut Random, a: &PredictArgs) -> FrameReference {
    let other = |random: &mut Random, size: i32| {
        let any = random.within((i64::from(size) + 15) / 16, 2 * i64::from(size)) as i32;
        random.pick(&[size, any])
    };
    let frame_width = other(random, a.frame_width);
    let frame_height = other(random, a.frame_height);
    let halved = |size: i32, sub: bool| match a.plane > 0 && sub {
        true => size / 2 + size % 2,
        false => size,
    };
    let (width, height) = (halved(frame_width, a.sub_x), halved(frame_height, a.sub_y));
    FrameReference {
        frame_width,
        frame_height,
        bands: random_bands(random, width, height),
    }
}

/// The same of the Rust's whole prediction.
fn prediction_differs(random: &mut Random, shorten: impl Fn(&mut Reach)) -> bool {
    let a = random_prediction(random);
    let mut b = a.clone();
    for (list, r) in b.refs.iter_mut().enumerate() {
        let mut keep = plain::inter_reach(&a, list);
        shorten(&mut keep);
        r.bands = replaced(random, &r.bands, keep);
    }
    let [first, second] = [&a, &b].map(|args| {
        let mut dst = vec![MARK; args.dst_width * args.dst_height];
        door::predict_inter(args, &mut dst);
        dst
    });
    first != second
}

#[test]
fn nothing_outside_matters_to_a_prediction() {
    let random = &mut Random(14);
    let differ = (0..PREDICTIONS).filter(|_| prediction_differs(random, |_| ()));
    assert_eq!(differ.count(), 0);
}

#[test]
fn a_column_or_row_less_matters_to_a_prediction() {
    for (i, less) in SHORTEN.into_iter().enumerate() {
        let random = &mut Random(15);
        let differ = (0..2000).filter(|_| prediction_differs(random, less));
        let differ = differ.count();
        assert!(differ >= 200, "{i}: {differ}");
    }
}
