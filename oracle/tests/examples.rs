//! Document 01, 'Examples on both sides', line by line, asked of the Rust. Each test stands under
//! the line that it asks.

mod common;

use common::*;
use oracle::terms::*;
use oracle::{door, plain};

/// "Halving: -3, -2, -1, 0, 1, 2, 3 give -2, -1, -1, 0, 1, 1, 2."
#[test]
fn halving() {
    assert_eq!(
        [-3, -2, -1, 0, 1, 2, 3].map(door::round_mv_comp_q2),
        [-2, -1, -1, 0, 1, 1, 2]
    );
}

/// The same through the chroma choice: halved height pairs b with b + 2, halved width b with b + 1.
#[test]
fn halving_in_the_choice() {
    let mut a = SelectArgs {
        plane: 1,
        block: 1,
        sub_y: true,
        ..SelectArgs::default()
    };
    a.vectors[0] = [[90, 90], [-3, 1], [90, 90], [0, 2]];
    assert_eq!(door::select_mv(&a), [-2, 2]);
    a.vectors[0] = [[90, 90], [-3, 1], [0, 2], [90, 90]];
    assert_eq!(
        door::select_mv(&SelectArgs {
            sub_x: true,
            sub_y: false,
            ..a
        }),
        [-2, 2]
    );
}

/// "Quartering: -6, -2, -1, 1, 2, 5, 6 give -2, -1, 0, 0, 1, 1, 2."
#[test]
fn quartering() {
    assert_eq!(
        [-6, -2, -1, 1, 2, 5, 6].map(door::round_mv_comp_q4),
        [-2, -1, 0, 0, 1, 1, 2]
    );
}

/// The same through the chroma choice, both halved: all four.
#[test]
fn quartering_in_the_choice() {
    let mut a = SelectArgs {
        plane: 2,
        second: true,
        ..SelectArgs::default()
    };
    (a.sub_x, a.sub_y) = (true, true);
    a.vectors[1] = [[-1, 1], [-2, 1], [-3, 1], [0, 2]];
    assert_eq!(door::select_mv(&a), [-2, 1]);
}

/// "mi_rows 1, height 8, mi_row 0, border 128: 0 gives -320; -200 gives -128."
#[test]
fn clamp_low_is_tested_first() {
    let g = grid(0, 0, 1, 1, 12);
    assert_eq!(
        [0, -200].map(|c| door::clamp_mv_row(&g, c, 128)),
        [-320, -128]
    );
    assert_eq!(
        [0, -200].map(|c| door::clamp_mv_col(&g, c, 128)),
        [-320, -128]
    );
}

/// "mi_rows 8, height 8, mi_row 0, border 128: 200 gives 128; 128 stays."
#[test]
fn clamp_high() {
    let g = grid(0, 0, 8, 8, 12);
    assert_eq!(
        [200, 128].map(|c| door::clamp_mv_row(&g, c, 128)),
        [128, 128]
    );
    assert_eq!(
        [200, 128].map(|c| door::clamp_mv_col(&g, c, 128)),
        [128, 128]
    );
}

/// The context of an 8 by 8 block at (1, 1) of a frame of 2 by 2 cells: place one is the cell
/// above, place two the one to the left.
fn context_of(above: u8, left: u8) -> u8 {
    let mut tables = intra_tables(4);
    (tables.modes[1], tables.modes[2]) = (above, left);
    let a = SearchArgs {
        grid: grid(1, 1, 2, 2, 3),
        tile: Tile { start: 0, end: 2 },
        target: 1,
        block: -1,
        ..SearchArgs::default()
    };
    door::find_mv_refs(&tables, &a).context
}

/// "Modes of places one and two: 12 and 12 give context 0; 12 and 10, 1; 12 and 13, 3; 13 and 13,
/// 4; 0 and 13, 5; 5 and 5, 6."
#[test]
fn contexts() {
    let pairs = [(12, 12), (12, 10), (12, 13), (13, 13), (0, 13), (5, 5)];
    assert_eq!(
        pairs.map(|(above, left)| context_of(above, left)),
        [0, 1, 3, 4, 5, 6]
    );
    assert_eq!(
        pairs.map(|(above, left)| context_of(left, above)),
        [0, 1, 3, 4, 5, 6]
    );
}

/// "None inside: 2."
#[test]
fn context_without_neighbours() {
    let a = SearchArgs {
        grid: grid(0, 0, 1, 1, 3),
        tile: Tile { start: 0, end: 1 },
        target: 1,
        block: -1,
        ..SearchArgs::default()
    };
    let expected = Found {
        pair: [[0, 0]; 2],
        context: 2,
    };
    assert_eq!(door::find_mv_refs(&intra_tables(1), &a), expected);
}

/// "Sub-block 3, block vectors and search pair all equal to c: c and zero." The pair is equal by
/// the clamp: both candidates lie beyond the frame.
#[test]
fn sub_block_three_all_equal() {
    let mut tables = intra_tables(4);
    set_vector(&mut tables, 1, 0, 1, [1000, 1000]);
    set_vector(&mut tables, 2, 0, 1, [2000, 2000]);
    let search = SearchArgs {
        grid: grid(1, 1, 2, 2, 0),
        tile: Tile { start: 0, end: 2 },
        target: 1,
        block: 3,
        ..SearchArgs::default()
    };
    let c = [128, 128];
    assert_eq!(door::find_mv_refs(&tables, &search).pair, [c, c]);
    let a = AppendArgs {
        search,
        block_vectors: [c; 4],
    };
    assert_eq!(door::append_sub8x8_mvs(&tables, &a), [c, [0, 0]]);
}

fn step_of(reference: i32, frame: i32) -> i32 {
    let across = ScaleArgs {
        ref_width: reference,
        frame_width: frame,
        ref_height: 1,
        frame_height: 1,
        ..ScaleArgs::default()
    };
    let down = ScaleArgs {
        ref_width: 1,
        frame_width: 1,
        ref_height: reference,
        frame_height: frame,
        ..ScaleArgs::default()
    };
    assert_eq!(door::scale_mv(&across).step_x, door::scale_mv(&down).step_y);
    door::scale_mv(&across).step_x
}

/// "Reference 200, frame 100: step 32. 199: step 31. 1 to 16: step 1." The refusals of that line
/// stand in refused_vectors.rs.
#[test]
fn steps() {
    assert_eq!(
        [step_of(200, 100), step_of(199, 100), step_of(1, 16)],
        [32, 31, 1]
    );
}

fn row_of(samples: &[u16], start_x: i32, step_x: i32, w: usize) -> [Vec<u16>; 3] {
    let at = Scaled {
        start_x,
        step_x,
        ..UNSCALED
    };
    let a = block(reference(plane(samples.len(), 1, samples), at), 3, w, 1);
    [
        answer(door::block_inter_predict, &a),
        answer(door::block_inter_predict_generic, &a),
        answer(plain::block_inter_predict, &a),
    ]
}

/// "One row 10, 20; filter 3, start 8, step 16, two wide: 15, 20. Start -8, one wide: 10."
#[test]
fn one_row() {
    assert_eq!(row_of(&[10, 20], 8, 16, 2), [[15, 20]; 3]);
    assert_eq!(row_of(&[10, 20], -8, 16, 1), [[10]; 3]);
}

/// "Row 1, 2, 3, 4, 5; start 0, step 32, two wide: 1, 3."
#[test]
fn every_second_sample() {
    assert_eq!(row_of(&[1, 2, 3, 4, 5], 0, 32, 2), [[1, 3]; 3]);
}

/// "Average of 3 and 4: 4." In the block call the average is the door's; the driver's own is asked
/// through predict_inter, with the block inside the destination and cut off by it.
#[test]
fn average() {
    let lists = [3, 4].map(|sample| reference(plane(1, 1, &[sample]), UNSCALED));
    let a = BlockArgs {
        refs: lists.clone(),
        average: true,
        ..block(lists[0].clone(), 0, 1, 1)
    };
    assert_eq!(answer(door::block_inter_predict, &a), [4]);
    assert_eq!(answer(plain::block_inter_predict, &a), [4]);

    let frame = |r: &Reference| FrameReference {
        frame_width: 1,
        frame_height: 1,
        bands: r.bands.clone(),
    };
    let mut whole = PredictArgs {
        w: 1,
        h: 1,
        depth: 8,
        average: true,
        grid: grid(0, 0, 1, 1, 3),
        frame_width: 1,
        frame_height: 1,
        refs: [frame(&lists[0]), frame(&lists[1])],
        dst_width: 1,
        dst_height: 1,
        ..PredictArgs::default()
    };
    for w in [1, 2] {
        whole.w = w;
        let mut dst = [MARK];
        door::predict_inter(&whole, &mut dst);
        assert_eq!(dst, [4]);
    }
}

/// "Depth 8, sample 300, start 0: 255 (the Rust's copy: 300)."
#[test]
fn sample_above_the_depth() {
    let a = block(reference(plane(1, 1, &[300]), UNSCALED), 0, 1, 1);
    assert_eq!(answer(door::block_inter_predict, &a), [300]);
    assert_eq!(answer(plain::block_inter_predict, &a), [255]);
}

/// "Unscaled luma x 9000, zero vector: start 144,000."
#[test]
fn far_start() {
    let a = ScaleArgs {
        ref_width: 10_000,
        ref_height: 1,
        frame_width: 10_000,
        frame_height: 1,
        x: 9000,
        ..ScaleArgs::default()
    };
    let expected = Scaled {
        start_x: 144_000,
        ..UNSCALED
    };
    assert_eq!(door::scale_mv(&a), expected);
}

/// "Far from edges: (3, -3) low precision gives (2, -2); with high precision (63, 0) stays and
/// (64, 1) gives (64, 0)."
#[test]
fn precision() {
    let low = BestArgs {
        grid: grid(50, 50, 100, 100, 3),
        tile: Tile { start: 0, end: 100 },
        pair: [[3, -3], [-3, 3]],
        high_precision: false,
    };
    assert_eq!(door::find_best_ref_mvs(&low), [[2, -2], [-2, 2]]);
    let high = BestArgs {
        pair: [[63, 0], [64, 1]],
        high_precision: true,
        ..low
    };
    assert_eq!(door::find_best_ref_mvs(&high), [[63, 0], [64, 0]]);
}
