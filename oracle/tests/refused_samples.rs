//! Where document 01 refuses and the Rust judges nothing: block prediction and predict_inter. Each
//! test names the refusal that Knobspindle answers with and shows what the Rust does instead.

mod common;

use common::*;
use oracle::door;
use oracle::terms::*;

/// Samples 0, 1, 2, .. in a plane of 16 by 16.
fn ramp() -> Bands {
    plane(16, 16, &std::array::from_fn::<u16, 256, _>(|i| i as u16))
}

/// Inside the ramp with its whole window: starts at sample (4, 4), phases as given.
fn inside(phase_x: i32, phase_y: i32) -> Scaled {
    Scaled {
        start_x: 64 + phase_x,
        start_y: 64 + phase_y,
        ..UNSCALED
    }
}

/// A step that sends the Rust the way of scaled references.
const SCALED: Scaled = Scaled {
    step_x: 32,
    ..UNSCALED
};

fn ramp_block(at: Scaled, w: usize, h: usize) -> BlockArgs {
    block(reference(ramp(), at), 0, w, h)
}

fn fast(a: &BlockArgs) -> Vec<u16> {
    answer(door::block_inter_predict, a)
}

/// Refusal 4, filter above 3: the table of taps ends, even where no tap is needed.
#[test]
fn filter_4() {
    for at in [inside(0, 0), inside(8, 8), SCALED, UNSCALED] {
        let a = BlockArgs {
            filter: 4,
            ..ramp_block(at, 1, 1)
        };
        assert_panics(&beyond(4, 4), || fast(&a));
    }
}

/// The sample halfway between 600 and 600.
fn between_600s(depth: u32) -> Vec<u16> {
    let at = Scaled {
        start_x: 8,
        ..UNSCALED
    };
    let a = block(reference(plane(2, 1, &[600, 600]), at), 3, 1, 1);
    fast(&BlockArgs { depth, ..a })
}

/// Refusal 4, depth 9: the Rust clips to 511. Here 600 and 600 average to 511 instead of 600.
#[test]
fn depth_9() {
    assert_eq!(between_600s(9), [511]);
}

/// Refusal 4, depth 32: the shift wraps to none and everything filtered is clipped to 0; with depth
/// 31 nothing is clipped but below 0; depth 0 is depth 32.
#[test]
fn depth_32() {
    assert_eq!([32, 31, 0].map(between_600s), [[0], [600], [0]]);
}

/// Refusal 1, w 0: the Rust writes nothing where it takes one pass, and panics where it takes two
/// passes or is scaled, as it cuts its room into rows of no samples.
#[test]
fn width_0() {
    for at in [inside(0, 0), inside(8, 0), inside(0, 8)] {
        let mut out = [MARK; 4];
        door::block_inter_predict(&ramp_block(at, 0, 1), &mut out);
        assert_eq!(out, [MARK; 4]);
    }
    for at in [inside(8, 8), SCALED] {
        assert_panics("chunk size must be non-zero", || {
            fast(&ramp_block(at, 0, 1))
        });
    }
}

/// Refusal 1, h 0: the Rust writes nothing.
#[test]
fn height_0() {
    for at in [inside(0, 0), inside(8, 8), SCALED] {
        let mut out = [MARK; 4];
        door::block_inter_predict(&ramp_block(at, 1, 0), &mut out);
        assert_eq!(out, [MARK; 4]);
    }
}

/// Refusal 1, w or h 65: the Rust goes the way of scaled references and predicts.
#[test]
fn width_65() {
    let wide = fast(&ramp_block(UNSCALED, 65, 1));
    assert_eq!((wide[0], wide[15], wide[64]), (0, 15, 15));
    let tall = fast(&ramp_block(UNSCALED, 1, 65));
    assert_eq!((tall[0], tall[15], tall[64]), (0, 240, 240));
}

/// Refusal 6, a step not 1..32, a start beyond 3,000,000: the Rust predicts.
#[test]
fn steps_and_starts_out_of_range() {
    let stepping = |step_x: i32| fast(&ramp_block(Scaled { step_x, ..UNSCALED }, 3, 1));
    assert_eq!(stepping(0), [0, 0, 0]);
    assert_eq!(stepping(33), [0, 2, 4]);
    assert_eq!(stepping(80), [0, 5, 10]);
    let backwards = Scaled {
        start_x: 64,
        step_x: -16,
        ..UNSCALED
    };
    assert_eq!(fast(&ramp_block(backwards, 3, 1)), [4, 3, 2]);
    let starting = |start_x: i32| {
        fast(&ramp_block(
            Scaled {
                start_x,
                ..UNSCALED
            },
            1,
            1,
        ))
    };
    assert_eq!([starting(-3_000_001), starting(3_000_001)], [[0], [15]]);
}

/// Refusal 6: near the end of the 32-bit numbers, positions wrap from the right edge to the left.
#[test]
fn position_wraps() {
    let at = Scaled {
        start_x: i32::MAX - 15,
        step_x: 32,
        ..UNSCALED
    };
    assert_eq!(fast(&ramp_block(at, 2, 1)), [15, 0]);
}

/// Refusal 5, a plane without columns or rows: the unscaled way can't hold into 0..-1, the scaled
/// way reads sample -1 or row -1.
#[test]
fn plane_of_size_0() {
    let sized = |width: i32, height: i32, at: Scaled| {
        let bands = Bands {
            width,
            height,
            ..ramp()
        };
        fast(&block(reference(bands, at), 0, 1, 1))
    };
    assert_panics("min > max. min = 0, max = -1", || sized(0, 16, UNSCALED));
    assert_panics("min > max. min = 0, max = -1", || sized(16, 0, UNSCALED));
    assert_panics("index out of bounds", || sized(0, 16, SCALED));
    assert_panics("out of range", || sized(16, 0, SCALED));
}

/// Refusal 7, a band one short: the Rust misses the sample only where it reads it.
#[test]
fn band_one_short() {
    let mut a = ramp_block(inside(0, 0), 1, 1);
    a.refs[0].bands.lower.pop();
    assert_eq!(fast(&a), [68]);
    a.refs[0].at = Scaled {
        start_x: 240,
        start_y: 240,
        ..UNSCALED
    };
    assert_panics(&beyond(15, 15), || fast(&a));
    a.refs[0].at.step_x = 32;
    assert_panics("out of range for slice", || fast(&a));
}

/// Refusal 7, more upper rows than the plane has: no row is ever sought below.
#[test]
fn upper_rows_beyond_the_plane() {
    let mut a = ramp_block(inside(0, 0), 1, 1);
    let bands = &mut a.refs[0].bands;
    std::mem::swap(&mut bands.upper, &mut bands.lower);
    bands.upper_rows = 17;
    assert_eq!(fast(&a), [68]);
}

/// Refusal 7, a stride below the width: the Rust panics where a row is asked for more than it has,
/// else it reads along the smaller stride.
#[test]
fn stride_below_the_width() {
    let mut a = ramp_block(inside(0, 0), 1, 1);
    a.refs[0].bands.stride = 15;
    assert_eq!(fast(&a), [4 * 15 + 4]);
    a.refs[0].at.start_x = 240;
    assert_panics(&beyond(15, 15), || fast(&a));
}

/// Refusal 7, a stride above 131,072, of the reference or of the output: the Rust takes any.
#[test]
fn stride_131073() {
    let mut far = vec![0; 131_074];
    far[131_073] = 7;
    let bands = Bands {
        stride: 131_073,
        ..plane(1, 2, &[0, 0])
    };
    let second_row = Scaled {
        start_y: 16,
        ..UNSCALED
    };
    let lent = Bands {
        lower: far,
        ..bands
    };
    assert_eq!(fast(&block(reference(lent, second_row), 0, 1, 1)), [7]);
    let mut out = vec![MARK; 131_074];
    let wide = BlockArgs {
        stride: 131_073,
        ..ramp_block(inside(0, 0), 1, 2)
    };
    door::block_inter_predict(&wide, &mut out);
    assert_eq!([out[0], out[1], out[131_073]], [68, MARK, 84]);
}

/// Refusal 5, a plane 65,537 wide or high: the Rust reads its last sample like any other.
#[test]
fn plane_65537() {
    let mut samples = vec![0; 65_537];
    samples[65_536] = 9;
    let last = 65_536 * 16;
    let at_end = Scaled {
        start_x: last,
        ..UNSCALED
    };
    let wide = reference(plane(65_537, 1, &samples), at_end);
    assert_eq!(fast(&block(wide, 0, 1, 1)), [9]);
    let at_foot = Scaled {
        start_y: last,
        ..UNSCALED
    };
    let high = reference(plane(1, 65_537, &samples), at_foot);
    assert_eq!(fast(&block(high, 0, 1, 1)), [9]);
}

/// Refusal 7, the output one short, or its stride below w: the Rust panics in the last row, after
/// the others are written; with a small stride rows are written over each other.
#[test]
fn output_short() {
    let a = ramp_block(inside(0, 0), 2, 2);
    let mut out = [MARK; 3];
    assert_panics("out of range for slice", || {
        door::block_inter_predict(&a, &mut out)
    });
    assert_eq!(out, [68, 69, MARK]);
    let narrow = BlockArgs { stride: 1, ..a };
    let mut out = [MARK; 4];
    door::block_inter_predict(&narrow, &mut out);
    assert_eq!(out, [68, 84, 85, MARK]);
}

/// An 8 by 8 luma block of a frame of 16 by 16, its reference the ramp.
fn prediction() -> PredictArgs {
    let frame = FrameReference {
        frame_width: 16,
        frame_height: 16,
        bands: ramp(),
    };
    PredictArgs {
        plane: 0,
        x: 0,
        y: 0,
        w: 8,
        h: 8,
        block: 0,
        filter: 0,
        depth: 8,
        average: false,
        grid: grid(0, 0, 2, 2, 3),
        frame_width: 16,
        frame_height: 16,
        sub_x: true,
        sub_y: true,
        vectors: [[[0, 0]; 4]; 2],
        refs: [frame, FrameReference::default()],
        dst_width: 16,
        dst_height: 16,
    }
}

fn predict(a: &PredictArgs) -> Vec<u16> {
    let mut dst = vec![MARK; a.dst_width * a.dst_height];
    door::predict_inter(a, &mut dst);
    dst
}

fn predict_with(change: impl Fn(&mut PredictArgs)) -> Vec<u16> {
    let mut a = prediction();
    change(&mut a);
    predict(&a)
}

fn untouched(dst: &[u16]) -> bool {
    dst.iter().all(|&s| s == MARK)
}

/// Accepted by both: what the refused calls below are changed from.
#[test]
fn predict_plainly() {
    let dst = predict(&prediction());
    assert_eq!(
        (dst[0], dst[7], dst[8], dst[7 * 16], dst[8 * 16]),
        (0, 7, MARK, 112, MARK)
    );
}

/// Accepted by both: a block wholly beyond the destination writes nothing.
#[test]
fn predict_beyond_the_destination() {
    assert!(untouched(&predict_with(|a| a.x = 16)));
    assert!(untouched(&predict_with(|a| a.y = 16)));
}

/// Refusal 1: block size, sub-block, partner, plane, w and h, as the calls below it have them.
#[test]
fn predict_block_refusals() {
    assert_panics(&beyond(13, 13), || predict_with(|a| a.grid.mi_size = 13));
    assert_panics(&beyond(4, 4), || predict_with(|a| a.block = 4));
    let without_partner = |a: &mut PredictArgs| {
        (a.plane, a.block, a.sub_x, a.grid.mi_size) = (1, 2, false, 0);
    };
    assert_panics(&beyond(4, 4), || predict_with(without_partner));
    assert_eq!(predict_with(|a| a.plane = 3)[0], 0);
    assert!(untouched(&predict_with(|a| a.w = 0)));
    // A block too large for the driver's room, once it is cut off or the second list's.
    assert_eq!(predict_with(|a| (a.w, a.h) = (65, 63))[255], 255);
    assert_panics("out of range for slice", || {
        predict_with(|a| (a.w, a.h) = (65, 64))
    });
}

/// Refusal 2: the Rust clamps by whatever grid it is given; 0 cells are none.
#[test]
fn predict_grid_refusals() {
    // The vector (0, 0) is clamped to 69 samples up and left, and below to 60 down and right.
    assert_eq!(predict_with(|a| a.grid = grid(9, 9, 0, 0, 3))[0], 0);
    assert_eq!(predict_with(|a| a.grid = grid(-9, -9, 2, 2, 3))[0], 255);
}

/// Refusal 4, filter and depth.
#[test]
fn predict_filter_refusals() {
    assert_panics(&beyond(4, 4), || predict_with(|a| a.filter = 4));
    assert_eq!(predict_with(|a| a.depth = 32)[7], 7);
}

/// Refusal 5: a reference that is not allowed is predicted from, a frame of no width divides by 0.
#[test]
fn predict_size_refusals() {
    let smaller = predict_with(|a| (a.frame_width, a.frame_height) = (7, 7));
    assert_eq!(smaller[..4], [0, 2, 5, 7]);
    assert_panics("attempt to divide by zero", || {
        predict_with(|a| a.frame_width = 0)
    });
}

/// Refusal 6: the Rust predicts from the left of the frame and writes nothing.
#[test]
fn predict_position_refusals() {
    assert!(untouched(&predict_with(|a| a.x = -1)));
    assert!(untouched(&predict_with(|a| a.y = 65_536)));
}

/// Refusal 7, the reference one short. The destination can't be short in the Rust: its plane owns
/// its samples.
#[test]
fn predict_short_refusals() {
    let mut a = prediction();
    a.refs[0].bands.lower.pop();
    assert_eq!(predict(&a)[7], 7);
    (a.x, a.y) = (8, 8);
    assert_panics(&beyond(15, 15), || predict(&a));
}

/// Refusal 9: the Rust takes any component and clamps it.
#[test]
fn predict_vector_refusals() {
    let mut a = prediction();
    a.vectors[0][0] = [0, 32768];
    assert_eq!(predict(&a)[..2], [15, 15]);
    a.vectors[0][0] = [0, 1 << 30];
    assert_eq!(predict(&a)[..2], [0, 0]);
}

/// List 1 is not looked at without averaging: neither by the Rust nor by document 01.
#[test]
fn predict_list_1_unused() {
    let mut a = prediction();
    a.vectors[1] = [[i32::MAX; 2]; 4];
    assert_eq!(predict(&a)[7], 7);
    a.average = true;
    assert_panics(&beyond(0, -1), || predict(&a));
}

/// Nor are its bands joined: so many rows as these could not be.
#[test]
fn predict_list_1_not_joined() {
    let mut a = prediction();
    (a.refs[1].bands.stride, a.refs[1].bands.upper_rows) = (1, usize::MAX);
    assert_eq!(predict(&a)[7], 7);
    a.average = true;
    assert_panics("capacity overflow", || predict(&a));
}
