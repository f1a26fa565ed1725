//! "Samples are 16-bit and may exceed the depth. The definition clips them. The Rust's copying path
//! passes them on: a difference to record." Three of the Rust's ways differ from the definition,
//! all of them at columns of horizontal phase 0; the smallest input of each stands here.

mod common;

use common::*;
use oracle::terms::*;
use oracle::{door, plain};

/// The Rust's answer beside the definition's; the Rust's generic form is the definition's.
fn both(a: &BlockArgs) -> (Vec<u16>, Vec<u16>) {
    let defined = answer(plain::block_inter_predict, a);
    assert_eq!(answer(door::block_inter_predict_generic, a), defined);
    (answer(door::block_inter_predict, a), defined)
}

/// One sample, copied: any value above the depth comes through.
#[test]
fn copy_passes_on() {
    for (depth, most) in [(8, 255), (10, 1023), (12, 4095)] {
        for sample in [most + 1, u16::MAX] {
            let a = block(reference(plane(1, 1, &[sample]), UNSCALED), 0, 1, 1);
            assert_eq!(both(&BlockArgs { depth, ..a }), (vec![sample], vec![most]));
        }
    }
}

/// The same inside a plane, where the Rust copies without gathering the edges.
#[test]
fn copy_passes_on_inside() {
    let at = Scaled {
        start_x: 48,
        start_y: 48,
        ..UNSCALED
    };
    let a = block(reference(plane(8, 8, &[256; 64]), at), 0, 1, 1);
    assert_eq!(both(&a), (vec![256], vec![255]));
}

/// One sample of a column of two, between the rows.
fn column(samples: [u16; 2], filter: usize, start_y: i32) -> BlockArgs {
    let at = Scaled {
        start_y,
        ..UNSCALED
    };
    block(reference(plane(1, 2, &samples), at), filter, 1, 1)
}

/// Vertical only: the reference is read unclipped and only the result is clipped.
#[test]
fn vertical_reads_unclipped() {
    assert_eq!(both(&column([300, 0], 3, 8)), (vec![150], vec![128]));
}

/// The smallest sample that shows it at depth 8, with the smallest other sample, filter and phase.
#[test]
fn vertical_smallest() {
    let mut found = None;
    'search: for sample in 256..300 {
        for other in 0..256 {
            for (filter, phase) in (0..4).flat_map(|f| (1..16).map(move |p| (f, p))) {
                let a = column([sample, other], filter, phase);
                let (rust, defined) = both(&a);
                if rust != defined {
                    found = Some((sample, other, filter, phase, rust[0], defined[0]));
                    break 'search;
                }
            }
        }
    }
    assert_eq!(found, Some((256, 0, 0, 1, 244, 243)));
}

/// Scaled: a position of phase 0 comes through in both passes.
#[test]
fn scaled_passes_phase_0_on() {
    for (step_x, step_y) in [(32, 32), (17, 16), (16, 15), (1, 1)] {
        let at = Scaled {
            step_x,
            step_y,
            ..UNSCALED
        };
        let a = block(reference(plane(1, 1, &[256]), at), 0, 1, 1);
        assert_eq!(
            both(&a),
            (vec![256], vec![255]),
            "steps {step_x} and {step_y}"
        );
    }
}

/// Scaled: columns of phase 0 pass on, those between are clipped.
#[test]
fn scaled_by_column() {
    let at = Scaled {
        step_x: 8,
        ..UNSCALED
    };
    let a = block(reference(plane(2, 1, &[300, 300]), at), 3, 3, 1);
    assert_eq!(both(&a), (vec![300, 255, 300], vec![255, 255, 255]));
}

/// Scaled: at horizontal phase 0 the vertical pass reads unclipped.
#[test]
fn scaled_vertical_reads_unclipped() {
    let mut a = column([300, 0], 3, 8);
    a.refs[0].at.step_y = 32;
    assert_eq!(both(&a), (vec![150], vec![128]));
}

/// Averaged, what was passed on is averaged.
#[test]
fn average_of_passed_on() {
    let list = reference(plane(1, 1, &[300]), UNSCALED);
    let other = reference(plane(1, 1, &[0]), UNSCALED);
    let a = BlockArgs {
        refs: [list.clone(), other],
        average: true,
        ..block(list, 0, 1, 1)
    };
    assert_eq!(both(&a), (vec![150], vec![128]));
}

/// The whole prediction passes on as its blocks do.
#[test]
fn prediction_passes_on() {
    let frame = FrameReference {
        frame_width: 1,
        frame_height: 1,
        bands: plane(1, 1, &[300]),
    };
    let a = PredictArgs {
        w: 1,
        h: 1,
        depth: 8,
        grid: grid(0, 0, 1, 1, 3),
        frame_width: 1,
        frame_height: 1,
        refs: [frame, FrameReference::default()],
        dst_width: 1,
        dst_height: 1,
        ..PredictArgs::default()
    };
    let (mut rust, mut defined) = ([MARK], [MARK]);
    door::predict_inter(&a, &mut rust);
    plain::predict_inter(&a, &mut defined);
    assert_eq!((rust, defined), ([300], [255]));
}

/// Nowhere else: in columns of another horizontal phase the Rust and the definition agree for any
/// 16-bit samples, and the generic form agrees in all columns.
#[test]
fn agree_off_phase_0() {
    let mut random = Random(3);
    let (mut compared, mut differing) = (0, 0);
    for _ in 0..4000 {
        let (width, height) = (random.within(1, 40) as usize, random.within(1, 40) as usize);
        let samples: Vec<u16> = (0..width * height)
            .map(|_| random.pick(&[0, 255, 256, 300, 4096, 65535]))
            .collect();
        let step = |random: &mut Random| {
            if random.chance(60) {
                16
            } else {
                random.within(1, 32)
            }
        };
        let at = Scaled {
            start_x: random.within(-100, 16 * width as i64 + 100) as i32,
            start_y: random.within(-100, 16 * height as i64 + 100) as i32,
            step_x: step(&mut random) as i32,
            step_y: step(&mut random) as i32,
        };
        let (w, h) = (random.within(1, 20) as usize, random.within(1, 20) as usize);
        let filter = random.within(0, 3) as usize;
        let mut a = block(reference(plane(width, height, &samples), at), filter, w, h);
        a.depth = random.pick(&[8, 10, 12]);
        let (rust, defined) = both(&a);
        for (i, (r, d)) in rust.iter().zip(&defined).enumerate() {
            let phase = (at.start_x + at.step_x * (i % w) as i32).rem_euclid(16);
            if phase != 0 {
                assert_eq!(r, d);
                compared += 1;
            } else if r != d {
                differing += 1;
            }
        }
    }
    println!("off phase 0: {compared} agree; on phase 0: {differing} differ");
    assert!(compared > 100_000 && differing > 1000);
}
