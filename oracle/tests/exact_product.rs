//! "The product 16 x luma_x x scale is taken exactly. In the Rust it passes 2^31 at luma_x 8192
//! unscaled; a plain build wraps and keeps the same four bits." So there is no difference to see:
//! over the positions, sizes and vectors that document 01 takes, the Rust's scaling call gives what
//! the exact numbers give.

mod common;

use common::Random;
use oracle::door;
use oracle::terms::*;

/// The scaling of src/inter_mv.rs in 64 bits, one dimension.
fn exact(reference: i32, frame: i32, at: i32, shift: u32, component: i32) -> (i64, i64) {
    let scale = (i64::from(reference) << 14) / i64::from(frame);
    let base = (i64::from(at) * scale) >> 14;
    let luma = i64::from(at) << shift;
    let fraction = ((16 * luma * scale) >> 14) & 15;
    let moved = (i64::from(component) * scale) >> 14;
    ((base << 4) + moved + fraction, (16 * scale) >> 14)
}

fn assert_exact(a: &ScaleArgs) {
    let shift = |sub: bool| u32::from(a.plane > 0 && sub);
    let (start_x, step_x) = exact(a.ref_width, a.frame_width, a.x, shift(a.sub_x), a.vector[1]);
    let (start_y, step_y) = exact(
        a.ref_height,
        a.frame_height,
        a.y,
        shift(a.sub_y),
        a.vector[0],
    );
    let s = door::scale_mv(a);
    let rust = [s.start_x, s.start_y, s.step_x, s.step_y].map(i64::from);
    assert_eq!(rust, [start_x, start_y, step_x, step_y], "{a:?}");
    // Block prediction takes what the scaling call gives.
    assert!(
        [start_x, start_y]
            .iter()
            .all(|start| start.abs() <= 3_000_000),
        "{a:?}"
    );
    assert!(
        [step_x, step_y].iter().all(|step| (1..=32).contains(step)),
        "{a:?}"
    );
}

#[test]
fn product_passes_the_numbers_at_8192() {
    assert_eq!(
        16_i32
            .checked_mul(8191)
            .and_then(|p| p.checked_mul(1 << 14)),
        Some(2_147_221_504)
    );
    assert_eq!(
        16_i32
            .checked_mul(8192)
            .and_then(|p| p.checked_mul(1 << 14)),
        None
    );
}

#[test]
fn unscaled_at_every_position() {
    let mut a = ScaleArgs {
        ref_width: 65_536,
        ref_height: 65_536,
        frame_width: 65_536,
        frame_height: 65_536,
        sub_x: true,
        ..ScaleArgs::default()
    };
    for plane in [0, 1] {
        a.plane = plane;
        for at in 0..65_536 {
            (a.x, a.y) = (at, 65_535 - at);
            assert_exact(&a);
        }
    }
}

#[test]
fn scaled_at_random() {
    let mut random = Random(4);
    for _ in 0..300_000 {
        let mut pair = || {
            let high = random.pick(&[16, 300, 5000, 65_536]);
            let frame = random.within(1, high);
            let low = (frame + 15) / 16;
            let any = random.within(low, (2 * frame).min(65_536));
            let reference = random.pick(&[any, any, low, (2 * frame).min(65_536)]);
            (reference as i32, frame as i32)
        };
        let (ref_width, frame_width) = pair();
        let (ref_height, frame_height) = pair();
        let mut component = || random.within(-65_534, 65_534) as i32;
        let vector = [component(), component()];
        let a = ScaleArgs {
            ref_width,
            ref_height,
            frame_width,
            frame_height,
            sub_x: random.chance(50),
            sub_y: random.chance(50),
            plane: random.within(0, 2) as usize,
            x: random.within(0, 65_535) as i32,
            y: random.within(0, 65_535) as i32,
            vector,
        };
        assert_exact(&a);
    }
}
