//! `scale_mv`.

use super::bytes::{Read, Reader, Writer};
use super::edges::*;
use super::fixed::Fixed;
use super::rng::Rng;
use crate::terms::ScaleArgs;
use crate::{door, table};

impl Fixed for ScaleArgs {
    const LENGTH: usize = 64;

    fn base() -> Self {
        ScaleArgs {
            ref_width: 64,
            ref_height: 48,
            frame_width: 64,
            frame_height: 48,
            x: 24,
            y: 16,
            vector: [5, -7],
            ..ScaleArgs::default()
        }
    }

    fn edges() -> Vec<Edge<Self>> {
        let mut edges = each(sizes_to(1, 2), |a: &mut ScaleArgs, n| a.plane = n);
        for (number, frame, reference) in ratios() {
            edges.push(edge(number, move |a: &mut ScaleArgs| {
                (a.frame_width, a.ref_width) = (frame, reference);
            }));
            edges.push(edge(number, move |a: &mut ScaleArgs| {
                (a.frame_height, a.ref_height) = (frame, reference);
            }));
        }
        for (number, n) in values_within(6, 0, 65535) {
            edges.push(edge(number, move |a: &mut ScaleArgs| a.x = n));
            edges.push(edge(number, move |a: &mut ScaleArgs| a.y = n));
        }
        for i in 0..2 {
            for (number, value) in values_within(9, -65534, 65534) {
                edges.push(edge(number, move |a: &mut ScaleArgs| a.vector[i] = value));
            }
        }
        edges.extend(product_edges());
        edges
    }

    fn random(rng: &mut Rng) -> Self {
        let (frame_width, ref_width) = ratio(rng);
        let (frame_height, ref_height) = ratio(rng);
        ScaleArgs {
            ref_width,
            ref_height,
            frame_width,
            frame_height,
            sub_x: rng.coin(),
            sub_y: rng.coin(),
            plane: if rng.once_in(50) { 3 } else { rng.size(0, 2) },
            x: place(rng),
            y: place(rng),
            vector: [sixteenths(rng), sixteenths(rng)],
        }
    }

    fn read(r: &mut Reader) -> Read<Self> {
        Ok(ScaleArgs {
            plane: r.size()?,
            ref_width: r.i32()?,
            ref_height: r.i32()?,
            frame_width: r.i32()?,
            frame_height: r.i32()?,
            x: r.i32()?,
            y: r.i32()?,
            vector: r.vector()?,
            sub_x: r.bool()?,
            sub_y: r.bool()?,
        })
    }

    fn write(&self, w: &mut Writer) {
        w.size(self.plane);
        for n in [
            self.ref_width,
            self.ref_height,
            self.frame_width,
            self.frame_height,
        ] {
            w.i32(n);
        }
        w.i32(self.x);
        w.i32(self.y);
        w.vector(&self.vector);
        w.bool(self.sub_x);
        w.bool(self.sub_y);
        w.zeros(2);
    }

    fn number(&self) -> u32 {
        table::scale_mv(self)
    }

    fn write_values(&self, w: &mut Writer) {
        let s = door::scale_mv(self);
        for n in [s.start_x, s.start_y, s.step_x, s.step_y] {
            w.i32(n);
        }
    }
}

/// Frame and reference from both sides of each boundary: of the size, of 2:1 and of 1:16.
pub fn ratios() -> Vec<(u32, i32, i32)> {
    vec![
        (0, 100, 200),
        (0, 100, 199),
        (5, 100, 201),
        (0, 16, 1),
        (5, 17, 1),
        (0, 1, 1),
        (0, 1, 2),
        (5, 1, 3),
        (0, 32768, 65536),
        (5, 32767, 65536),
        (5, 32767, 65535),
        (0, 32767, 65534),
        (0, 65536, 65536),
        (0, 65536, 4096),
        (5, 65536, 4095),
        (0, 65535, 4096),
        (5, 65537, 65536),
        (5, 65536, 65537),
        (5, 0, 1),
        (5, 1, 0),
        (5, 0, 0),
        (5, -1, 1),
        (5, 1, -1),
        (5, -1, -1),
        (5, i32::MAX, i32::MAX),
        (5, i32::MIN, i32::MIN),
        (5, 1, i32::MIN),
        (5, i32::MAX, 1),
        (5, 1 << 28, 1 << 28),
    ]
}

/// Where 16 x luma x scale and the other products pass 2^31 or come near it.
fn product_edges() -> Vec<Edge<ScaleArgs>> {
    let mut edges = Vec::new();
    for (frame, reference) in [(100, 100), (100, 200), (100, 199), (16, 1), (65535, 65536)] {
        for at in [4095, 4096, 8191, 8192, 9000, 32768, 65534, 65535] {
            edges.push(edge(0, move |a: &mut ScaleArgs| {
                (a.frame_width, a.ref_width) = (frame, reference);
                (a.frame_height, a.ref_height) = (frame, reference);
                (a.x, a.y) = (at, 65535 - at);
                (a.plane, a.sub_x, a.sub_y) = ((at % 3) as usize, true, at % 2 == 0);
                a.vector = [-65534 + at % 5, 65534 - at % 7];
            }));
        }
    }
    edges
}

/// A frame's extent and its reference's: equal, near 2:1, near 1:16, or any.
pub fn ratio(rng: &mut Rng) -> (i32, i32) {
    let top = rng.pick(&[1, 4, 64, 700, 4096, 65536]);
    let frame = rng.within(1, top);
    let near = rng.within(-1, 1);
    let reference = match rng.below(8) {
        0..=1 => frame,
        2 => 2 * frame + near.min(0),
        3 => (frame + 15) / 16 + near.max(0),
        4 => frame + near,
        5 => rng.within((frame + 15) / 16, 2 * frame),
        6 => (2 * frame - frame / 2).max(1),
        _ => rng.pick(&[2 * frame + 1, frame / 16, frame]),
    };
    // Seldom outside, so that most cases are answered by the Rust.
    let reference = if rng.once_in(30) {
        reference
    } else {
        reference.clamp(1, 65536)
    };
    (frame, reference)
}

fn place(rng: &mut Rng) -> i32 {
    match rng.below(20) {
        0 => rng.pick(&[-1, 65536, 0, 65535]),
        1..=4 => rng.within(0, 65535),
        5..=7 => rng.within(8180, 8200),
        _ => 4 * rng.within(0, 600) + rng.pick(&[0, 0, 0, 1, 2, 3]),
    }
}

fn sixteenths(rng: &mut Rng) -> i32 {
    let limit = if rng.once_in(20) { 65536 } else { 65534 };
    component(rng, limit)
}
