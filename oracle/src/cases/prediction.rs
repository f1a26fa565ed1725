//! The two calls that predict samples, `block_inter_predict` and `predict_inter`: what their
//! queries, their stages and their records have in common.

use super::bytes::{Read, Reader, Writer};
use super::edges::*;
use super::planes::*;
use super::rng::Rng;
use super::staged::{Numbered, Staged};
use crate::table;
use crate::terms::Bands;

/// The longest output or destination; one more than a plane can be wide.
const LONGEST_OUTPUT: usize = 65_537;

/// The arguments without the references' samples, how these are lent, and the lengths of the output
/// (or destination) and of the room.
#[derive(Clone, Debug)]
pub struct Query<A> {
    pub args: A,
    pub lent: [Lent; 2],
    pub out: usize,
    pub room: usize,
}

/// The arguments of one of the calls, and what is this call's own.
pub trait Prediction: Clone + std::fmt::Debug + 'static {
    /// Where in a record the answer stands.
    const ANSWER_AT: usize;

    /// The stream of chance that the boundaries' scenes are drawn from.
    const STREAM: u64;

    /// The number of document 01's table; the lengths are those of output and room.
    const NUMBER: fn(&Self, usize, usize) -> u32;

    const BY_RUST: fn(&Self, &mut [u16]);
    const BY_DEFINITION: fn(&Self, &mut [u16]);

    fn bands(&mut self, list: usize) -> &mut Bands;

    /// Width and height of a list's plane.
    fn size(&self, list: usize) -> (i32, i32);

    fn resize(&mut self, list: usize, width: i32, height: i32);

    fn depth_and_average(&mut self) -> (&mut u32, &mut bool);

    fn read_args(q: &mut Query<Self>, r: &mut Reader) -> Read<()>;

    fn write_args(q: &Query<Self>, w: &mut Writer);

    /// An accepted case that averages, to which each edge is applied.
    fn base() -> Query<Self>;

    fn edges() -> Vec<Edge<Query<Self>>>;

    /// Planes and outputs of the largest sizes.
    fn large_queries() -> Numbered<Query<Self>>;

    /// The base at whole and at other positions.
    fn placed() -> [Query<Self>; 3];

    /// For samples below 2^bits.
    fn chance(rng: &mut Rng, bits: u32) -> Query<Self>;

    /// Makes one thing wrong, in this list where it is a list's.
    fn spoil(q: &mut Query<Self>, list: usize, rng: &mut Rng);
}

impl<A: Prediction> Query<A> {
    pub fn args(&self, scene: &Scene) -> A {
        let mut args = self.args.clone();
        for list in 0..2 {
            let (width, height) = args.size(list);
            *args.bands(list) = scene.bands(list, width, height, &self.lent[list]);
        }
        args
    }

    /// The output before the call.
    fn output(&self) -> Vec<u16> {
        (0..self.out).map(before).collect()
    }
}

impl<A: Prediction> Lends for Query<A> {
    fn lent(&mut self, list: usize) -> &mut Lent {
        &mut self.lent[list]
    }

    fn resize(&mut self, list: usize, width: i32, height: i32) {
        self.args.resize(list, width, height);
    }

    fn size(&self, list: usize) -> (i32, i32) {
        self.args.size(list)
    }
}

impl<A: Prediction> Staged for A {
    type Scene = Scene;
    type Query = Query<A>;

    // The answer is followed by the run's first sample and its length.
    const LENGTH: usize = (A::ANSWER_AT + 12).next_multiple_of(8);

    fn boundaries() -> Vec<(Scene, Numbered<Query<A>>)> {
        let scene = |n, bits, longest| Scene::chance(&mut Rng::new(n, A::STREAM), bits, longest);
        vec![
            (scene(1, 8, 1024), spread(&A::base(), &A::edges())),
            (scene(2, 8, LONGEST), A::large_queries()),
            (scene(3, 16, 1024), deep_queries()),
        ]
    }

    fn random(rng: &mut Rng) -> (Scene, Vec<Query<A>>) {
        let bits = rng.pick(&[8, 8, 8, 10, 10, 12, 12, 16]);
        let scene = Scene::chance(rng, bits, 1024);
        (scene, (0..48).map(|_| chance_query(rng, bits)).collect())
    }

    fn read_scene(r: &mut Reader) -> Read<Scene> {
        Scene::read(r)
    }

    fn write_scene(scene: &Scene, w: &mut Writer) {
        scene.write(w);
    }

    fn read(r: &mut Reader) -> Read<Query<A>> {
        let mut q = A::base();
        A::read_args(&mut q, r)?;
        // The mark is no argument.
        r.take(1)?;
        r.align(4)?;
        q.out = r.len()?;
        q.room = r.len()?;
        if q.out > LONGEST_OUTPUT {
            return Err(format!("an output of {} samples", q.out));
        }
        Ok(q)
    }

    fn write(scene: &Scene, q: &Query<A>, w: &mut Writer) {
        let mut args = q.args(scene);
        let number = (A::NUMBER)(&args, q.out, q.room);
        let above = number == 0 && above_depth(&mut args);
        let mut out = q.output();
        if number == 0 {
            predict(&args, above, &mut out);
        }
        let (first, run) = changed(&out);
        A::write_args(q, w);
        w.bool(above);
        w.align(4);
        w.len(q.out);
        w.len(q.room);
        w.u32(number);
        w.len(first);
        w.len(run.len());
        w.align(8);
        run.iter().for_each(|&s| w.u16(s));
        w.align(8);
    }

    fn tail(query: &[u8]) -> usize {
        let run = Reader::new(&query[A::ANSWER_AT + 8..]).len();
        (2 * run.expect("a whole record")).next_multiple_of(8)
    }

    fn number(scene: &Scene, q: &Query<A>) -> u32 {
        (A::NUMBER)(&q.args(scene), q.out, q.room)
    }
}

/// "Samples are 16-bit and may exceed the depth. The definition clips them. The Rust's copying path
/// passes them on": there the definition answers, not the Rust.
fn predict<A: Prediction>(args: &A, above: bool, out: &mut [u16]) {
    if above {
        (A::BY_DEFINITION)(args, out);
    } else {
        (A::BY_RUST)(args, out);
    }
}

/// Whether a sample that an accepted call may look at exceeds the depth.
fn above_depth<A: Prediction>(args: &mut A) -> bool {
    let (&mut depth, &mut average) = args.depth_and_average();
    (0..table::lists(average)).any(|list| any_above(args.bands(list), depth))
}

/// Whether a sample of the plane exceeds the depth; what lies between its rows doesn't count.
fn any_above(b: &Bands, depth: u32) -> bool {
    let (w, h) = (b.width as usize, b.height as usize);
    (0..h).any(|row| {
        let samples = match row.checked_sub(b.upper_rows) {
            None => &b.upper[row * b.stride..][..w],
            Some(below) => &b.lower[below * b.stride..][..w],
        };
        samples.iter().any(|&s| u32::from(s) >> depth != 0)
    })
}

/// Sample i of an output or a destination before the call.
pub fn before(i: usize) -> u16 {
    ((i * 37 + 11) % 1021) as u16
}

/// The shortest run that holds every sample that the call changed: its first index and its samples.
fn changed(out: &[u16]) -> (usize, &[u16]) {
    let differs = |&i: &usize| out[i] != before(i);
    match (0..out.len()).find(differs) {
        None => (0, &[]),
        Some(first) => {
            let last = (first..out.len()).rfind(differs).expect("first differs");
            (first, &out[first..=last])
        }
    }
}

/// Values of w and h.
pub const SIDES: [(u32, usize); 6] = [
    (0, 1),
    (0, 64),
    (1, 0),
    (1, 65),
    (1, 1 << 32),
    (1, usize::MAX),
];

/// The edges of each list; those of list 1 also where they must not matter: "in prediction anything
/// of list 1 only when averaging".
pub fn edges_of_lists<A: Prediction>(
    edges_of: fn(usize) -> Vec<Edge<Query<A>>>,
) -> Vec<Edge<Query<A>>> {
    let unused = |e: Edge<Query<A>>| {
        edge(0, move |q: &mut Query<A>| {
            (e.set)(q);
            *q.args.depth_and_average().1 = false;
        })
    };
    let mut edges = edges_of(0);
    edges.extend(edges_of(1));
    edges.extend(edges_of(1).into_iter().map(unused));
    edges
}

/// Samples above the depth.
fn deep_queries<A: Prediction>() -> Numbered<Query<A>> {
    let mut queries = Vec::new();
    for depth in [8, 10, 12] {
        for placed in A::placed() {
            for average in [false, true] {
                let mut q = placed.clone();
                let set = q.args.depth_and_average();
                (*set.0, *set.1) = (depth, average);
                queries.push((0, q));
            }
        }
    }
    queries
}

fn chance_query<A: Prediction>(rng: &mut Rng, bits: u32) -> Query<A> {
    let mut q = A::chance(rng, bits);
    if rng.once_in(25) {
        let list = rng.size(0, 1);
        A::spoil(&mut q, list, rng);
    }
    q
}

pub fn chance_side(rng: &mut Rng) -> usize {
    match rng.below(30) {
        0 => rng.size(1, 64),
        1 => rng.pick(&[32, 64]),
        2..=12 => rng.pick(&[4, 8, 8, 16]),
        _ => rng.size(1, 12),
    }
}

/// Mostly deep enough for the samples.
pub fn chance_depth(rng: &mut Rng, bits: u32) -> u32 {
    let depth = rng.pick(&[8, 10, 12]);
    if rng.once_in(8) {
        depth
    } else {
        depth.max(bits).min(12)
    }
}

#[cfg(test)]
mod tests {
    use super::super::tests::stages;
    use super::*;
    use crate::terms::{BlockArgs, PredictArgs};

    /// The Rust and document 01's definition, over every accepted case within the depth.
    fn door_and_plain_agree<A: Prediction>() {
        let mut compared = 0;
        for (scene, queries) in &stages::<A>(100) {
            for q in queries {
                let mut args = q.args(scene);
                if A::number(scene, q) != 0 || above_depth(&mut args) {
                    continue;
                }
                let mut both = [q.output(), q.output()];
                predict(&args, false, &mut both[0]);
                predict(&args, true, &mut both[1]);
                assert_eq!(both[0], both[1], "{q:?}");
                compared += 1;
            }
        }
        assert!(compared > 3000, "{compared}");
    }

    #[test]
    fn door_and_plain_agree_on_blocks() {
        door_and_plain_agree::<BlockArgs>();
    }

    #[test]
    fn door_and_plain_agree_on_predictions() {
        door_and_plain_agree::<PredictArgs>();
    }
}
