//! Files of the calls that read lent buffers: scenes, each with the contents of the buffers and
//! then the queries that are asked of them.

use super::bytes::{Read, Reader, Writer};
use super::rng::Rng;

/// No scene has more queries.
pub const MOST_QUERIES: usize = 64;

/// Queries with the number that each was written to give.
pub type Numbered<Q> = Vec<(u32, Q)>;

pub trait Staged {
    type Scene;
    type Query: Clone + std::fmt::Debug;

    /// Bytes of a query, without what follows it.
    const LENGTH: usize;

    /// The boundaries of document 01's table.
    fn boundaries() -> Vec<(Self::Scene, Numbered<Self::Query>)>;

    fn random(rng: &mut Rng) -> (Self::Scene, Vec<Self::Query>);

    fn read_scene(r: &mut Reader) -> Read<Self::Scene>;

    fn write_scene(scene: &Self::Scene, w: &mut Writer);

    /// The arguments of a query.
    fn read(r: &mut Reader) -> Read<Self::Query>;

    /// The arguments, and what the oracle answers.
    fn write(scene: &Self::Scene, query: &Self::Query, w: &mut Writer);

    /// Bytes after a query, by its own bytes.
    fn tail(query: &[u8]) -> usize;

    /// The number of document 01's table.
    fn number(scene: &Self::Scene, query: &Self::Query) -> u32;
}

pub fn make<S: Staged>(rng: &mut Rng, count: usize, w: &mut Writer) {
    make_with::<S>(rng, count, w, |_| ());
}

/// The same after `set` was applied to every query; the answers are to what it made of them.
pub fn make_with<S: Staged>(
    rng: &mut Rng,
    count: usize,
    w: &mut Writer,
    set: impl Fn(&mut S::Query),
) {
    let mut left = count;
    for (scene, queries) in S::boundaries() {
        let mut queries: Vec<S::Query> = queries.into_iter().map(|(_, query)| query).collect();
        queries.iter_mut().for_each(&set);
        for part in queries.chunks(MOST_QUERIES) {
            left -= write_stage::<S>(&scene, part, left, w);
        }
    }
    while left > 0 {
        let (scene, mut queries) = S::random(rng);
        queries.iter_mut().for_each(&set);
        left -= write_stage::<S>(&scene, &queries, left, w);
    }
}

/// Writes a scene with at most `left` of its queries, and tells how many it has.
fn write_stage<S: Staged>(
    scene: &S::Scene,
    queries: &[S::Query],
    left: usize,
    w: &mut Writer,
) -> usize {
    let n = queries.len().min(left);
    if n > 0 {
        S::write_scene(scene, w);
        w.len(n);
        w.zeros(4);
    }
    for query in &queries[..n] {
        S::write(scene, query, w);
    }
    n
}

/// How many of `count` queries are not what the oracle says now.
pub fn ask<S: Staged>(r: &mut Reader, count: usize) -> Read<usize> {
    let (mut asked, mut differences) = (0, 0);
    while asked < count {
        let scene = S::read_scene(r)?;
        let queries = r.len()?;
        r.take(4)?;
        if !(1..=MOST_QUERIES.min(count - asked)).contains(&queries) {
            return Err(format!("a scene of {queries} queries"));
        }
        for _ in 0..queries {
            differences += usize::from(differs::<S>(&scene, r)?);
        }
        asked += queries;
    }
    Ok(differences)
}

fn differs<S: Staged>(scene: &S::Scene, r: &mut Reader) -> Read<bool> {
    let start = r.at();
    let fixed = r.take(S::LENGTH)?;
    let query = S::read(&mut Reader::new(fixed))?;
    r.take(S::tail(fixed))?;
    let mut now = Writer::default();
    S::write(scene, &query, &mut now);
    Ok(now.0 != r.since(start))
}
