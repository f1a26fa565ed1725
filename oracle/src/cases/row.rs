//! The row read: of reference 0's bands. It is an addition of ours, so there is no Rust to ask; the
//! place is document 01's "The upper band holds rows 0..k-1, the lower the rest, with one stride".

use super::bytes::{Read, Reader, Writer};
use super::edges::*;
use super::planes::*;
use super::rng::Rng;
use super::staged::{Numbered, Staged};
use crate::table;

#[derive(Clone, Debug)]
pub struct Query {
    width: i32,
    height: i32,
    lent: Lent,
    row: usize,
}

impl Lends for Query {
    fn lent(&mut self, _: usize) -> &mut Lent {
        &mut self.lent
    }

    fn resize(&mut self, _: usize, width: i32, height: i32) {
        (self.width, self.height) = (width, height);
        self.row = self.row.min(height as usize - 1);
    }

    fn size(&self, _: usize) -> (i32, i32) {
        (self.width, self.height)
    }
}

pub struct RowRead;

impl Staged for RowRead {
    type Scene = Scene;
    type Query = Query;
    const LENGTH: usize = 64;

    fn boundaries() -> Vec<(Scene, Numbered<Query>)> {
        vec![small_stage(), large_stage()]
    }

    fn random(rng: &mut Rng) -> (Scene, Vec<Query>) {
        let scene = Scene::chance(rng, 16, 1024);
        (scene, (0..64).map(|_| chance_query(rng)).collect())
    }

    fn read_scene(r: &mut Reader) -> Read<Scene> {
        Scene::read(r)
    }

    fn write_scene(scene: &Scene, w: &mut Writer) {
        scene.write(w);
    }

    fn read(r: &mut Reader) -> Read<Query> {
        Ok(Query {
            width: r.i32()?,
            height: r.i32()?,
            lent: Lent::read(r)?,
            row: r.size()?,
        })
    }

    fn write(scene: &Scene, query: &Query, w: &mut Writer) {
        w.i32(query.width);
        w.i32(query.height);
        query.lent.write(w);
        w.size(query.row);
        let number = Self::number(scene, query);
        w.u32(number);
        if number == 0 {
            let (band, at) = place(query);
            w.u32(band);
            w.size(at);
            w.size(query.width as usize);
        } else {
            w.zeros(20);
        }
    }

    fn tail(_: &[u8]) -> usize {
        0
    }

    fn number(scene: &Scene, query: &Query) -> u32 {
        let bands = scene.bands(0, query.width, query.height, &query.lent);
        table::row_read(&bands, query.row)
    }
}

/// Which band holds the row, and from which sample on.
fn place(query: &Query) -> (u32, usize) {
    let k = query.lent.upper_rows;
    if query.row < k {
        (0, query.row * query.lent.stride)
    } else {
        (1, (query.row - k) * query.lent.stride)
    }
}

fn small_stage() -> (Scene, Numbered<Query>) {
    let base = Query {
        width: 10,
        height: 8,
        lent: Lent::fit(12, 3, 10, 8),
        row: 4,
    };
    let mut edges: Vec<Edge<Query>> = Vec::new();
    edges.extend(extent_edges(|q: &mut Query, _| &mut q.width, 0));
    edges.extend(extent_edges(|q: &mut Query, _| &mut q.height, 0));
    for row in 0..8 {
        edges.push(edge(0, move |q: &mut Query| q.row = row));
    }
    for row in [8, 9, 1 << 32, usize::MAX] {
        edges.push(edge(6, move |q: &mut Query| q.row = row));
    }
    edges.extend(lent_edges(0, 8));
    for k in 0..=8 {
        for row in [0, k.max(1) - 1, k.min(7), 7] {
            edges.push(edge(0, move |q: &mut Query| {
                (q.lent, q.row) = (Lent::fit(12, k, 10, 8), row);
            }));
        }
    }
    edges.push(edge(0, |q: &mut Query| {
        (q.width, q.height, q.row) = (1, 1, 0);
        q.lent = Lent::fit(1, 0, 1, 1);
    }));
    let scene = Scene::chance(&mut Rng::new(1, 200), 16, 1024);
    (scene, spread(&base, &edges))
}

fn large_stage() -> (Scene, Numbered<Query>) {
    let scene = Scene::chance(&mut Rng::new(2, 200), 16, LONGEST);
    let mut queries = Vec::new();
    for (width, height, stride, upper_rows) in LARGEST_PLANES {
        let last = height as usize - 1;
        for row in [0, upper_rows.min(last), last] {
            let mut query = Query {
                width,
                height,
                lent: Lent::fit(stride, upper_rows, width, height),
                row,
            };
            queries.push((0, query.clone()));
            query.row = height as usize;
            queries.push((6, query));
        }
    }
    (scene, queries)
}

fn chance_query(rng: &mut Rng) -> Query {
    let (width, height) = (rng.within(1, 24), rng.within(1, 24));
    let mut query = Query {
        width,
        height,
        lent: Lent::chance(rng, width, height),
        row: rng.size(0, height as usize - 1),
    };
    match rng.below(40) {
        0 => query.row = height as usize,
        1 => query.lent.upper = 0,
        2 => query.lent.lower = 0,
        3 => query.lent.stride = width as usize - 1,
        4 => query.height = 0,
        _ => (),
    }
    query
}
