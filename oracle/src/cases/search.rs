//! `find_mv_refs` and `append_sub8x8_mvs`: a scene is what the six lent tables hold, a query lends
//! them, or less of them, and asks.

use super::bytes::{Read, Reader, Writer};
use super::rng::Rng;
use super::search_scenes;
use super::staged::{Numbered, Staged};
use crate::terms::{AppendArgs, Tables, Vector};
use crate::{door, table};

/// Cells that a scene's tables hold in the file.
pub const CAPACITY: usize = 64;

/// The most cells that are lent.
pub const MOST_CELLS: usize = 8192;

/// Elements of a cell: modes, frames, vectors, sub-vectors, previous frames, previous vectors.
pub const PER_CELL: [usize; 6] = [1, 2, 4, 16, 2, 4];

#[derive(Clone, Debug)]
pub struct Scene {
    /// Cell i of what is lent is cell i mod `pattern.modes.len()` of this.
    pub pattern: Tables,
    pub cells: usize,
}

impl Scene {
    /// The lengths of the tables when all cells are lent.
    pub fn lengths(&self) -> [usize; 6] {
        PER_CELL.map(|k| self.cells * k)
    }

    pub(super) fn lent(&self, lengths: &[usize; 6]) -> Tables {
        fn repeat<T: Copy>(pattern: &[T], n: usize) -> Vec<T> {
            pattern.iter().copied().cycle().take(n).collect()
        }
        let p = &self.pattern;
        Tables {
            modes: repeat(&p.modes, lengths[0]),
            frames: repeat(&p.frames, lengths[1]),
            vectors: repeat(&p.vectors, lengths[2]),
            sub_vectors: repeat(&p.sub_vectors, lengths[3]),
            prev_frames: repeat(&p.prev_frames, lengths[4]),
            prev_vectors: repeat(&p.prev_vectors, lengths[5]),
        }
    }
}

/// For both calls; `find_mv_refs` has no use for the block's vectors.
#[derive(Clone, Debug)]
pub struct Query {
    pub args: AppendArgs,
    pub lengths: [usize; 6],
}

pub struct Find;

impl Staged for Find {
    type Scene = Scene;
    type Query = Query;
    const LENGTH: usize = 88;

    fn boundaries() -> Vec<(Scene, Numbered<Query>)> {
        search_scenes::boundaries(-1)
    }

    fn random(rng: &mut Rng) -> (Scene, Vec<Query>) {
        search_scenes::random(rng, -1)
    }

    fn read_scene(r: &mut Reader) -> Read<Scene> {
        read_scene(r)
    }

    fn write_scene(scene: &Scene, w: &mut Writer) {
        write_scene(scene, w);
    }

    fn read(r: &mut Reader) -> Read<Query> {
        read_search(r)
    }

    fn write(scene: &Scene, query: &Query, w: &mut Writer) {
        write_search(query, w);
        let tables = scene.lent(&query.lengths);
        let number = table::find_mv_refs(&query.args.search, &tables);
        w.u32(number);
        if number == 0 {
            let found = door::find_mv_refs(&tables, &query.args.search);
            write_pair(&found.pair, w);
            w.u32(u32::from(found.context));
        } else {
            w.zeros(20);
        }
    }

    fn tail(_: &[u8]) -> usize {
        0
    }

    fn number(scene: &Scene, query: &Query) -> u32 {
        table::find_mv_refs(&query.args.search, &scene.lent(&query.lengths))
    }
}

pub struct Append;

impl Staged for Append {
    type Scene = Scene;
    type Query = Query;
    const LENGTH: usize = 120;

    fn boundaries() -> Vec<(Scene, Numbered<Query>)> {
        search_scenes::boundaries(0)
    }

    fn random(rng: &mut Rng) -> (Scene, Vec<Query>) {
        search_scenes::random(rng, 0)
    }

    fn read_scene(r: &mut Reader) -> Read<Scene> {
        read_scene(r)
    }

    fn write_scene(scene: &Scene, w: &mut Writer) {
        write_scene(scene, w);
    }

    fn read(r: &mut Reader) -> Read<Query> {
        let mut query = read_search(r)?;
        for v in &mut query.args.block_vectors {
            *v = r.vector()?;
        }
        Ok(query)
    }

    fn write(scene: &Scene, query: &Query, w: &mut Writer) {
        write_search(query, w);
        query.args.block_vectors.iter().for_each(|v| w.vector(v));
        let tables = scene.lent(&query.lengths);
        let number = table::append_sub8x8_mvs(&query.args, &tables);
        w.u32(number);
        if number == 0 {
            write_pair(&door::append_sub8x8_mvs(&tables, &query.args), w);
            w.zeros(4);
        } else {
            w.zeros(20);
        }
    }

    fn tail(_: &[u8]) -> usize {
        0
    }

    fn number(scene: &Scene, query: &Query) -> u32 {
        table::append_sub8x8_mvs(&query.args, &scene.lent(&query.lengths))
    }
}

fn write_pair(pair: &[Vector; 2], w: &mut Writer) {
    pair.iter().for_each(|v| w.vector(v));
}

fn read_search(r: &mut Reader) -> Read<Query> {
    let mut query = Query {
        args: AppendArgs::default(),
        lengths: [0; 6],
    };
    let s = &mut query.args.search;
    s.grid = r.position()?;
    s.tile = r.tile()?;
    s.target = r.i32()?;
    s.block = r.i32()?;
    for n in &mut query.lengths {
        *n = r.len()?;
    }
    s.grid.mi_size = r.u8()?;
    for bias in &mut s.sign_bias {
        *bias = r.bool()?;
    }
    s.use_prev = r.bool()?;
    r.align(8)?;
    if query
        .lengths
        .iter()
        .zip(PER_CELL)
        .any(|(&n, k)| n > MOST_CELLS * k)
    {
        return Err("more is lent than any scene has".to_string());
    }
    Ok(query)
}

fn write_search(query: &Query, w: &mut Writer) {
    let s = &query.args.search;
    w.position(&s.grid);
    w.tile(&s.tile);
    w.i32(s.target);
    w.i32(s.block);
    query.lengths.iter().for_each(|&n| w.len(n));
    w.u8(s.grid.mi_size);
    s.sign_bias.iter().for_each(|&bias| w.bool(bias));
    w.bool(s.use_prev);
    w.zeros(2);
}

fn read_scene(r: &mut Reader) -> Read<Scene> {
    let held = r.len()?;
    let cells = r.len()?;
    if !(1..=CAPACITY).contains(&held) || cells > MOST_CELLS {
        return Err(format!("a scene of {held} and {cells} cells"));
    }
    let mut pattern = Tables {
        modes: r.take(CAPACITY)?.to_vec(),
        frames: read_frames(r)?,
        vectors: read_components(r, 4)?,
        sub_vectors: read_components(r, 16)?,
        prev_frames: read_frames(r)?,
        prev_vectors: read_components(r, 4)?,
    };
    cut(&mut pattern, held);
    Ok(Scene { pattern, cells })
}

fn read_frames(r: &mut Reader) -> Read<Vec<i8>> {
    let bytes = r.take(2 * CAPACITY)?;
    Ok(bytes.iter().map(|&b| b as i8).collect())
}

fn read_components(r: &mut Reader, per_cell: usize) -> Read<Vec<i16>> {
    (0..per_cell * CAPACITY).map(|_| r.i16()).collect()
}

/// Makes the tables those of `cells` cells: cut, or filled up with zeros.
fn cut(t: &mut Tables, cells: usize) {
    t.modes.resize(cells, 0);
    t.frames.resize(2 * cells, 0);
    t.vectors.resize(4 * cells, 0);
    t.sub_vectors.resize(16 * cells, 0);
    t.prev_frames.resize(2 * cells, 0);
    t.prev_vectors.resize(4 * cells, 0);
}

fn write_scene(scene: &Scene, w: &mut Writer) {
    w.len(scene.pattern.modes.len());
    w.len(scene.cells);
    let mut full = scene.pattern.clone();
    cut(&mut full, CAPACITY);
    full.modes.iter().for_each(|&n| w.u8(n));
    full.frames.iter().for_each(|&n| w.u8(n as u8));
    full.vectors.iter().for_each(|&n| w.i16(n));
    full.sub_vectors.iter().for_each(|&n| w.i16(n));
    full.prev_frames.iter().for_each(|&n| w.u8(n as u8));
    full.prev_vectors.iter().for_each(|&n| w.i16(n));
}
