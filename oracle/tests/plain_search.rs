//! Document 01's section 'Vectors' in plain Rust, sentence by sentence, against the Rust: the
//! search, the sub-8x8 list and find_best_ref_mvs, over random tables with legal records.

mod common;

use common::Random;
use oracle::door::{self, tables};
use oracle::terms::*;
use std::sync::LazyLock;

// The tables are read out of a text: once is enough.
static PLACES: LazyLock<Vec<i32>> = LazyLock::new(tables::place_offsets);
static COUNTERS: LazyLock<Vec<i32>> = LazyLock::new(tables::mode_counters);
static CONTEXTS: LazyLock<Vec<i32>> = LazyLock::new(tables::counter_contexts);
static COLUMNS: LazyLock<Vec<i32>> = LazyLock::new(tables::sub_block_columns);

const SEARCHES: usize = 100_000;

/// "An offer is stored if fewer than two are held and it isn't equal to the one held."
#[derive(Default)]
struct Held(Vec<Vector>);

impl Held {
    fn offer(&mut self, vector: Vector) {
        if self.0.len() < 2 && !self.0.contains(&vector) {
            self.0.push(vector);
        }
    }

    fn full(&self) -> bool {
        self.0.len() == 2
    }
}

/// A record of one cell: frame and vector of each list.
type Record = [(i32, Vector); 2];

fn vector_at(table: &[i16], at: usize) -> Vector {
    [table[2 * at].into(), table[2 * at + 1].into()]
}

fn record(frames: &[i8], vectors: &[i16], cell: usize) -> Record {
    [0, 1].map(|list| {
        (
            frames[2 * cell + list].into(),
            vector_at(vectors, 2 * cell + list),
        )
    })
}

/// The offset and the cell of each place that is inside.
fn places(a: &SearchArgs) -> [Option<([i32; 2], usize)>; 8] {
    let g = &a.grid;
    std::array::from_fn(|place| {
        let at = 16 * usize::from(g.mi_size) + 2 * place;
        let offset = [PLACES[at], PLACES[at + 1]];
        let (row, column) = (g.mi_row + offset[0], g.mi_col + offset[1]);
        let inside = (0..g.mi_rows).contains(&row) && (a.tile.start..a.tile.end).contains(&column);
        inside.then_some((offset, (row * g.mi_cols + column) as usize))
    })
}

/// "for sub-block -1 number 3, else by `IDX_N_COLUMN_TO_SUBBLOCK`, second column when the place's
/// column offset is 0"
fn sub_block(block: i32, column_offset: i32) -> usize {
    let column = usize::from(column_offset == 0);
    match block {
        -1 => 3,
        _ => COLUMNS[2 * block as usize + column] as usize,
    }
}

/// "the first list of the target frame"
fn list_of_target(record: &Record, target: i32) -> Option<usize> {
    record.iter().position(|(frame, _)| *frame == target)
}

/// "For each list in turn: its frame is above 0 and not the target. List 1 is also skipped when
/// both lists' vectors were equal before any sign change. The vector is negated when the sign bias
/// differs."
fn offer_others(held: &mut Held, a: &SearchArgs, record: &Record) {
    let equal = record[0].1 == record[1].1;
    for (list, &(frame, vector)) in record.iter().enumerate() {
        if frame <= 0 || frame == a.target || (list == 1 && equal) {
            continue;
        }
        let differs = a.sign_bias[frame as usize] != a.sign_bias[a.target as usize];
        held.offer(if differs { vector.map(|c| -c) } else { vector });
        if held.full() {
            return;
        }
    }
}

fn scan(t: &Tables, a: &SearchArgs) -> (Vec<Vector>, u8) {
    let places = places(a);
    let mut held = Held::default();
    let mut counter = 0;
    for &(offset, cell) in places[..2].iter().flatten() {
        counter += COUNTERS[usize::from(t.modes[cell])];
        if let Some(list) = list_of_target(&record(&t.frames, &t.vectors, cell), a.target) {
            let at = (2 * cell + list) * 4 + sub_block(a.block, offset[1]);
            held.offer(vector_at(&t.sub_vectors, at));
        }
    }
    let context = CONTEXTS[counter as usize] as u8;
    let own = (a.grid.mi_row * a.grid.mi_cols + a.grid.mi_col) as usize;
    let previous = a
        .use_prev
        .then(|| record(&t.prev_frames, &t.prev_vectors, own));
    let current = |&(_, cell): &([i32; 2], usize)| record(&t.frames, &t.vectors, cell);
    for record in places[2..].iter().flatten().map(current).chain(previous) {
        if held.full() {
            return (held.0, context);
        }
        if let Some(list) = list_of_target(&record, a.target) {
            held.offer(record[list].1);
        }
    }
    // With no place inside there is none to go through again, but the previous record is.
    for record in places.iter().flatten().map(current).chain(previous) {
        if held.full() {
            return (held.0, context);
        }
        offer_others(&mut held, a, &record);
    }
    (held.0, context)
}

/// "low = -64 x mi_row - border; high = 64 x (mi_rows - height - mi_row) + border, columns alike.
/// Test below low first, then above high."
fn clamped(g: &Grid, vector: Vector, border: i32) -> Vector {
    let size = usize::from(g.mi_size);
    let hold = |component: i32, at: i32, all: i32, extent: i32| {
        let (low, high) = (-64 * at - border, 64 * (all - extent - at) + border);
        if component < low {
            low
        } else {
            component.min(high)
        }
    };
    [
        hold(
            vector[0],
            g.mi_row,
            g.mi_rows,
            tables::block_heights()[size],
        ),
        hold(vector[1], g.mi_col, g.mi_cols, tables::block_widths()[size]),
    ]
}

/// "Both are clamped afterwards, so they may end equal." What was not found is zero, clamped too.
fn find_mv_refs(t: &Tables, a: &SearchArgs) -> Found {
    let (mut held, context) = scan(t, a);
    held.resize(2, [0, 0]);
    Found {
        pair: [
            clamped(&a.grid, held[0], 128),
            clamped(&a.grid, held[1], 128),
        ],
        context,
    }
}

/// "Sub-block 0 takes the search's pair. 1 and 2 take block vector 0 first, 3 takes block vector 2,
/// then 1, then 0. Each further one is stored only if it differs from the first. Then the search's
/// pair by the same test. What is missing is zero."
fn append_sub8x8_mvs(t: &Tables, a: &AppendArgs) -> [Vector; 2] {
    let pair = find_mv_refs(t, &a.search).pair;
    let own: &[usize] = match a.search.block {
        0 => return pair,
        1 | 2 => &[0],
        _ => &[2, 1, 0],
    };
    let mut offers = own.iter().map(|&i| a.block_vectors[i]).chain(pair);
    let first = offers.next().unwrap_or_default();
    [first, offers.find(|&v| v != first).unwrap_or_default()]
}

/// "The latter first moves odd components one towards zero, unless high precision is allowed and
/// both absolute components are below 64"
fn find_best_ref_mvs(a: &BestArgs) -> [Vector; 2] {
    a.pair.map(|vector| {
        let fine = a.high_precision && vector.iter().all(|c| c.abs() < 64);
        let moved = if fine {
            vector
        } else {
            vector.map(|c| c - c % 2)
        };
        clamped(&a.grid, moved, 1248)
    })
}

/// Few values, so that vectors meet their equals, or any.
fn random_component(random: &mut Random) -> i16 {
    match random.within(0, 9) {
        0 => random.within(-32767, 32767) as i16,
        1 => random.within(-700, 700) as i16,
        _ => random.pick(&[-1, 0, 1]),
    }
}

fn random_components(random: &mut Random, n: usize) -> Vec<i16> {
    (0..n).map(|_| random_component(random)).collect()
}

fn random_tables(random: &mut Random, n: usize) -> Tables {
    let highest_frame = random.within(0, 3);
    let mut frames = || {
        (0..2 * n)
            .map(|_| random.within(-1, highest_frame) as i8)
            .collect()
    };
    let (frames, prev_frames) = (frames(), frames());
    Tables {
        modes: (0..n).map(|_| random.within(0, 13) as u8).collect(),
        frames,
        vectors: random_components(random, 4 * n),
        sub_vectors: random_components(random, 16 * n),
        prev_frames,
        prev_vectors: random_components(random, 4 * n),
    }
}

fn random_search(random: &mut Random) -> (SearchArgs, Tables) {
    let (mi_rows, mi_cols) = (random.within(1, 12), random.within(1, 12));
    let (mi_row, mi_col) = (random.within(0, mi_rows - 1), random.within(0, mi_cols - 1));
    let start = random.within(0, mi_col);
    let end = random.within(mi_col + 1, mi_cols);
    let tables = random_tables(random, (mi_rows * mi_cols) as usize);
    let grid = Grid {
        mi_row: mi_row as i32,
        mi_col: mi_col as i32,
        mi_rows: mi_rows as i32,
        mi_cols: mi_cols as i32,
        mi_size: random.within(0, 12) as u8,
    };
    let args = SearchArgs {
        grid,
        tile: Tile {
            start: start as i32,
            end: end as i32,
        },
        target: random.within(1, 3) as i32,
        block: random.within(-1, 3) as i32,
        sign_bias: [(); 4].map(|_| random.chance(50)),
        use_prev: random.chance(50),
    };
    (args, tables)
}

fn random_vector(random: &mut Random) -> Vector {
    [
        random_component(random).into(),
        random_component(random).into(),
    ]
}

#[test]
fn searches_agree() {
    let mut random = Random(6);
    let mut found = [0; 3];
    for n in 0..SEARCHES {
        let (a, t) = random_search(&mut random);
        assert_eq!(
            door::find_mv_refs(&t, &a),
            find_mv_refs(&t, &a),
            "search {n}: {a:?}"
        );
        found[scan(&t, &a).0.len()] += 1;
    }
    println!("found none, one, two: {found:?}");
    assert!(found.iter().all(|&times| times > SEARCHES / 100));
}

#[test]
fn sub_8x8_lists_agree() {
    let mut random = Random(7);
    for n in 0..SEARCHES {
        let (mut search, t) = random_search(&mut random);
        search.block = random.within(0, 3) as i32;
        let block_vectors = [(); 4].map(|_| random_vector(&mut random));
        let a = AppendArgs {
            search,
            block_vectors,
        };
        assert_eq!(
            door::append_sub8x8_mvs(&t, &a),
            append_sub8x8_mvs(&t, &a),
            "list {n}: {a:?}"
        );
    }
}

#[test]
fn best_vectors_agree() {
    let mut random = Random(8);
    for n in 0..SEARCHES {
        let side = random.within(1, 8192);
        let at = random.within(0, side - 1) as i32;
        let pair = [(); 2].map(|_| match random.chance(50) {
            true => random_vector(&mut random),
            false => [(); 2].map(|_| random.within(-66, 66) as i32),
        });
        let side = side as i32;
        let a = BestArgs {
            grid: common::grid(at, side - 1 - at, side, side, random.within(0, 12) as u8),
            tile: Tile {
                start: 0,
                end: side,
            },
            pair,
            high_precision: random.chance(50),
        };
        assert_eq!(
            door::find_best_ref_mvs(&a),
            find_best_ref_mvs(&a),
            "{n}: {a:?}"
        );
    }
}
