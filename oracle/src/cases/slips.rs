//! Do the cases tell right from nearly right? Document 01's "Slips that look right", and a few of
//! the versions that its section 'What each promise has to say' wants refuted, are put in the place
//! of what is tested: each must differ from the oracle somewhere, and without a slip nothing may.

use super::search::Find;
use super::staged::Staged;
use super::tests::stages;
use crate::block_inter_pred::SUBPEL_FILTERS;
use crate::door::{self, tables};
use crate::table::PLACES;
use crate::terms::*;

// The search.

#[derive(Clone, Copy, PartialEq)]
enum SearchSlip {
    None,
    ClampBeforeComparing,
    CompareAfterSignChange,
    LeaveAfterPlaceOne,
    WholeVectorsOnly,
    NoPrevious,
    NoOtherFrames,
}

struct Scan<'a> {
    t: &'a Tables,
    a: &'a SearchArgs,
    slip: SearchSlip,
    held: Vec<Vector>,
}

/// Frame and vector of each list.
type Record = [(i32, Vector); 2];

impl Scan<'_> {
    fn offer(&mut self, v: Vector) {
        let v = match self.slip {
            SearchSlip::ClampBeforeComparing => clamped(&self.a.grid, v),
            _ => v,
        };
        if self.held.len() < 2 && self.held.first() != Some(&v) {
            self.held.push(v);
        }
    }

    fn offer_same(&mut self, record: &Record) {
        if let Some((_, v)) = record.iter().find(|(frame, _)| *frame == self.a.target) {
            self.offer(*v);
        }
    }

    fn offer_others(&mut self, record: &Record) {
        let bias = |frame: i32| self.a.sign_bias[frame as usize];
        let turned = record.map(|(frame, v)| {
            let other = frame > 0 && frame != self.a.target;
            let turn = other && bias(frame) != bias(self.a.target);
            let v = if turn { v.map(|c| -c) } else { v };
            (other, v)
        });
        let equal = match self.slip {
            SearchSlip::CompareAfterSignChange => turned[0].1 == turned[1].1,
            _ => record[0].1 == record[1].1,
        };
        for (list, (other, v)) in turned.into_iter().enumerate() {
            if other && !(list == 1 && equal) {
                self.offer(v);
            }
        }
    }

    fn record(&self, cell: usize) -> Record {
        record(&self.t.frames, &self.t.vectors, cell)
    }

    fn inside(&self) -> Vec<(usize, i32, usize)> {
        let g = &self.a.grid;
        let mut inside = Vec::new();
        for (k, place) in PLACES[usize::from(g.mi_size)].iter().enumerate() {
            let (row, column) = (g.mi_row + place[0], g.mi_col + place[1]);
            let in_tile = (self.a.tile.start..self.a.tile.end).contains(&column);
            if (0..g.mi_rows).contains(&row) && in_tile {
                inside.push((k, place[1], (row * g.mi_cols + column) as usize));
            }
        }
        inside
    }

    /// Places one and two; gives the counter.
    fn near(&mut self, inside: &[(usize, i32, usize)]) -> usize {
        let mut counter = 0;
        for &(_, offset, cell) in inside.iter().filter(|(k, ..)| *k < 2) {
            if self.slip == SearchSlip::LeaveAfterPlaceOne && !self.held.is_empty() {
                break;
            }
            counter += tables::mode_counters()[usize::from(self.t.modes[cell])] as usize;
            let Some(list) =
                (0..2).find(|&list| i32::from(self.t.frames[2 * cell + list]) == self.a.target)
            else {
                continue;
            };
            let sub = match self.a.block {
                -1 => 3,
                b => {
                    tables::sub_block_columns()[2 * b as usize + usize::from(offset == 0)] as usize
                }
            };
            let v = match self.slip {
                SearchSlip::WholeVectorsOnly => vector(&self.t.vectors, 2 * cell + list),
                _ => vector(&self.t.sub_vectors, 4 * (2 * cell + list) + sub),
            };
            self.offer(v);
        }
        counter
    }

    fn found(mut self) -> Found {
        let g = self.a.grid;
        let inside = self.inside();
        let counter = self.near(&inside);
        for &(_, _, cell) in inside.iter().filter(|(k, ..)| *k >= 2) {
            self.offer_same(&self.record(cell));
        }
        let own = (g.mi_row * g.mi_cols + g.mi_col) as usize;
        let used = self.a.use_prev && self.slip != SearchSlip::NoPrevious;
        let previous = used.then(|| record(&self.t.prev_frames, &self.t.prev_vectors, own));
        if let Some(record) = &previous {
            self.offer_same(record);
        }
        for &(_, _, cell) in &inside {
            if self.slip != SearchSlip::NoOtherFrames {
                self.offer_others(&self.record(cell));
            }
        }
        if let Some(record) = &previous {
            self.offer_others(record);
        }
        self.held.resize(2, [0, 0]);
        Found {
            pair: [clamped(&g, self.held[0]), clamped(&g, self.held[1])],
            context: tables::counter_contexts()[counter] as u8,
        }
    }
}

fn vector(table: &[i16], i: usize) -> Vector {
    [table[2 * i].into(), table[2 * i + 1].into()]
}

fn record(frames: &[i8], vectors: &[i16], cell: usize) -> Record {
    [0, 1].map(|list| {
        (
            frames[2 * cell + list].into(),
            vector(vectors, 2 * cell + list),
        )
    })
}

fn clamped(g: &Grid, v: Vector) -> Vector {
    [
        door::clamp_mv_row(g, v[0], 128),
        door::clamp_mv_col(g, v[1], 128),
    ]
}

/// In how many of the accepted searches the slip shows.
fn search_differences(slip: SearchSlip) -> usize {
    let mut differences = 0;
    for (scene, queries) in stages::<Find>(100) {
        for q in queries.iter().filter(|q| Find::number(&scene, q) == 0) {
            let (t, a) = (&scene.lent(&q.lengths), &q.args.search);
            let held = Vec::new();
            let found = Scan { t, a, slip, held }.found();
            differences += usize::from(found != door::find_mv_refs(t, a));
        }
    }
    differences
}

#[test]
fn slips_of_the_search_are_seen() {
    use SearchSlip::*;
    assert_eq!(search_differences(None), 0);
    for slip in [
        ClampBeforeComparing,
        CompareAfterSignChange,
        LeaveAfterPlaceOne,
    ] {
        assert!(search_differences(slip) >= 10, "slip {}", slip as u32);
    }
    for slip in [WholeVectorsOnly, NoPrevious, NoOtherFrames] {
        assert!(search_differences(slip) >= 10, "slip {}", slip as u32);
    }
}

// Block prediction.

#[derive(Clone, Copy, PartialEq)]
enum BlockSlip {
    None,
    /// "Holding the window's first column and reading eight on"
    HeldWindow,
    FirstListOnly,
    FirstRowOnly,
    NoClipBetween,
    StepAsSixteen,
    WritesNothing,
}

fn slipped(a: &BlockArgs, slip: BlockSlip, r: usize, c: usize) -> u16 {
    let r = if slip == BlockSlip::FirstRowOnly {
        0
    } else {
        r
    };
    let first = sample(a, &a.refs[0], slip, r, c);
    if !a.average || slip == BlockSlip::FirstListOnly {
        return first as u16;
    }
    ((first + sample(a, &a.refs[1], slip, r, c) + 1) / 2) as u16
}

fn sample(a: &BlockArgs, from: &Reference, slip: BlockSlip, r: usize, c: usize) -> i32 {
    let step = |step: i32| {
        if slip == BlockSlip::StepAsSixteen {
            16
        } else {
            step
        }
    };
    let p = from.at.start_x + step(from.at.step_x) * c as i32;
    let q = from.at.start_y + step(from.at.step_y) * r as i32;
    let rows = (q.div_euclid(16) - 3..).take(8);
    let across: Vec<i32> = rows.map(|row| row_sum(a, from, slip, row, p)).collect();
    filtered(a, q, &across).clamp(0, (1 << a.depth) - 1)
}

fn row_sum(a: &BlockArgs, from: &Reference, slip: BlockSlip, row: i32, p: i32) -> i32 {
    let last = from.bands.width - 1;
    let first = p.div_euclid(16) - 3;
    let first = if slip == BlockSlip::HeldWindow {
        first.clamp(0, last)
    } else {
        first
    };
    let columns = (first..).take(8).map(|column| column.clamp(0, last));
    let samples: Vec<i32> = columns.map(|column| at(&from.bands, row, column)).collect();
    let sum = filtered(a, p, &samples);
    match slip {
        BlockSlip::NoClipBetween => sum,
        _ => sum.clamp(0, (1 << a.depth) - 1),
    }
}

fn filtered(a: &BlockArgs, position: i32, values: &[i32]) -> i32 {
    let taps = &SUBPEL_FILTERS[a.filter][position.rem_euclid(16) as usize];
    let sum: i32 = taps
        .iter()
        .zip(values)
        .map(|(tap, value)| tap * value)
        .sum();
    (sum + 64).div_euclid(128)
}

fn at(b: &Bands, row: i32, column: i32) -> i32 {
    let row = row.clamp(0, b.height - 1) as usize;
    let (band, row) = match row.checked_sub(b.upper_rows) {
        None => (&b.upper, row),
        Some(below) => (&b.lower, below),
    };
    band[row * b.stride + column as usize].into()
}

/// In how many of the accepted block predictions the slip shows.
fn block_differences(slip: BlockSlip) -> usize {
    let mut differences = 0;
    for (scene, queries) in stages::<BlockArgs>(30) {
        for q in queries.iter().filter(|q| BlockArgs::number(&scene, q) == 0) {
            differences += usize::from(block_differs(&q.args(&scene), slip));
        }
    }
    differences
}

/// The whole block, held against the oracle's answer whichever of the two gives it.
fn block_differs(a: &BlockArgs, slip: BlockSlip) -> bool {
    let mut out = vec![0; (a.h - 1) * a.stride + a.w];
    crate::plain::block_inter_predict(a, &mut out);
    let mut places = (0..a.h).flat_map(|r| (0..a.w).map(move |c| (r, c)));
    places.any(|(r, c)| {
        let value = match slip {
            BlockSlip::WritesNothing => super::prediction::before(r * a.stride + c),
            _ => slipped(a, slip, r, c),
        };
        value != out[r * a.stride + c]
    })
}

#[test]
fn slips_of_block_prediction_are_seen() {
    use BlockSlip::*;
    assert_eq!(block_differences(None), 0);
    for slip in [HeldWindow, FirstListOnly, FirstRowOnly, NoClipBetween] {
        assert!(block_differences(slip) >= 10, "slip {}", slip as u32);
    }
    for slip in [StepAsSixteen, WritesNothing] {
        assert!(block_differences(slip) >= 10, "slip {}", slip as u32);
    }
}
