//! The Rust's constants: their sizes, document 01's rules about them, and that what `door::tables`
//! reads out of the text of mv_ref.rs is what the search goes by.

mod common;

use common::*;
use oracle::door::{self, tables};
use oracle::terms::*;

#[test]
fn sizes() {
    assert_eq!(tables::place_offsets().len(), 13 * 8 * 2);
    assert_eq!(tables::mode_counters().len(), 14);
    assert_eq!(tables::counter_contexts().len(), 19);
    assert_eq!(tables::sub_block_columns().len(), 4 * 2);
    assert_eq!(tables::taps().len(), 4 * 16 * 8);
    assert_eq!(tables::block_heights().len(), 13);
    assert_eq!(tables::block_widths().len(), 13);
}

/// "each row of eight sums to 128, and phase 0 is 128 at t = 3. Filter 3 at phase p is 128 - 8p at
/// t = 3 and 8p at t = 4."
#[test]
fn rules_of_the_taps() {
    let taps = tables::taps();
    for (i, row) in taps.chunks_exact(8).enumerate() {
        let (filter, phase) = (i / 16, (i % 16) as i32);
        assert_eq!(
            row.iter().sum::<i32>(),
            128,
            "filter {filter}, phase {phase}"
        );
        if phase == 0 || filter == 3 {
            assert_eq!(row, [0, 0, 0, 128 - 8 * phase, 8 * phase, 0, 0, 0]);
        }
    }
}

/// "The context is 0..6 always."
#[test]
fn contexts_of_any_two_modes() {
    let (counters, contexts) = (tables::mode_counters(), tables::counter_contexts());
    for a in [&[0], &counters[..]].concat() {
        for b in [&[0], &counters[..]].concat() {
            assert!((0..=6).contains(&contexts[(a + b) as usize]));
        }
    }
}

const SIDE: i32 = 20;

/// A block in the middle of a frame of 20 by 20 cells.
fn search(mi_size: u8, block: i32) -> SearchArgs {
    SearchArgs {
        grid: grid(10, 10, SIDE, SIDE, mi_size),
        tile: Tile {
            start: 0,
            end: SIDE,
        },
        target: 1,
        block,
        ..SearchArgs::default()
    }
}

fn cell(offset: [i32; 2]) -> usize {
    ((10 + offset[0]) * SIDE + 10 + offset[1]) as usize
}

fn found_from(mi_size: u8, offered: &[([i32; 2], [i16; 2])]) -> [Vector; 2] {
    let mut tables = intra_tables((SIDE * SIDE) as usize);
    for &(offset, vector) in offered {
        set_vector(&mut tables, cell(offset), 0, 1, vector);
    }
    door::find_mv_refs(&tables, &search(mi_size, -1)).pair
}

fn places(mi_size: u8) -> Vec<[i32; 2]> {
    let all = tables::place_offsets();
    all[16 * usize::from(mi_size)..][..16]
        .chunks_exact(2)
        .map(|p| [p[0], p[1]])
        .collect()
}

/// A cell is looked at exactly when its offset is in the table.
#[test]
fn places_are_those_of_the_search() {
    for mi_size in 0..13 {
        let table = places(mi_size);
        for offset in (-5..=9).flat_map(|r| (-5..=9).map(move |c| [r, c])) {
            let offered = found_from(mi_size, &[(offset, [2, 4])]);
            let seen = offered == [[2, 4], [0, 0]];
            assert_eq!(seen, table.contains(&offset), "size {mi_size}, {offset:?}");
        }
    }
}

/// Of two cells the one that is earlier in the table is found first.
#[test]
fn places_are_in_the_order_of_the_search() {
    for mi_size in 0..13 {
        let table = places(mi_size);
        for (j, &late) in table.iter().enumerate() {
            for &early in &table[..j] {
                let pair = found_from(mi_size, &[(late, [6, 8]), (early, [2, 4])]);
                assert_eq!(
                    pair,
                    [[2, 4], [6, 8]],
                    "size {mi_size}, {early:?}, {late:?}"
                );
            }
        }
    }
}

/// Modes and contexts, by the search of a block whose places one and two have any two modes.
#[test]
fn contexts_are_those_of_the_search() {
    let (counters, contexts) = (tables::mode_counters(), tables::counter_contexts());
    let table = places(3);
    for (one, two) in (0..14).flat_map(|a| (0..14).map(move |b| (a, b))) {
        let mut lent = intra_tables((SIDE * SIDE) as usize);
        lent.modes[cell(table[0])] = one as u8;
        lent.modes[cell(table[1])] = two as u8;
        let expected = contexts[(counters[one] + counters[two]) as usize];
        assert_eq!(
            i32::from(door::find_mv_refs(&lent, &search(3, -1)).context),
            expected
        );
    }
}

/// Sub-block columns, by the search: a neighbour above has column offset 0, one to the left -1.
#[test]
fn sub_blocks_are_those_of_the_search() {
    let columns = tables::sub_block_columns();
    for block in 0..4 {
        for (second, offset) in [(0, [0, -1]), (1, [-1, 0])] {
            let mut lent = intra_tables((SIDE * SIDE) as usize);
            let i = cell(offset);
            lent.frames[2 * i] = 1;
            lent.sub_vectors[16 * i..][..8].copy_from_slice(&[10, 10, 11, 11, 12, 12, 13, 13]);
            let [first, _] = door::find_mv_refs(&lent, &search(0, block as i32)).pair;
            assert_eq!(first, [10 + columns[2 * block + second]; 2]);
        }
    }
}

/// Heights and widths, by the clamp: how far a vector may go down and right from cell (0, 0).
#[test]
fn block_sizes_are_those_of_the_clamp() {
    let (heights, widths) = (tables::block_heights(), tables::block_widths());
    for mi_size in 0..13 {
        let g = grid(0, 0, SIDE, SIDE, mi_size);
        let reach = |cells: i32| 64 * (SIDE - cells);
        assert_eq!(
            door::clamp_mv_row(&g, 9999, 0),
            reach(heights[usize::from(mi_size)])
        );
        assert_eq!(
            door::clamp_mv_col(&g, 9999, 0),
            reach(widths[usize::from(mi_size)])
        );
    }
}
