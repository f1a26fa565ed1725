//! Where document 01 refuses and the Rust judges nothing: the search, the sub-8x8 list and
//! find_best_ref_mvs. Each test names the refusal that Knobspindle answers with and shows what the
//! Rust does instead. The Rust asks its tables through a trait; the lent tables behind it, and with
//! them panics on short tables, are the door's.

mod common;

use common::*;
use oracle::door;
use oracle::terms::*;

/// An 8 by 8 block at (1, 1) of a frame of 2 by 2 cells: place one is cell 1, place two cell 2,
/// place three cell 0, the other places are outside.
fn search() -> SearchArgs {
    SearchArgs {
        grid: grid(1, 1, 2, 2, 3),
        tile: Tile { start: 0, end: 2 },
        target: 1,
        block: -1,
        sign_bias: [false; 4],
        use_prev: false,
    }
}

const ABOVE: usize = 1;
const LEFT: usize = 2;
const CORNER: usize = 0;

/// Both intra neighbours count: context 6.
const NOTHING: Found = Found {
    pair: [[0, 0]; 2],
    context: 6,
};

fn sized(mi_size: u8) -> SearchArgs {
    SearchArgs {
        grid: Grid {
            mi_size,
            ..search().grid
        },
        ..search()
    }
}

/// Refusal 1, block size above 12.
#[test]
fn search_size_13() {
    assert_panics(&beyond(13, 13), || {
        door::find_mv_refs(&intra_tables(4), &sized(13))
    });
}

/// Refusal 1, sub-block not -1..3: the Rust looks at it only where place one or two has the target
/// frame, and takes anything below 0 for -1.
#[test]
fn search_sub_block_out_of_range() {
    let mut tables = intra_tables(4);
    let four = SearchArgs {
        block: 4,
        ..search()
    };
    assert_eq!(door::find_mv_refs(&tables, &four), NOTHING);
    set_vector(&mut tables, ABOVE, 0, 1, [5, 6]);
    assert_panics(&beyond(4, 4), || door::find_mv_refs(&tables, &four));
    let minus_two = SearchArgs {
        block: -2,
        ..search()
    };
    assert_eq!(
        door::find_mv_refs(&tables, &minus_two),
        door::find_mv_refs(&tables, &search())
    );
}

/// Refusal 2: the Rust searches by whatever grid it is given.
#[test]
fn search_grid_out_of_range() {
    let tables = intra_tables(4);
    let at = |grid: Grid| door::find_mv_refs(&tables, &SearchArgs { grid, ..search() });
    let context_2 = |v: i32| Found {
        pair: [[v, v]; 2],
        context: 2,
    };
    assert_eq!(at(grid(0, 0, 0, 0, 3)), context_2(0));
    assert_eq!(at(grid(-1, -1, 2, 2, 3)), context_2(0));
    assert_eq!(at(grid(-4, -4, 2, 2, 3)), context_2(128));
    assert_eq!(at(grid(5, 5, 2, 2, 3)), context_2(-128));
    // The block one row below the frame: the cells above it are inside, place two is not.
    assert_eq!(at(grid(2, 1, 2, 2, 3)).context, 5);
    // More than 8192 rows.
    let tall = SearchArgs {
        grid: grid(8192, 0, 8193, 1, 3),
        ..search()
    };
    assert_eq!(door::find_mv_refs(&intra_tables(8193), &tall).context, 5);
}

/// Refusal 2, the tile beyond the frame or not around the block. With the lent tables a column
/// beyond the frame is a cell of another row: here column -1 of row 3 is cell 5. In the first row
/// there is none before it.
#[test]
fn search_tile_out_of_range() {
    let mut tables = intra_tables(8);
    set_vector(&mut tables, 5, 0, 1, [5, 6]);
    let block = SearchArgs {
        grid: grid(3, 0, 4, 2, 3),
        ..search()
    };
    assert_eq!(door::find_mv_refs(&tables, &block).pair, [[0, 0]; 2]);
    let from_minus_one = SearchArgs {
        tile: Tile { start: -1, end: 2 },
        ..block
    };
    assert_eq!(
        door::find_mv_refs(&tables, &from_minus_one).pair,
        [[5, 6], [0, 0]]
    );
    let first_row = SearchArgs {
        grid: grid(0, 0, 4, 2, 3),
        ..from_minus_one
    };
    assert_panics(&beyond(8, -1), || door::find_mv_refs(&tables, &first_row));
    // A tile right of the block, and an empty one: no place is inside.
    for tile in [Tile { start: 2, end: 2 }, Tile { start: 1, end: 0 }] {
        assert_eq!(
            door::find_mv_refs(&tables, &SearchArgs { tile, ..search() }).context,
            2
        );
    }
}

/// Refusal 3, target 0: the Rust takes intra neighbours for candidates.
#[test]
fn search_target_0() {
    let mut tables = intra_tables(4);
    set_vector(&mut tables, ABOVE, 0, 0, [5, 6]);
    let a = SearchArgs {
        target: 0,
        ..search()
    };
    assert_eq!(door::find_mv_refs(&tables, &a).pair, [[5, 6], [0, 0]]);
}

/// Refusal 3, target 4 and -1: the Rust reads the sign bias beyond its end as soon as a neighbour
/// has another frame, else it answers.
#[test]
fn search_target_4_and_minus_1() {
    let mut tables = intra_tables(4);
    let [four, minus_one] = [4, -1].map(|target| SearchArgs { target, ..search() });
    assert_eq!(door::find_mv_refs(&tables, &four), NOTHING);
    set_vector(&mut tables, ABOVE, 0, 1, [5, 6]);
    assert_panics(&beyond(4, 4), || door::find_mv_refs(&tables, &four));
    assert_panics(&beyond(4, -1), || door::find_mv_refs(&tables, &minus_one));
}

/// Refusal 7, each table one short. The door's tables: the Rust asks cell by cell, so that only a
/// cell that is asked for is missed, and the last cell is the block's own.
#[test]
fn search_short_tables() {
    let whole = intra_tables(4);
    let short = |cut: fn(&mut Tables)| {
        let mut tables = whole.clone();
        cut(&mut tables);
        tables
    };
    let unseen = [
        short(|t| _ = t.modes.pop()),
        short(|t| _ = t.frames.pop()),
        short(|t| _ = t.vectors.pop()),
        short(|t| _ = t.sub_vectors.pop()),
    ];
    for tables in &unseen {
        assert_eq!(door::find_mv_refs(tables, &search()), NOTHING);
    }
    let with_prev = SearchArgs {
        use_prev: true,
        ..search()
    };
    let seen = [
        short(|t| _ = t.prev_frames.pop()),
        short(|t| _ = t.prev_vectors.pop()),
    ];
    for tables in &seen {
        assert_eq!(door::find_mv_refs(tables, &search()), NOTHING);
        assert_panics("index out of bounds", || {
            door::find_mv_refs(tables, &with_prev)
        });
    }
    let without_place_two = short(|t| t.modes.truncate(2));
    assert_panics(&beyond(2, 2), || {
        door::find_mv_refs(&without_place_two, &search())
    });
}

/// Refusal 8, mode 14: the Rust looks at the modes of places one and two alone.
#[test]
fn search_mode_14() {
    for place in [ABOVE, LEFT] {
        let mut tables = intra_tables(4);
        tables.modes[place] = 14;
        assert_panics(&beyond(14, 14), || door::find_mv_refs(&tables, &search()));
    }
    let mut tables = intra_tables(4);
    tables.modes[CORNER] = 14;
    assert_eq!(door::find_mv_refs(&tables, &search()), NOTHING);
}

/// Refusal 8, frame 4: the Rust reads the sign bias beyond its end, except in list 1 where both
/// vectors are equal, which it passes over.
#[test]
fn search_frame_4() {
    let mut tables = intra_tables(4);
    set_vector(&mut tables, CORNER, 1, 4, [0, 0]);
    assert_eq!(door::find_mv_refs(&tables, &search()), NOTHING);
    set_vector(&mut tables, CORNER, 1, 4, [5, 6]);
    assert_panics(&beyond(4, 4), || door::find_mv_refs(&tables, &search()));
    let mut tables = intra_tables(4);
    set_vector(&mut tables, CORNER, 0, 4, [0, 0]);
    assert_panics(&beyond(4, 4), || door::find_mv_refs(&tables, &search()));
}

/// Refusal 8, frame -2: the Rust takes it for none.
#[test]
fn search_frame_minus_2() {
    let mut tables = intra_tables(4);
    set_vector(&mut tables, ABOVE, 0, -2, [5, 6]);
    set_vector(&mut tables, ABOVE, 1, -2, [7, 8]);
    assert_eq!(door::find_mv_refs(&tables, &search()), NOTHING);
}

/// Refusal 8, component -32768: the Rust takes it, and the sign change makes 32768 of it.
#[test]
fn search_component_minus_32768() {
    let cells = 1100 * 2;
    let mut tables = intra_tables(cells);
    let middle = SearchArgs {
        grid: grid(550, 1, 1100, 2, 3),
        ..search()
    };
    set_vector(&mut tables, 549 * 2 + 1, 0, 2, [-32768, 0]);
    assert_eq!(door::find_mv_refs(&tables, &middle).pair[0], [-32768, 0]);
    let biased = SearchArgs {
        sign_bias: [false, false, true, false],
        ..middle
    };
    assert_eq!(door::find_mv_refs(&tables, &biased).pair[0], [32768, 0]);
}

/// Refusal 8, the block's own previous record: read for frame and vector when it is used.
#[test]
fn search_previous_record() {
    let mut tables = intra_tables(4);
    tables.prev_frames[2 * 3] = 4;
    assert_eq!(door::find_mv_refs(&tables, &search()), NOTHING);
    let with_prev = SearchArgs {
        use_prev: true,
        ..search()
    };
    assert_panics(&beyond(4, 4), || door::find_mv_refs(&tables, &with_prev));
}

/// Refusal 1, sub-block not 0..3: the Rust takes -1 for 3, and 4 too unless place one or two has
/// the target frame.
#[test]
fn append_sub_block_out_of_range() {
    let mut tables = intra_tables(4);
    let block_vectors = [[1, 1], [2, 2], [3, 3], [4, 4]];
    let append = |tables: &Tables, block: i32| {
        let search = SearchArgs { block, ..sized(0) };
        door::append_sub8x8_mvs(
            tables,
            &AppendArgs {
                search,
                block_vectors,
            },
        )
    };
    assert_eq!(append(&tables, 3), [[3, 3], [2, 2]]);
    assert_eq!(append(&tables, -1), [[3, 3], [2, 2]]);
    assert_eq!(append(&tables, 4), [[3, 3], [2, 2]]);
    set_vector(&mut tables, ABOVE, 0, 1, [5, 6]);
    assert_panics(&beyond(4, 4), || append(&tables, 4));
}

/// Refusal 9: the Rust passes any block vector on, unclamped.
#[test]
fn append_component_32768() {
    let search = SearchArgs {
        block: 1,
        ..sized(0)
    };
    let a = AppendArgs {
        search,
        block_vectors: [[32768, -32768]; 4],
    };
    assert_eq!(
        door::append_sub8x8_mvs(&intra_tables(4), &a)[0],
        [32768, -32768]
    );
}

fn best_in(tile: Tile, grid: Grid, pair: [Vector; 2]) -> [Vector; 2] {
    door::find_best_ref_mvs(&BestArgs {
        grid,
        tile,
        pair,
        high_precision: false,
    })
}

fn best(grid: Grid, pair: [Vector; 2]) -> [Vector; 2] {
    best_in(Tile { start: 0, end: 2 }, grid, pair)
}

/// Refusal 1, block size above 12.
#[test]
fn best_size_13() {
    assert_panics(&beyond(13, 13), || best(grid(1, 1, 2, 2, 13), [[0, 0]; 2]));
}

/// Refusal 2: the Rust clamps by whatever grid it is given.
#[test]
fn best_grid_out_of_range() {
    assert_eq!(
        best(grid(0, 0, 0, 0, 3), [[3, 3], [9999, -9999]]),
        [[2, 2], [1184, -1248]]
    );
    assert_eq!(
        best(grid(50, 50, 1, 1, 3), [[0, 0]; 2]),
        [[-1952, -1952]; 2]
    );
}

/// Refusal 2, a tile beside the block, an empty one, one beyond the frame: the Rust does not look
/// at it here, and answers as for any other.
#[test]
fn best_tile_out_of_range() {
    let pair = [[3, 3], [9999, -9999]];
    let whole = best(grid(1, 1, 2, 2, 3), pair);
    for (start, end) in [(0, 1), (1, 1), (-1, 2), (0, 3)] {
        assert_eq!(
            best_in(Tile { start, end }, grid(1, 1, 2, 2, 3), pair),
            whole
        );
    }
}

/// Refusal 9: the Rust takes any component.
#[test]
fn best_component_32768() {
    let wide = grid(4000, 4000, 8192, 8192, 3);
    assert_eq!(
        best(wide, [[32768, -32768], [32769, -32769]]),
        [[32768, -32768]; 2]
    );
}
