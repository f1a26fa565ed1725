//! The Rust's constants as plain numbers, flat, in the order of their indices. Those that are
//! private in mv_ref.rs are read out of the text of that file, which stands here unmodified.

use crate::block_inter_pred::SUBPEL_FILTERS;
use crate::partition::{NUM_8X8_BLOCKS_HIGH_LOOKUP, NUM_8X8_BLOCKS_WIDE_LOOKUP};

const MV_REF: &str = include_str!("../vp9/mv_ref.rs");

/// 13 block sizes x 8 places x (row, column).
pub fn place_offsets() -> Vec<i32> {
    table_in(MV_REF, "MV_REF_BLOCKS")
}

/// 14 modes.
pub fn mode_counters() -> Vec<i32> {
    table_in(MV_REF, "MODE_2_COUNTER")
}

/// 19 counters; 9 where no two counters can add up to the index.
pub fn counter_contexts() -> Vec<i32> {
    table_in(MV_REF, "COUNTER_TO_CONTEXT")
}

/// 4 sub-blocks x (column offset not 0, column offset 0).
pub fn sub_block_columns() -> Vec<i32> {
    table_in(MV_REF, "IDX_N_COLUMN_TO_SUBBLOCK")
}

/// 4 filters x 16 phases x 8 taps.
pub fn taps() -> Vec<i32> {
    SUBPEL_FILTERS.as_flattened().as_flattened().to_vec()
}

/// 13 block sizes, in cells.
pub fn block_heights() -> Vec<i32> {
    NUM_8X8_BLOCKS_HIGH_LOOKUP.map(i32::from).to_vec()
}

/// 13 block sizes, in cells.
pub fn block_widths() -> Vec<i32> {
    NUM_8X8_BLOCKS_WIDE_LOOKUP.map(i32::from).to_vec()
}

fn table_in(text: &str, name: &str) -> Vec<i32> {
    let (_, rest) = text
        .split_once(&format!("const {name}: "))
        .expect("the table's name");
    let (_, rest) = rest.split_once("= [").expect("the table's start");
    let (body, _) = rest.split_once("];").expect("the table's end");
    body.lines()
        .map(|line| line.split("//").next().unwrap_or(""))
        .flat_map(|line| line.split(|c: char| !(c.is_alphanumeric() || "_-".contains(c))))
        .filter(|word| !word.is_empty())
        .map(|word| word.parse().unwrap_or_else(|_| constant_in(text, word)))
        .collect()
}

/// The contexts are written by name.
fn constant_in(text: &str, name: &str) -> i32 {
    let (_, rest) = text
        .split_once(&format!("const {name}: u8 = "))
        .expect("the constant");
    let (number, _) = rest.split_once(';').expect("the constant's end");
    number.parse().expect("a number")
}
