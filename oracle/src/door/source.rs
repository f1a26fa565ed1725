//! Document 01's lent tables, as the candidate source that the Rust asks.

use crate::mv_ref::MvCandidateSource;
use crate::terms::{Tables, Vector};

pub(super) struct LentTables<'a> {
    pub(super) tables: &'a Tables,
    pub(super) mi_cols: i32,
}

impl LentTables<'_> {
    fn cell(&self, r: i32, c: i32) -> usize {
        (r * self.mi_cols + c) as usize
    }
}

fn vector_at(table: &[i16], at: usize) -> Vector {
    [i32::from(table[2 * at]), i32::from(table[2 * at + 1])]
}

impl MvCandidateSource for LentTables<'_> {
    fn y_mode(&self, r: i32, c: i32) -> u8 {
        self.tables.modes[self.cell(r, c)]
    }

    fn ref_frame(&self, r: i32, c: i32, list: usize) -> i32 {
        i32::from(self.tables.frames[2 * self.cell(r, c) + list])
    }

    fn mv(&self, r: i32, c: i32, list: usize) -> Vector {
        vector_at(&self.tables.vectors, 2 * self.cell(r, c) + list)
    }

    fn sub_mv(&self, r: i32, c: i32, list: usize, idx: usize) -> Vector {
        vector_at(
            &self.tables.sub_vectors,
            (2 * self.cell(r, c) + list) * 4 + idx,
        )
    }

    fn prev_ref_frame(&self, r: i32, c: i32, list: usize) -> i32 {
        i32::from(self.tables.prev_frames[2 * self.cell(r, c) + list])
    }

    fn prev_mv(&self, r: i32, c: i32, list: usize) -> Vector {
        vector_at(&self.tables.prev_vectors, 2 * self.cell(r, c) + list)
    }
}
