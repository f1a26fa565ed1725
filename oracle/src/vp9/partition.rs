// CUT for the oracle from src/partition.rs of OxideAV/oxideav-vp9 at commit 96a6496c27 (MIT, see
// NOTICE). Kept, word for word: the two tables of block sizes in 8 by 8 cells that mv_ref.rs and
// inter_mv.rs read, and the import they need. Left out: the partition decode, which is not bought
// and leans on files that were not given (bool_coder, mode_info, the crate's Error).

use crate::residual::BLOCK_SIZES;

/// `num_8x8_blocks_wide_lookup[ BLOCK_SIZES ]` per §10.2 spec line 7111 —
/// `{1, 1, 1, 1, 1, 2, 2, 2, 4, 4, 4, 8, 8}`.
///
/// Indexed by the §3 `BLOCK_*` constant; the §6.4.3 listing reads
/// `num8x8 = num_8x8_blocks_wide_lookup[ bsize ]` (with `halfBlock8x8 =
/// num8x8 >> 1`).
pub(crate) const NUM_8X8_BLOCKS_WIDE_LOOKUP: [u8; BLOCK_SIZES] =
    [1, 1, 1, 1, 1, 2, 2, 2, 4, 4, 4, 8, 8];

/// `num_8x8_blocks_high_lookup[ BLOCK_SIZES ]` per §10.2 spec line 7117 —
/// `{1, 1, 1, 1, 2, 1, 2, 4, 2, 4, 8, 4, 8}`.
///
/// Indexed by the §3 `BLOCK_*` constant; the §6.4.12 / §6.4.14 listings
/// read `bh = num_8x8_blocks_high_lookup[ MiSize ]` for the
/// `LeftSegPredContext[ MiRow + i ]` strip write-back and the
/// `get_segment_id( )` spatial sweep bounds.
pub(crate) const NUM_8X8_BLOCKS_HIGH_LOOKUP: [u8; BLOCK_SIZES] =
    [1, 1, 1, 1, 2, 1, 2, 4, 2, 4, 8, 4, 8];
