// CUT for the oracle from src/residual.rs of OxideAV/oxideav-vp9 at commit 96a6496c27 (MIT, see
// NOTICE). Kept, word for word: the two constants that inter_mv.rs and partition.rs name. Left out:
// the residual walk, which is not bought and leans on files that were not given (tokens, idct).

/// `BLOCK_8X8` — `subsize == 3`.
pub(crate) const BLOCK_8X8: u8 = 3;

/// `BLOCK_SIZES = 13` per §3 — the count of valid `subsize` values.
pub(crate) const BLOCK_SIZES: usize = 13;
