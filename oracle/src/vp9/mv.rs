// CUT for the oracle from src/mv.rs of OxideAV/oxideav-vp9 at commit 96a6496c27 (MIT, see NOTICE).
// Kept, word for word: use_mv_hp, which find_best_ref_mvs asks, and its threshold. Left out:
// reading vectors from the bitstream, which is not bought and leans on files that were not given
// (bool_coder, compressed, mode_info).

/// `COMPANDED_MVREF_THRESH = 8` per §3 (`vp9-spec.txt` line 514).
/// Threshold (in full-pel units, i.e. after a `>> 3` from the eighth-pel
/// `Mv` representation) past which a motion vector is considered large
/// enough that high-precision signalling is suppressed.
const COMPANDED_MVREF_THRESH: i32 = 8;

/// §6.5.13 `use_mv_hp( deltaMv )` — the high-precision predicate.
///
/// ```text
/// use_mv_hp( deltaMv ) {
///   return ( (Abs( deltaMv[ 0 ] ) >> 3) < COMPANDED_MVREF_THRESH &&
///            (Abs( deltaMv[ 1 ] ) >> 3) < COMPANDED_MVREF_THRESH )
/// }
/// ```
///
/// `deltaMv` here is the §6.5.3 `BestMv[ ref ]` predictor in eighth-pel
/// units. Returns `true` when both components are small enough for the
/// third fractional bit (`mv_hp` / `mv_class0_hp`) to be signalled; the
/// caller still gates the final `UseHp` on `allow_high_precision_mv`.
pub(crate) fn use_mv_hp(delta_mv: [i32; 2]) -> bool {
    (delta_mv[0].abs() >> 3) < COMPANDED_MVREF_THRESH
        && (delta_mv[1].abs() >> 3) < COMPANDED_MVREF_THRESH
}
