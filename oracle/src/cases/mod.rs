//! Files of test cases with the oracle's answers; README.md has their format byte by byte.

mod best;
mod block;
mod block_reach;
mod bytes;
mod clamp;
mod edges;
mod fixed;
mod inter_reach;
mod planes;
mod predict;
mod prediction;
mod rng;
mod row;
mod scale;
mod search;
mod search_scenes;
mod select;
mod staged;

#[cfg(test)]
mod reach_slips;
#[cfg(test)]
mod slips;
#[cfg(test)]
mod tests;

use crate::terms::{BestArgs, BlockArgs, BlockReachArgs, ClampArgs};
use crate::terms::{PredictArgs, ScaleArgs, SelectArgs};
use bytes::{Read, Reader, Writer};
use fixed::Fixed;
use inter_reach::InterReachArgs;
use rng::Rng;
use row::RowRead;
use search::{Append, Find};
use staged::Staged;

const MAGIC: &[u8; 4] = b"KNOB";

#[derive(Clone, Copy, Debug, PartialEq, Eq)]
pub enum Call {
    SelectMv = 1,
    ClampMv,
    ScaleMv,
    FindBestRefMvs,
    FindMvRefs,
    AppendSub8x8Mvs,
    RowRead,
    BlockInterPredict,
    PredictInter,
    BlockReach,
    InterReach,
}

impl Call {
    pub const ALL: [Call; 11] = [
        Call::SelectMv,
        Call::ClampMv,
        Call::ScaleMv,
        Call::FindBestRefMvs,
        Call::FindMvRefs,
        Call::AppendSub8x8Mvs,
        Call::RowRead,
        Call::BlockInterPredict,
        Call::PredictInter,
        Call::BlockReach,
        Call::InterReach,
    ];

    pub fn name(self) -> &'static str {
        match self {
            Call::SelectMv => "select_mv",
            Call::ClampMv => "clamp_mv",
            Call::ScaleMv => "scale_mv",
            Call::FindBestRefMvs => "find_best_ref_mvs",
            Call::FindMvRefs => "find_mv_refs",
            Call::AppendSub8x8Mvs => "append_sub8x8_mvs",
            Call::RowRead => "row_read",
            Call::BlockInterPredict => "block_inter_predict",
            Call::PredictInter => "predict_inter",
            Call::BlockReach => "block_reach",
            Call::InterReach => "inter_reach",
        }
    }

    pub fn named(name: &str) -> Option<Call> {
        Call::ALL.into_iter().find(|call| call.name() == name)
    }

    /// Bytes of a record.
    fn record(self) -> usize {
        match self {
            Call::SelectMv => SelectArgs::LENGTH,
            Call::ClampMv => ClampArgs::LENGTH,
            Call::ScaleMv => ScaleArgs::LENGTH,
            Call::FindBestRefMvs => BestArgs::LENGTH,
            Call::FindMvRefs => Find::LENGTH,
            Call::AppendSub8x8Mvs => Append::LENGTH,
            Call::RowRead => RowRead::LENGTH,
            Call::BlockInterPredict => BlockArgs::LENGTH,
            Call::PredictInter => PredictArgs::LENGTH,
            Call::BlockReach => BlockReachArgs::LENGTH,
            Call::InterReach => InterReachArgs::LENGTH,
        }
    }
}

/// A file of `count` cases: the boundaries of document 01's table first, then cases by chance.
pub fn make(call: Call, seed: u64, count: u32) -> Vec<u8> {
    let rng = &mut Rng::new(seed, call as u64);
    let n = count as usize;
    let mut w = header(call, count);
    match call {
        Call::SelectMv => fixed::make::<SelectArgs>(rng, n, &mut w),
        Call::ClampMv => fixed::make::<ClampArgs>(rng, n, &mut w),
        Call::ScaleMv => fixed::make::<ScaleArgs>(rng, n, &mut w),
        Call::FindBestRefMvs => fixed::make::<BestArgs>(rng, n, &mut w),
        Call::FindMvRefs => staged::make::<Find>(rng, n, &mut w),
        Call::AppendSub8x8Mvs => staged::make::<Append>(rng, n, &mut w),
        Call::RowRead => staged::make::<RowRead>(rng, n, &mut w),
        Call::BlockInterPredict => staged::make::<BlockArgs>(rng, n, &mut w),
        Call::PredictInter => staged::make::<PredictArgs>(rng, n, &mut w),
        Call::BlockReach => fixed::make::<BlockReachArgs>(rng, n, &mut w),
        Call::InterReach => fixed::make::<InterReachArgs>(rng, n, &mut w),
    }
    w.0
}

/// The same cases, each with this filter in the place of its own, and answered so; None if the call
/// takes no filter.
pub fn make_filtered(call: Call, seed: u64, count: u32, filter: usize) -> Option<Vec<u8>> {
    let rng = &mut Rng::new(seed, call as u64);
    let n = count as usize;
    let mut w = header(call, count);
    match call {
        Call::BlockInterPredict => {
            staged::make_with::<BlockArgs>(rng, n, &mut w, |q| q.args.filter = filter);
        }
        Call::PredictInter => {
            staged::make_with::<PredictArgs>(rng, n, &mut w, |q| q.args.filter = filter);
        }
        _ => return None,
    }
    Some(w.0)
}

fn header(call: Call, count: u32) -> Writer {
    let mut w = Writer::default();
    w.0.extend(MAGIC);
    w.u32(call as u32);
    w.len(call.record());
    w.u32(count);
    w
}

#[derive(Clone, Copy, Debug, PartialEq, Eq)]
pub struct Asked {
    pub cases: usize,
    pub differences: usize,
}

/// Answers every case of a file anew and counts those whose stored answer differs.
pub fn ask(call: Call, bytes: &[u8]) -> Read<Asked> {
    let r = &mut Reader::new(bytes);
    if r.take(4)? != MAGIC {
        return Err("this is no file of cases".to_string());
    }
    if r.u32()? != call as u32 {
        return Err(format!("this file is not of {}", call.name()));
    }
    if r.len()? != call.record() {
        return Err("the records are of another length".to_string());
    }
    let cases = r.len()?;
    let differences = match call {
        Call::SelectMv => fixed::ask::<SelectArgs>(r, cases),
        Call::ClampMv => fixed::ask::<ClampArgs>(r, cases),
        Call::ScaleMv => fixed::ask::<ScaleArgs>(r, cases),
        Call::FindBestRefMvs => fixed::ask::<BestArgs>(r, cases),
        Call::FindMvRefs => staged::ask::<Find>(r, cases),
        Call::AppendSub8x8Mvs => staged::ask::<Append>(r, cases),
        Call::RowRead => staged::ask::<RowRead>(r, cases),
        Call::BlockInterPredict => staged::ask::<BlockArgs>(r, cases),
        Call::PredictInter => staged::ask::<PredictArgs>(r, cases),
        Call::BlockReach => fixed::ask::<BlockReachArgs>(r, cases),
        Call::InterReach => fixed::ask::<InterReachArgs>(r, cases),
    }?;
    if !r.at_end() {
        return Err(format!("the file goes on after byte {}", r.at()));
    }
    Ok(Asked { cases, differences })
}
