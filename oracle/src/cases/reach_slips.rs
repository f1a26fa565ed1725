//! Do the cases of the two reaches tell right from nearly right? Wrong rectangles are put in the
//! place of the right one: each must differ from the oracle somewhere, and without a slip nothing
//! may. And do the rectangles lie everywhere that they can?

use super::fixed::{Fixed, boundaries};
use super::inter_reach::InterReachArgs;
use super::rng::Rng;
use crate::terms::*;
use crate::{plain, table};

/// The boundaries, and as many by chance as a stored file has.
fn cases<A: Fixed>() -> Vec<A> {
    let mut cases: Vec<A> = boundaries().into_iter().map(|(_, a)| a).collect();
    let rng = &mut Rng::new(1, 1);
    cases.resize_with(2000, || A::random(rng));
    cases
}

/// How many of the accepted cases count.
fn count<A: Fixed>(counts: impl Fn(&A) -> bool) -> usize {
    let accepted = |a: &&A| a.number() == 0;
    cases::<A>()
        .iter()
        .filter(accepted)
        .filter(|&a| counts(a))
        .count()
}

/// First and last column, first and last row; a slip may lead out of the plane.
type Ends = [i64; 4];

fn ends(r: &Reach) -> Ends {
    [r.first_col, r.last_col, r.first_row, r.last_row].map(|n| n as i64)
}

// Blocks.

#[derive(Clone, Copy, Debug, PartialEq)]
enum BlockSlip {
    None,
    /// Of `Ends`, one that is a column or row too near.
    Short(usize),
    FirstNotHeld,
    LastNotHeld,
    /// The position is held instead of the end.
    HeldBefore,
    RoundedTowardZero,
    OnePositionMore,
    StepAsSixteen,
    /// One step, however many positions there are.
    StepOnce,
    RowsFromStartX,
    RowsByWidth,
    WholePlane,
}

fn slipped(a: &BlockReachArgs, slip: BlockSlip) -> Ends {
    use BlockSlip::*;
    let start_y = match slip {
        RowsFromStartX => a.at.start_x,
        _ => a.at.start_y,
    };
    let rows = match slip {
        RowsByWidth => a.width,
        _ => a.height,
    };
    let columns = slipped_ends(slip, a.at.start_x, a.at.step_x, a.w, a.width);
    let rows = slipped_ends(slip, start_y, a.at.step_y, a.h, rows);
    let mut ends = [columns[0], columns[1], rows[0], rows[1]];
    if let Short(i) = slip {
        ends[i] += if i % 2 == 0 { 1 } else { -1 };
    }
    ends
}

fn slipped_ends(slip: BlockSlip, start: i32, step: i32, count: usize, extent: i32) -> [i64; 2] {
    use BlockSlip::*;
    let hold = |n: i64| n.max(0).min(i64::from(extent) - 1);
    let sample = |position: i64| match slip {
        RoundedTowardZero => position / 16,
        HeldBefore => hold(position >> 4),
        _ => position >> 4,
    };
    let step = match slip {
        StepAsSixteen => 16,
        _ => i64::from(step),
    };
    let steps = match slip {
        OnePositionMore => count as i64,
        StepOnce => 1,
        _ => count as i64 - 1,
    };
    let first = sample(i64::from(start)) - 3;
    let last = sample(i64::from(start) + step * steps) + 4;
    match slip {
        FirstNotHeld => [first, hold(last)],
        LastNotHeld => [hold(first), last],
        WholePlane => [0, i64::from(extent) - 1],
        _ => [hold(first), hold(last)],
    }
}

#[test]
fn slips_of_the_blocks_reach_are_seen() {
    use BlockSlip::*;
    let shown = |slip| count(|a: &BlockReachArgs| slipped(a, slip) != ends(&plain::block_reach(a)));
    assert_eq!(shown(None), 0);
    for i in 0..4 {
        assert!(shown(Short(i)) >= 10, "{i}");
    }
    // These show at the plane's edges only.
    for slip in [FirstNotHeld, LastNotHeld, HeldBefore, RoundedTowardZero] {
        assert!(shown(slip) >= 10, "{slip:?}");
    }
    for slip in [OnePositionMore, StepAsSixteen, StepOnce] {
        assert!(shown(slip) >= 10, "{slip:?}");
    }
    for slip in [RowsFromStartX, RowsByWidth, WholePlane] {
        assert!(shown(slip) >= 10, "{slip:?}");
    }
}

// Whole predictions.

#[derive(Clone, Copy, Debug, PartialEq)]
enum InterSlip {
    None,
    ListZeroForListOne,
    RoundedDown,
    LumaForChroma,
    /// The size of the frame, not of its reference.
    FrameForReference,
    OneSample,
}

fn inter_slipped(a: &InterReachArgs, slip: InterSlip) -> Reach {
    let list = match slip {
        InterSlip::ListZeroForListOne => 0,
        _ => a.list(),
    };
    let (a, r) = (&a.of, &a.of.refs[list]);
    let (width, height) = match slip {
        InterSlip::FrameForReference => (a.frame_width, a.frame_height),
        _ => (r.frame_width, r.frame_height),
    };
    let extent = |frame: i32, sub: bool| match slip {
        InterSlip::LumaForChroma => frame,
        InterSlip::RoundedDown if a.plane > 0 && sub => (frame / 2).max(1),
        _ => table::plane_extent(frame, a.plane, sub),
    };
    let (w, h) = match slip {
        InterSlip::OneSample => (1, 1),
        _ => (a.w, a.h),
    };
    plain::block_reach(&BlockReachArgs {
        w,
        h,
        width: extent(width, a.sub_x),
        height: extent(height, a.sub_y),
        at: plain::start_and_step(a, list),
    })
}

fn reach_of(a: &InterReachArgs) -> Reach {
    plain::inter_reach(&a.of, a.list())
}

#[test]
fn slips_of_the_predictions_reach_are_seen() {
    use InterSlip::*;
    let shown = |slip| count(|a: &InterReachArgs| inter_slipped(a, slip) != reach_of(a));
    assert_eq!(shown(None), 0);
    for slip in [ListZeroForListOne, RoundedDown, LumaForChroma] {
        assert!(shown(slip) >= 10, "{slip:?}");
    }
    for slip in [FrameForReference, OneSample] {
        assert!(shown(slip) >= 10, "{slip:?}");
    }
}

/// Versions that refuse for what the call doesn't look at: the other list, the filter, the depth.
#[test]
fn slips_of_the_predictions_refusals_are_seen() {
    let wrong = |v: &Vector| v.iter().any(|c| !(-32_767..=32_767).contains(c));
    for second in [false, true] {
        let other = usize::from(!second);
        let shown =
            count(|a: &InterReachArgs| a.second == second && a.of.vectors[other].iter().any(wrong));
        assert!(shown >= 10, "list {other}: {shown}");
    }
    assert!(count(|a: &InterReachArgs| a.of.filter > 3) >= 10);
    assert!(count(|a: &InterReachArgs| ![8, 10, 12].contains(&a.of.depth)) >= 10);
}

// Where the rectangles lie.

const EVERYWHERE: [&str; 7] = [
    "at the only one",
    "at the first or before it",
    "at the last or behind it",
    "over the whole plane",
    "over the first",
    "over the last",
    "inside",
];

/// Of columns or of rows, in a plane that has `extent` of them.
fn lie(first: usize, last: usize, extent: i32) -> &'static str {
    let end = extent as usize - 1;
    let which = match (first, last) {
        (0, 0) if end == 0 => 0,
        (_, 0) => 1,
        (f, _) if f == end => 2,
        (0, l) if l == end => 3,
        (0, _) => 4,
        (_, l) if l == end => 5,
        _ => 6,
    };
    EVERYWHERE[which]
}

fn lie_everywhere<A: Fixed>(reach: impl Fn(&A) -> (Reach, i32, i32)) {
    for place in EVERYWHERE {
        let columns = count(|a: &A| {
            let (r, width, _) = reach(a);
            lie(r.first_col, r.last_col, width) == place
        });
        let rows = count(|a: &A| {
            let (r, _, height) = reach(a);
            lie(r.first_row, r.last_row, height) == place
        });
        assert!(columns >= 20 && rows >= 20, "{place}: {columns} {rows}");
    }
}

#[test]
fn rectangles_lie_everywhere() {
    lie_everywhere(|a: &BlockReachArgs| (plain::block_reach(a), a.width, a.height));
    lie_everywhere(|a: &InterReachArgs| {
        let (of, r) = (&a.of, &a.of.refs[a.list()]);
        let width = table::plane_extent(r.frame_width, of.plane, of.sub_x);
        let height = table::plane_extent(r.frame_height, of.plane, of.sub_y);
        (reach_of(a), width, height)
    });
}
