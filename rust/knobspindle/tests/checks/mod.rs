//! Every call of the wrapper, accepted and refused. `tests/calls.rs` runs them as tests.

use knobspindle::*;

const HALVED: Subsampling = Subsampling { x: true, y: true };

fn mv(row: i32, col: i32) -> Mv {
    Mv { row, col }
}

pub fn vectors() {
    let of = BlockMvs { list0: [mv(10, -20), mv(-3, 1), mv(32767, -32767), mv(0, 2)], list1: [mv(-1, 1), mv(-2, 1), mv(-3, 1), mv(0, 2)] };
    assert_eq!(select_mv(&of, List::Zero, 0, 0, 2, Subsampling::default()), Ok(mv(32767, -32767)));
    assert_eq!(select_mv(&of, List::Zero, 1, 0, 1, Subsampling { x: false, y: true }), Ok(mv(-2, 2)));
    assert_eq!(select_mv(&of, List::One, 2, 0, 0, HALVED), Ok(mv(-2, 1)));
    assert_eq!(select_mv(&of, List::Zero, 1, 0, 2, Subsampling { x: false, y: true }), Err(Error::Block));

    let grid = BlockGrid { mi_row: 0, mi_col: 3, mi_rows: 4, mi_cols: 5, mi_size: 3 };
    assert_eq!(clamp_mv(grid, mv(-32767, 32767), 0, HALVED), Ok(PlaneMv { row: -192, col: 304 }));
    assert_eq!(clamp_mv(BlockGrid { mi_col: 5, ..grid }, mv(1, 1), 0, HALVED), Err(Error::Grid));
    assert_eq!(clamp_mv(grid, mv(32768, 0), 0, HALVED), Err(Error::Vector));

    let geom = ScaleGeom { ref_frame_width: 640, ref_frame_height: 720, frame_width: 640, frame_height: 360, ..Default::default() };
    let at = scale_mv(geom, 0, 100, 50, PlaneMv { row: -5, col: 7 });
    assert_eq!(at, Ok(Stepping { start_x: 1607, start_y: 1590, step_x: 16, step_y: 32 }));
    assert_eq!(scale_mv(ScaleGeom { frame_height: 359, ..geom }, 0, 0, 0, PlaneMv::default()), Err(Error::Size));
}

pub fn candidates() {
    let (mut mvs, mut subs) = ([0; 8], [0; 32]);
    mvs[..2].copy_from_slice(&[24, -40]);
    subs[..8].copy_from_slice(&[24, -40, 24, -40, 24, -40, 24, -40]);
    let tables = Tables { modes: &[13, 0], frames: &[1, 0, 0, 0], mvs: &mvs, subs: &subs, previous: None };
    let place = Place { grid: BlockGrid { mi_row: 0, mi_col: 1, mi_rows: 1, mi_cols: 2, mi_size: 3 }, tile: 0..2 };
    let found = MvRefs { first: mv(24, -40), second: mv(0, 0), context: 3 };
    assert_eq!(find_mv_refs(&tables, &place, 1, None, [false; 4]), Ok(found));
    let other_side = Tables { frames: &[2, 0, 0, 0], ..tables };
    let turned = find_mv_refs(&other_side, &place, 1, None, [false, false, true, false]);
    assert_eq!(turned.map(|r| r.first), Ok(mv(-24, 40)));
    assert_eq!(find_mv_refs(&tables, &place, 0, None, [false; 4]), Err(Error::Target));
    assert_eq!(find_mv_refs(&Tables { modes: &[14, 0], ..tables }, &place, 1, None, [false; 4]), Err(Error::Record));
    let none = Some(Previous { frames: &[], mvs: &[] });
    assert_eq!(find_mv_refs(&Tables { previous: none, ..tables }, &place, 1, None, [false; 4]), Err(Error::Short));
    assert_eq!(find_mv_refs(&tables, &place, 1, Some(4), [false; 4]), Err(Error::Block));

    let alone = Tables { modes: &[0], frames: &[0; 2], mvs: &[0; 4], subs: &[0; 16], previous: None };
    let place = Place { grid: BlockGrid { mi_row: 0, mi_col: 0, mi_rows: 1, mi_cols: 1, mi_size: 0 }, tile: 0..1 };
    assert_eq!(append_sub8x8_mvs(&alone, &place, 3, 1, [mv(8, 16); 4], [false; 4]), Ok([mv(8, 16), mv(0, 0)]));
    assert_eq!(append_sub8x8_mvs(&alone, &place, 4, 1, [mv(8, 16); 4], [false; 4]), Err(Error::Block));

    let far = Place { grid: BlockGrid { mi_row: 50, mi_col: 50, mi_rows: 100, mi_cols: 100, mi_size: 3 }, tile: 0..100 };
    assert_eq!(find_best_ref_mvs(&far, [mv(3, -3), mv(0, 0)], false), Ok([mv(2, -2), mv(0, 0)]));
    assert_eq!(find_best_ref_mvs(&far, [mv(63, 0), mv(64, 1)], true), Ok([mv(63, 0), mv(64, 0)]));
}

/// The named numbers mean what their names say.
pub fn numbers() {
    let modes = [Mode::Dc, Mode::V, Mode::H, Mode::D45, Mode::D135, Mode::D117, Mode::D153, Mode::D207, Mode::D63, Mode::Tm];
    let all = modes.into_iter().chain([Mode::Nearest, Mode::Near, Mode::Zero, Mode::New]);
    assert!(all.map(|mode| mode as u8).eq(0..14));

    // what the block below and right of two neighbours finds; the left one has `unused` in its list 1, which has no frame
    let between = |above: Mode, left: Mode, frame: RefFrame, target: RefFrame, unused: i16| {
        let cells = [Mode::Dc, above, left, Mode::Dc];
        let inter = cells.map(|mode| mode as u8 >= Mode::Nearest as u8);
        let frames: Vec<i8> = inter.iter().flat_map(|&is| [if is { frame } else { RefFrame::Intra } as i8, RefFrame::None as i8]).collect();
        let mut mvs: Vec<i16> = inter.iter().flat_map(|&is| [16 * i16::from(is), 0, 0, 0]).collect();
        let subs: Vec<i16> = inter.iter().flat_map(|&is| [[16 * i16::from(is), 0].repeat(4), vec![0; 8]].concat()).collect();
        mvs[4 * 2 + 2] = unused;
        let tables = Tables { modes: &cells.map(|mode| mode as u8), frames: &frames, mvs: &mvs, subs: &subs, previous: None };
        let grid = BlockGrid { mi_row: 1, mi_col: 1, mi_rows: 2, mi_cols: 2, mi_size: BlockSize::B8x8 as u8 };
        find_mv_refs(&tables, &Place { grid, tile: 0..2 }, target as i32, None, [false; 4])
    };
    let context = |above, left| between(above, left, RefFrame::Last, RefFrame::Last, 0).map(|found| found.context);
    assert_eq!(context(Mode::Zero, Mode::Zero), Ok(0));
    assert_eq!(context(Mode::Zero, Mode::New), Ok(3));
    assert_eq!(context(Mode::New, Mode::New), Ok(4));
    assert_eq!([Mode::Nearest, Mode::Near].map(|mode| context(Mode::Zero, mode)), [Ok(1); 2]);
    assert_eq!(modes.map(|mode| context(mode, Mode::New)), [Ok(5); 10]);
    for frame in [RefFrame::Last, RefFrame::Golden, RefFrame::AltRef] {
        assert_eq!(between(Mode::Zero, Mode::New, frame, frame, 0).map(|found| found.first), Ok(mv(16, 0)), "{frame:?}");
    }
    assert_eq!([RefFrame::None, RefFrame::Intra, RefFrame::Last, RefFrame::Golden, RefFrame::AltRef].map(|frame| frame as i8), [-1, 0, 1, 2, 3]);
    assert_eq!(between(Mode::Zero, Mode::New, RefFrame::Last, RefFrame::Intra, 0), Err(Error::Target));
    assert_eq!(between(Mode::Zero, Mode::New, RefFrame::Last, RefFrame::Last, -32768), Err(Error::Record));

    use BlockSize::*;
    let sizes = [B4x4, B4x8, B8x4, B8x8, B8x16, B16x8, B16x16, B16x32, B32x16, B32x32, B32x64, B64x32, B64x64];
    let cells = [(1, 1), (1, 1), (1, 1), (1, 1), (1, 2), (2, 1), (2, 2), (2, 4), (4, 2), (4, 4), (4, 8), (8, 4), (8, 8)];
    for (size, (across, down)) in sizes.into_iter().zip(cells) {
        let grid = BlockGrid { mi_row: 0, mi_col: 0, mi_rows: 16, mi_cols: 16, mi_size: size as u8 };
        let farthest = PlaneMv { row: -(4 + 8 * down) * 16, col: -(4 + 8 * across) * 16 };
        assert_eq!(clamp_mv(grid, mv(-32767, -32767), 0, HALVED), Ok(farthest), "{size:?}");
    }

    // a lone sample, half a sample on, shows the taps of phase 8
    let row: Vec<u16> = (0..16).map(|i| if i == 8 { 192 } else { 64 }).collect();
    let source = Source { plane: Plane::whole(&row, 16, 1, 16), from: Stepping { start_x: 8, start_y: 0, step_x: 16, step_y: 16 } };
    for (filter, first_four) in [
        (Filter::Regular, [-1, 6, -19, 78]),
        (Filter::Smooth, [-1, -4, 14, 55]),
        (Filter::Sharp, [-4, 11, -23, 80]),
        (Filter::Bilinear, [0, 0, 0, 64]),
    ] {
        let mut out = [0; 16];
        let shape = BlockShape { w: 16, h: 1, filter, depth: 8 };
        assert_eq!(block_inter_predict(shape, &source, None, &mut Room::new(), &mut out, 16), Ok(()));
        assert_eq!([11, 10, 9, 8].map(|c| i32::from(out[c]) - 64), first_four, "{filter:?}");
    }
}

pub fn samples() {
    let plane = Plane { width: 3, height: 3, stride: 4, upper_rows: 2, upper: &[10, 20, 30, 99, 40, 50, 60, 99], lower: &[70, 81, 255] };
    assert_eq!(plane.row(1), Ok(&[40, 50, 60][..]));
    assert_eq!(plane.row(2), Ok(&[70, 81, 255][..]));
    assert_eq!(plane.row(3), Err(Error::Start));
    assert_eq!(Plane { lower: &[70, 81], ..plane }.row(0), Err(Error::Short));

    let shape = BlockShape { w: 3, h: 2, filter: Filter::Bilinear, depth: 8 };
    let first = Source { plane, from: Stepping { start_x: 8, start_y: 16, step_x: 16, step_y: 16 } };
    let mut room = Room::new();
    let mut out = [1, 2, 3, 4, 5, 6, 7, 8, 9, 10];
    assert_eq!(block_inter_predict(shape, &first, None, &mut room, &mut out, 5), Ok(()));
    assert_eq!(out, [45, 55, 60, 4, 5, 76, 168, 255, 9, 10]);
    let zeros = Source { plane: Plane::whole(&[0; 9], 3, 3, 3), ..first };
    assert_eq!(block_inter_predict(shape, &first, Some(&zeros), &mut room, &mut out, 5), Ok(()));
    assert_eq!(out, [23, 28, 30, 4, 5, 38, 84, 128, 9, 10]);
    let odd = BlockShape { depth: 9, ..shape };
    assert_eq!(block_inter_predict(odd, &first, None, &mut room, &mut out, 5), Err(Error::Filter));
    assert_eq!(block_inter_predict(shape, &first, None, &mut room, &mut out[..7], 5), Err(Error::Short));
    assert_eq!(out, [23, 28, 30, 4, 5, 38, 84, 128, 9, 10]);
}

pub fn whole_prediction() {
    let tens: Vec<u16> = (0..64).map(|i| i % 8 * 10 + i / 8).collect();
    let reference = Reference { frame_width: 8, frame_height: 8, stride: 8, upper_rows: 3, upper: &tens[..24], lower: &tens[24..] };
    let grid = BlockGrid { mi_row: 0, mi_col: 0, mi_rows: 1, mi_cols: 1, mi_size: 3 };
    let frame = FrameGeom { width: 8, height: 8, subsampling_x: true, subsampling_y: true };
    let mvs = BlockMvs { list0: [mv(0, 4); 4], list1: [mv(0, 32768); 4] };
    let block = InterPred { plane: 0, x: 5, y: 2, block: 0, shape: BlockShape { w: 3, h: 4, filter: Filter::Bilinear, depth: 8 } };
    let mut room = Room::new();
    let mut samples = [999; 32];
    let dest = Dest { samples: &mut samples, width: 8, height: 4 };
    assert_eq!(predict_inter(block, grid, frame, &mvs, &reference, None, &mut room, dest), Ok(()));
    for (i, sample) in samples.into_iter().enumerate() {
        let want = if i / 8 >= 2 && i % 8 >= 5 { [55, 65, 70][i % 8 - 5] + i as u16 / 8 } else { 999 };
        assert_eq!(sample, want, "sample {i}");
    }
    let dest = Dest { samples: &mut samples, width: 8, height: 4 };
    assert_eq!(predict_inter(block, grid, frame, &mvs, &reference, Some(&reference), &mut room, dest), Err(Error::Vector));
    let dest = Dest { samples: &mut samples[..31], width: 8, height: 4 };
    assert_eq!(predict_inter(block, grid, frame, &mvs, &reference, None, &mut room, dest), Err(Error::Short));
}

/// A block cut into rectangles, its plane parted at any row, gives the samples of the uncut block.
pub fn cut_into_rectangles() {
    let tens: Vec<u16> = (0..16 * 16).map(|i| (i * 37 + 11) % 251).collect();
    let from = Stepping { start_x: -37, start_y: 205, step_x: 20, step_y: 13 };
    let shape = BlockShape { w: 13, h: 9, filter: Filter::Sharp, depth: 8 };
    let mut room = Room::new();
    let mut whole = [0; 13 * 9];
    let plane = Plane::whole(&tens, 16, 16, 16);
    assert_eq!(block_inter_predict(shape, &Source { plane, from }, None, &mut room, &mut whole, 13), Ok(()));
    for above in 0..=16 {
        let (upper, lower) = tens.split_at(above * 16);
        let plane = Plane { upper_rows: above, upper, lower, ..plane };
        let mut cut = [0; 13 * 9];
        for (x, y, w, h) in [(5, 4, 8, 5), (0, 0, 5, 9), (5, 0, 8, 4)] {
            let from = Stepping { start_x: from.start_x + 20 * x, start_y: from.start_y + 13 * y, ..from };
            let part = BlockShape { w, h, ..shape };
            let out = &mut cut[y as usize * 13 + x as usize..];
            assert_eq!(block_inter_predict(part, &Source { plane, from }, None, &mut room, out, 13), Ok(()));
        }
        assert_eq!(cut, whole, "{above} rows above");
    }
}

pub fn reach() {
    let from = |start_x, start_y, step_x, step_y| Stepping { start_x, start_y, step_x, step_y };
    let inside = from(320, 488, 16, 16);
    assert_eq!(block_reach(8, 4, 100, 80, inside), Ok(Reach { cols: 17..=31, rows: 27..=37 }));
    assert_eq!(block_reach(3, 1, 100, 80, from(-37, -21, 16, 16)), Ok(Reach { cols: 0..=3, rows: 0..=2 }));
    assert_eq!(block_reach(8, 8, 100, 80, from(-200, 1440, 16, 16)), Ok(Reach { cols: 0..=0, rows: 79..=79 }));
    assert_eq!(block_reach(64, 64, 200, 100, from(7, 1000, 32, 5)), Ok(Reach { cols: 0..=130, rows: 59..=86 }));
    assert_eq!(block_reach(8, 65, 0, 80, from(320, 488, 16, 33)), Err(Error::Block));
    assert_eq!(block_reach(8, 64, 0, 80, from(320, 488, 16, 33)), Err(Error::Size));
    assert_eq!(block_reach(8, 64, 100, 80, from(320, 488, 16, 33)), Err(Error::Start));

    // a frame of 67 x 45 in 4:2:0; list 1 has an illegal vector
    let luma = InterPred { plane: 0, x: 32, y: 16, block: 0, shape: BlockShape { w: 16, h: 16, filter: Filter::Regular, depth: 9 } };
    let grid = BlockGrid { mi_row: 2, mi_col: 4, mi_rows: 6, mi_cols: 9, mi_size: BlockSize::B16x16 as u8 };
    let frame = FrameGeom { width: 67, height: 45, subsampling_x: true, subsampling_y: true };
    let mvs = BlockMvs { list0: [mv(-5, 9); 4], list1: [mv(-32768, 0); 4] };
    let asked = |block, list, mvs| inter_reach(block, grid, frame, mvs, list, 67, 45);
    assert_eq!(asked(luma, List::Zero, &mvs), Ok(Reach { cols: 30..=52, rows: 12..=34 }));
    assert_eq!(asked(luma, List::One, &mvs), Err(Error::Vector));
    let other = BlockMvs { list0: [mv(0, 32768); 4], list1: [mv(16, -24); 4] };
    assert_eq!(asked(luma, List::One, &other), Ok(Reach { cols: 26..=48, rows: 15..=37 }));
    assert_eq!(inter_reach(luma, grid, frame, &mvs, List::Zero, 134, 90), Ok(Reach { cols: 63..=100, rows: 27..=64 }));
    assert_eq!(inter_reach(luma, grid, frame, &mvs, List::Zero, 134, 91), Err(Error::Size));
    let part = |plane, x, y, side| InterPred { plane, x, y, shape: BlockShape { w: side, h: side, ..luma.shape }, ..luma };
    assert_eq!(asked(part(1, 16, 8, 8), List::Zero, &mvs), Ok(Reach { cols: 13..=27, rows: 4..=18 }));
    assert_eq!(asked(part(0, 32, 16, 0), List::Zero, &mvs), Err(Error::Block));
    assert_eq!(asked(part(0, -1, 16, 8), List::Zero, &mvs), Err(Error::Start));
    assert_eq!(inter_reach(luma, BlockGrid { mi_row: 6, ..grid }, frame, &mvs, List::Zero, 67, 45), Err(Error::Grid));
}

/// A reference of which only the reached rows hold what they should gives the samples of the complete one; a row less gives others.
pub fn waiting_for_rows() {
    let complete: Vec<u16> = (0..40 * 48u32).map(|i| ((i * 37 + i / 7 * 11) % 251) as u16).collect();
    let grid = BlockGrid { mi_row: 2, mi_col: 2, mi_rows: 6, mi_cols: 5, mi_size: BlockSize::B16x16 as u8 };
    let frame = FrameGeom { width: 40, height: 48, subsampling_x: true, subsampling_y: true };
    let block = InterPred { plane: 0, x: 16, y: 16, block: 0, shape: BlockShape { w: 16, h: 16, filter: Filter::Sharp, depth: 8 } };
    let mut room = Room::new();
    let mut predicted = |samples: &[u16], mvs: &BlockMvs| {
        let from = Reference { frame_width: 40, frame_height: 48, stride: 40, upper_rows: 30, upper: &samples[..1200], lower: &samples[1200..] };
        let mut out = vec![0; 40 * 48];
        let dest = Dest { samples: &mut out, width: 40, height: 48 };
        assert_eq!(predict_inter(block, grid, frame, mvs, &from, None, &mut room, dest), Ok(()));
        out
    };
    for vector in [mv(3, -5), mv(-61, 7), mv(45, 93), mv(-99, -77)] {
        let mvs = BlockMvs { list0: [vector; 4], ..Default::default() };
        let rows = inter_reach(block, grid, frame, &mvs, List::Zero, 40, 48).unwrap().rows;
        let kept = |first: usize, last: usize| -> Vec<u16> {
            complete.iter().enumerate().map(|(i, &sample)| if (first..=last).contains(&(i / 40)) { sample } else { 65535 }).collect()
        };
        let want = predicted(&complete, &mvs);
        assert_eq!(predicted(&kept(*rows.start(), *rows.end()), &mvs), want, "{vector:?}");
        assert_ne!(predicted(&kept(rows.start() + 1, *rows.end()), &mvs), want, "{vector:?}, the first row missing");
        assert_ne!(predicted(&kept(*rows.start(), rows.end() - 1), &mvs), want, "{vector:?}, the last row missing");
    }
}
