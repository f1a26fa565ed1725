//! What is owed of every kind of file.

use super::staged::{Numbered, Staged};
use super::*;

/// The boundaries and `random` scenes by chance.
pub(super) fn stages<S: Staged>(random: usize) -> Vec<(S::Scene, Vec<S::Query>)> {
    let plain = |queries: Numbered<S::Query>| queries.into_iter().map(|(_, q)| q).collect();
    let boundaries = S::boundaries().into_iter();
    let mut stages: Vec<_> = boundaries.map(|(scene, q)| (scene, plain(q))).collect();
    let rng = &mut Rng::new(1, 1);
    stages.extend((0..random).map(|_| S::random(rng)));
    stages
}

/// Where the answer stands in a record.
fn answer_at(call: Call) -> usize {
    match call {
        Call::SelectMv => 84,
        Call::ClampMv => 36,
        Call::ScaleMv | Call::FindBestRefMvs => 44,
        Call::FindMvRefs => 64,
        Call::AppendSub8x8Mvs => 96,
        Call::RowRead => 40,
        Call::BlockInterPredict => 144,
        Call::PredictInter => 236,
        Call::BlockReach => 44,
        Call::InterReach => 156,
    }
}

/// Where each record of a file begins, read by README's format alone.
fn records(call: Call, file: &[u8]) -> Vec<usize> {
    let both = scenes_and_records(call, file).into_iter();
    both.map(|(_, start)| start).collect()
}

/// The same, each with where its scene begins; calls 1 to 4, 10 and 11 have none, and the header
/// stands in.
fn scenes_and_records(call: Call, file: &[u8]) -> Vec<(usize, usize)> {
    let (length, count) = (word(file, 8), word(file, 12));
    let scene_length = match call as u32 {
        1..=4 | 10..=11 => 16,
        5..=6 => 3408,
        _ => 8208,
    };
    let mut found = Vec::new();
    let mut at = if scene_length == 16 { 0 } else { 16 };
    while found.len() < count {
        let scene = at;
        at += scene_length;
        let queries = match scene_length {
            16 => count,
            _ => word(file, at - 8),
        };
        for _ in 0..queries {
            found.push((scene, at));
            let samples = match call as u32 {
                8..=9 => word(file, at + answer_at(call) + 8),
                _ => 0,
            };
            at += length + (2 * samples).next_multiple_of(8);
        }
    }
    assert_eq!(at, file.len());
    found
}

/// The numbers of a file's cases, in order.
fn numbers(call: Call, file: &[u8]) -> Vec<u32> {
    let starts = records(call, file).into_iter();
    let answer = |start: usize| &file[start + answer_at(call)..][..4];
    starts
        .map(|start| u32::from_le_bytes(answer(start).try_into().unwrap()))
        .collect()
}

fn word(file: &[u8], at: usize) -> usize {
    u32::from_le_bytes(file[at..at + 4].try_into().unwrap()) as usize
}

/// README.md's limits, which a reader with buffers of fixed size leans on.
#[test]
fn no_query_lends_more_than_is_said() {
    let staged = |&call: &Call| (5..=9).contains(&(call as u32));
    for call in Call::ALL.into_iter().filter(staged) {
        let file = &make(call, 4, 3000);
        let (bands, output): (&[usize], &[usize]) = match call as u32 {
            7 => (&[24, 28], &[]),
            8 => (&[24, 28, 72, 76], &[136]),
            9 => (&[88, 92, 120, 124], &[228]),
            _ => (&[], &[]),
        };
        for (scene, start) in scenes_and_records(call, file) {
            let most = word(file, scene);
            assert!(bands.iter().all(|at| word(file, start + at) <= most));
            assert!(most <= 65_536);
            for at in output {
                assert!(word(file, start + at) <= 65_537);
                assert!(word(file, start + at + 4) <= 8_577);
            }
            if (5..=6).contains(&(call as u32)) {
                let cells = word(file, scene + 4);
                let lent = [1, 2, 4, 16, 2, 4].map(|k| cells * k);
                assert!((0..6).all(|i| word(file, start + 32 + 4 * i) <= lent[i]));
                assert!(most <= 64 && cells <= 8192);
            }
        }
    }
}

/// The answers that a call can give, by documents 01 and 02.
fn possible(call: Call) -> &'static [u32] {
    match call {
        Call::SelectMv => &[0, 1, 9],
        Call::ClampMv => &[0, 1, 2, 9],
        Call::ScaleMv => &[0, 1, 5, 6, 9],
        Call::FindBestRefMvs => &[0, 1, 2, 9],
        Call::FindMvRefs => &[0, 1, 2, 3, 7, 8],
        Call::AppendSub8x8Mvs => &[0, 1, 2, 3, 7, 8, 9],
        Call::RowRead => &[0, 5, 6, 7],
        Call::BlockInterPredict => &[0, 1, 4, 5, 6, 7],
        Call::PredictInter => &[0, 1, 2, 4, 5, 6, 7, 9],
        Call::BlockReach => &[0, 1, 5, 6],
        Call::InterReach => &[0, 1, 2, 5, 6, 9],
    }
}

#[test]
fn every_answer_occurs_and_most_are_accepted() {
    for call in Call::ALL {
        let seen = numbers(call, &make(call, 1, 2000));
        for n in 0..=9 {
            let owed = possible(call).contains(&n);
            assert_eq!(seen.contains(&n), owed, "{} {n}", call.name());
        }
        let accepted = seen.iter().filter(|&&n| n == 0).count();
        assert!(accepted > 1200, "{}: {accepted}", call.name());
    }
}

fn hold_fixed<A: Fixed + std::fmt::Debug>() -> usize {
    let cases = fixed::boundaries::<A>();
    for (number, a) in &cases {
        assert_eq!(a.number(), *number, "{a:?}");
    }
    cases.len()
}

fn hold_staged<S: Staged>() -> usize {
    let stages = S::boundaries();
    for (scene, queries) in &stages {
        for (number, query) in queries {
            assert_eq!(S::number(scene, query), *number, "{query:?}");
        }
    }
    stages.iter().map(|(_, queries)| queries.len()).sum()
}

/// README.md states these counts.
#[test]
fn edges_give_the_number_they_were_written_for() {
    let counts = [
        hold_fixed::<SelectArgs>(),
        hold_fixed::<ClampArgs>(),
        hold_fixed::<ScaleArgs>(),
        hold_fixed::<BestArgs>(),
        hold_staged::<Find>(),
        hold_staged::<Append>(),
        hold_staged::<RowRead>(),
        hold_staged::<BlockArgs>(),
        hold_staged::<PredictArgs>(),
        hold_fixed::<BlockReachArgs>(),
        hold_fixed::<InterReachArgs>(),
    ];
    let stated = [307, 158, 134, 178, 491, 569, 130, 400, 613, 417, 646];
    assert_eq!(counts, stated);
}

#[test]
fn a_file_is_what_the_oracle_says() {
    for call in Call::ALL {
        let asked = ask(call, &make(call, 7, 1500));
        let owed = Asked {
            cases: 1500,
            differences: 0,
        };
        assert_eq!(asked, Ok(owed), "{}", call.name());
    }
}

/// FNV-1a, 64 bits.
fn digest(bytes: &[u8]) -> u64 {
    bytes.iter().fold(0xcbf2_9ce4_8422_2325, |h, &b| {
        (h ^ u64::from(b)).wrapping_mul(0x0000_0100_0000_01b3)
    })
}

/// A change of any of these numbers is a change of stored cases, and has to be meant.
#[test]
fn the_same_seed_gives_the_same_bytes() {
    let digests = Call::ALL.map(|call| digest(&make(call, 1, 1000)));
    let stored = [
        0x652381ac8a1f59f5,
        0x310c2d5b57f60769,
        0x9052c0eb2d3f7148,
        0x292256257fc5fd60,
        0x9c41b6cc71444eaf,
        0xf0776ece2010c2ce,
        0x304245c0508c7760,
        0x5f467908a826b622,
        0xdb4db59444f92f44,
        0xdafe32db32dea20b,
        0x46abb3e46ae05803,
    ];
    assert_eq!(digests, stored, "{digests:#018x?}");
}

#[test]
fn another_seed_gives_other_cases_after_the_boundaries() {
    for call in Call::ALL {
        let (one, two) = (make(call, 1, 1000), make(call, 2, 1000));
        let same = one.iter().zip(&two).take_while(|(a, b)| a == b).count();
        let first = records(call, &one).iter().filter(|&&at| at < same).count();
        assert!((100..1000).contains(&first), "{}: {first}", call.name());
    }
}

/// But for the filter the arguments are those of the file without it; the mark is no argument.
#[test]
fn a_filter_that_is_asked_for_is_that_of_every_case() {
    for call in Call::ALL {
        let (filter_at, mark_at) = match call {
            Call::BlockInterPredict => (96, 133),
            Call::PredictInter => (160, 224),
            _ => {
                assert_eq!(make_filtered(call, 5, 10, 3), None, "{}", call.name());
                continue;
            }
        };
        let arguments = |file: &[u8]| -> Vec<Vec<u8>> {
            let of = |start: usize| file[start..start + answer_at(call)].to_vec();
            records(call, file).into_iter().map(of).collect()
        };
        for filter in [0, 3, 4] {
            let file = &make_filtered(call, 5, 1500, filter).unwrap();
            let owed = arguments(&make(call, 5, 1500)).into_iter();
            for (i, (mut owed, found)) in owed.zip(arguments(file)).enumerate() {
                owed[filter_at..filter_at + 8].copy_from_slice(&(filter as u64).to_le_bytes());
                owed[mark_at] = found[mark_at];
                assert_eq!(found, owed, "{} {i}", call.name());
            }
            // The answers are to the arguments as they stand there.
            assert_eq!(numbers(call, file).contains(&0), filter < 4);
            assert_eq!(ask(call, file).map(|asked| asked.differences), Ok(0));
        }
    }
}

/// An answer, a value and a sample altered: each is one difference.
#[test]
fn a_planted_difference_is_found() {
    for call in Call::ALL {
        let right = make(call, 3, 1200);
        let starts = records(call, &right);
        let is_accepted = |&&start: &&usize| right[start + answer_at(call)] == 0;
        let accepted = *starts.iter().rfind(is_accepted).unwrap();
        let mut spots = vec![accepted + answer_at(call)];
        // The length of the run isn't altered, which would part the file anew, but its place is.
        spots.push(accepted + answer_at(call) + 4);
        if (8..=9).contains(&(call as u32)) {
            spots.push(accepted + call.record());
        }
        for spot in spots {
            let mut wrong = right.clone();
            wrong[spot] ^= 1;
            let found = ask(call, &wrong).map(|asked| asked.differences);
            assert_eq!(found, Ok(1), "{} at {spot}", call.name());
        }
    }
}

#[test]
fn a_file_that_cannot_be_read_is_an_error() {
    let right = make(Call::ClampMv, 1, 10);
    let longer = [&right[..], &[0]].concat();
    assert!(ask(Call::SelectMv, &right).is_err());
    assert!(ask(Call::ClampMv, &right[..right.len() - 1]).is_err());
    assert!(ask(Call::ClampMv, &longer).is_err());
    assert!(ask(Call::ClampMv, b"KNOT").is_err());
    assert!(ask(Call::ClampMv, &[]).is_err());
}
