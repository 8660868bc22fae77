//! Known folds of whole seasons and the refusals there, on the library through its safe interface and on the independent
//! implementation.

mod common;

use common::{bytes, owned, prices, word, FREE, UNIT};
use compare::inputs::{flat_bytes, flat_run, marking, prices as any_prices, Random};
use compare::{reference, season};
use runfold::Refusal::{self, *};
use runfold::{fold_room, fold_season, folded, read_season, read_season_run, season_work_entries, unroll_season};
use runfold::{FoldReading, Folding, Prices, RunReading, SEASON_NODES, SEASON_RUN_ROOM, SEASON_WIDTH};

/// A run is folded to that, in slices just long enough and longer; in shorter ones it is refused. The fold is read and unrolled.
fn check(run: &[u8], limit: usize, prices: Prices, expected: &[u8], cost: u64) {
    let (nodes, length) = (run.len() / 2, expected.len());
    let needed = season_work_entries(nodes);
    let folding = Folding { length, cost };
    for more in [0, 3] {
        let (mut work, mut out) = (vec![9; needed + more], vec![9; length + more]);
        assert_eq!(fold_season(run, limit, prices, &mut work, &mut out), Ok(folding));
        assert_eq!(out, [expected, &vec![9; more]].concat());
        assert_eq!(work, [vec![0; needed], vec![9; more]].concat());
    }
    let (mut work, mut out) = (vec![9; needed - 1], vec![9; length]);
    assert_eq!(fold_season(run, limit, prices, &mut work, &mut out), Err(WorkSize));
    assert!(work == vec![9; needed - 1] && out == vec![9; length]);
    if length > 0 {
        let (mut work, mut out) = (vec![9; needed + 1], vec![9; length - 1]);
        assert_eq!(fold_season(run, limit, prices, &mut work, &mut out), Err(OutputSize));
        assert!(work == [vec![0; needed], vec![9]].concat() && out == vec![9; length - 1]);
        assert_eq!(unroll_season(expected, limit, &mut vec![9; run.len() - 1]), Err(OutputSize));
    }

    assert_eq!(read_season_run(run), Ok(RunReading { nodes, steps: nodes, depth: 0 }));
    let reading = FoldReading { nodes, length: run.len(), cost, steps: nodes, depth: 0 };
    assert_eq!(read_season(expected, limit, prices), Ok(reading));
    let mut back = vec![9; SEASON_RUN_ROOM];
    assert_eq!(unroll_season(expected, limit, &mut back), Ok(run.len()));
    assert!(back[..run.len()] == *run && back[run.len()..].iter().all(|&byte| byte == 9));
    let solved = season::solve(run, limit, &owned(prices)).unwrap();
    assert_eq!((solved.bytes, solved.cost), (expected.to_vec(), cost));
}

#[test]
fn known_folds() {
    let unit = prices(1, 0);
    check(&[], 32, unit, &[], 0);
    check(&word("a"), 32, unit, &word("a"), 1);
    check(&word("a"), 0, unit, &word("a"), 1);
    check(&word("aa"), 32, unit, &word("aa"), 2);
    check(&word("aaa"), 32, unit, &bytes("20 0003 0001 1001 21"), 2);
    check(&word("aaa"), 0, unit, &word("aaa"), 3);
    check(&word("aaaa"), 32, prices(0, 0), &bytes("20 0004 0001 1001 21"), 1);
    check(&word("aaaa"), 32, prices(1, 5), &bytes("20 0002 0002 1001 1001 21"), 3);
    check(&word("abbcaabbca"), 32, unit, &[bytes("20 0002 0005"), word("abbca"), vec![0x21]].concat(), 6);
    check(&word("abbcaabbca"), 4, unit, &word("abbcaabbca"), 10);
    check(&word("abaababaab"), 32, unit, &[bytes("20 0002 0005"), word("abaab"), vec![0x21]].concat(), 6);
}

#[test]
fn marked_labels() {
    let marks = marking(|label| label == 2);
    let once = [bytes("20 0003 0001 1001 21"), word("b")].concat();
    check(&word("aaabaaab"), 32, Prices { marks: &marks, ..prices(1, 0) }, &once.repeat(2), 6);
    let marks = marking(|label| label == 1);
    check(&word("aaa"), 32, Prices { marks: &marks, ..prices(1, 0) }, &word("aaa"), 3);
}

#[test]
fn long_runs() {
    let unit = prices(1, 0);
    for (steps, count) in [(1025, "0401"), (SEASON_NODES, "FFFF")] {
        check(&word("a").repeat(steps), 32, unit, &bytes(&format!("20 {count} 0001 1001 21")), 2);
    }
    check(&word("aaab").repeat(16_383), 32, unit, &bytes("20 3FFF 0004 20 0003 0001 1001 21 1002 21"), 4);
    // The highest cost that there is.
    let dear = Prices { steps: &[65_535; 256], ..prices(65_535, 65_535) };
    let run = word("a").repeat(SEASON_NODES);
    check(&run, 0, dear, &run, 65_535 * 65_535);
    // 32 labels again and again, 2,047 times and 31 more of them.
    let labels: Vec<u8> = (0..SEASON_NODES).map(|k| (k % 32) as u8).collect();
    let run = flat_bytes(&labels);
    check(&run, 31, unit, &run, 65_535);
    // The first 31 plain and the rest repeated comes before all else that costs as much.
    let fold = [&run[..62], &bytes("20 07FF 0020"), &run[62..126], &[0x21]].concat();
    check(&run, 32, unit, &fold, 64);
}

/// Up to 1,024 steps the fold is the folder's.
#[test]
fn as_the_first_folder() {
    let r = &mut Random::new(5);
    for k in 0..200 {
        let steps = if k % 20 == 0 { 1024 } else { r.below(100) };
        let (run, prices, limit) = (flat_bytes(&flat_run(r, steps)), any_prices(r), r.below(SEASON_WIDTH + 1));
        let reference::Prices { steps: table, groups, marks, first, each } = &prices;
        let lent = Prices { steps: table, groups, marks, first: *first, each: *each };
        let (mut work, mut out) = (vec![9; season_work_entries(steps)], vec![9; fold_room(steps)]);
        let Folding { length, cost } = fold_season(&run, limit, lent, &mut work, &mut out).unwrap();
        assert_eq!((out[..length].to_vec(), cost), folded(&run, limit, lent).unwrap());
    }
}

fn numbers(refusal: Refusal) -> [u64; 7] {
    [refusal.number() as u64, refusal.place() as u64, 0, 0, 0, 0, 0]
}

#[test]
fn refused_runs() {
    let unit = prices(1, 0);
    let long = word("a").repeat(SEASON_NODES);
    for (run, refusal) in [
        (bytes("13"), UnknownCommand { place: 0 }),
        (bytes("1001 22 02 01"), UnknownCommand { place: 2 }),
        (bytes("1001 20"), RepeatInRun { place: 2 }),
        (bytes("1001 21"), RepeatInRun { place: 2 }),
        (bytes("1001 10"), Unfinished { place: 3 }),
        (bytes("1001 12"), WrongClose { place: 2 }),
        (bytes("1105 1001 12"), GroupInSeason { place: 0 }),
        // 21 goes before 3, 4 and 5, and where the number of steps is reached.
        (bytes("1001 11"), GroupInSeason { place: 2 }),
        (bytes("1105 12"), GroupInSeason { place: 0 }),
        ([&long[..], &[0x11]].concat(), GroupInSeason { place: 131_070 }),
        ([&long[..], &[0x10]].concat(), Unfinished { place: 131_071 }),
        ([&long[..], &[0x10, 1]].concat(), ManyNodes { place: 131_070 }),
    ] {
        assert_eq!(read_season_run(&run), Err(refusal));
        assert_eq!(season::read_season_run(&run).numbers(), numbers(refusal));
        assert_eq!(fold_season(&run, 32, unit, &mut [], &mut []), Err(refusal));
        assert_eq!(season::solve(&run, 32, &owned(unit)).unwrap_err().numbers(), numbers(refusal));
    }
}

#[test]
fn refused_folds() {
    let unit = prices(1, 0);
    for (fold, limit, refusal) in [
        (bytes("13"), 32, UnknownCommand { place: 0 }),
        (bytes("22 02 01 1001 21"), 32, UnknownCommand { place: 0 }),
        (bytes("1105 1001 12"), 32, GroupInSeason { place: 0 }),
        (bytes("20 0002 0001 11"), 32, GroupInSeason { place: 5 }),
        (bytes("20 0002 00"), 32, Unfinished { place: 4 }),
        (bytes("12"), 32, WrongClose { place: 0 }),
        (bytes("20 0002 0001 21"), 32, EmptyBody { place: 5 }),
        (bytes("20 0001 0001 1001 21"), 32, SmallCount { place: 0 }),
        (bytes("20 0002 0021 1001 21"), 32, Wide { place: 0 }),
        (bytes("20 0002 0001 1001 21"), 0, Wide { place: 0 }),
        ([bytes("20 0002 0001").repeat(11), word("a")].concat(), 32, Deep { place: 50 }),
        (bytes("20 FFFF 0002 1001 21"), 32, FalseWidth { place: 7 }),
        (bytes("1001 20 FFFF 0002 1001 21"), 32, ManyNodes { place: 9 }),
        (bytes("20 FFFF 0001 1001 21 1001"), 32, ManyNodes { place: 8 }),
        (bytes("1001"), 33, LimitSize),
        (bytes("13"), 1024, LimitSize),
    ] {
        assert_eq!(read_season(&fold, limit, unit), Err(refusal), "{fold:02X?}");
        assert_eq!(season::read_season(&fold, limit, &owned(unit)).numbers(), numbers(refusal), "{fold:02X?}");
        assert_eq!(unroll_season(&fold, limit, &mut []), Err(refusal), "{fold:02X?}");
        assert_eq!(season::unroll_season(&fold, limit, 0).0.numbers(), numbers(refusal), "{fold:02X?}");
    }
    let marks = marking(|label| label == 1);
    let fold = bytes("20 0002 0001 1001 21");
    assert_eq!(read_season(&fold, 32, Prices { marks: &marks, ..unit }), Err(MarkedInRepeat { place: 5 }));
    assert_eq!(unroll_season(&fold, 32, &mut [0; 4]), Ok(4));
}

/// 11, 15, 12, 18, then the run's own, 13 and 14; nothing is written before 14.
#[test]
fn refusals_in_their_order() {
    let unit = prices(1, 0);
    let wrong = Prices { steps: &UNIT[1..], groups: &UNIT[1..], marks: &FREE[1..], ..unit };
    for (run, limit, prices, entries, refusal) in [
        (bytes("13"), 33, wrong, 255, StepTableSize),
        (bytes("13"), 33, Prices { steps: &UNIT, ..wrong }, 255, GroupTableSize),
        (bytes("13"), 33, Prices { marks: wrong.marks, ..unit }, 255, LimitSize),
        (bytes("13"), 32, Prices { marks: wrong.marks, ..unit }, 255, WrongMarks),
        (bytes("13"), 32, Prices { marks: &[2; 256], ..unit }, 255, WrongMarks),
        (bytes("13"), 32, unit, 255, UnknownCommand { place: 0 }),
        (bytes(""), 32, unit, 255, WorkSize),
        (bytes("1001"), 32, unit, 511, WorkSize),
    ] {
        let (mut work, mut out) = (vec![9; entries], [9; 1]);
        assert_eq!(fold_season(&run, limit, prices, &mut work, &mut out), Err(refusal));
        assert!(work == vec![9; entries] && out == [9]);
        if entries == 255 && !run.is_empty() {
            assert_eq!(read_season(&run, limit, prices), Err(refusal));
        }
    }
}
