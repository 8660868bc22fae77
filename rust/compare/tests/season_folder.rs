//! The independent season folder, held to a trial of every fold and to the first independent folder; and the season folder's
//! method in plain Rust, held to the former and to the library's folder.

use compare::inputs::families::steps;
use compare::inputs::{every_word, flat_bytes, flat_run, marking, prices, Random};
use compare::reference::{self, count_repeats, decode, Item, Prices, Ranked};
use compare::season::{self, cheapest_season};
use compare::season_method::fold_season;

/// Of every fold of a run within a limit that repeats no marked label the first: by cost, then repeats, then bytes.
fn by_trial(items: &[Item], limit: usize, prices: &Prices) -> Ranked {
    let allowed = reference::every_fold(items, limit).into_iter().filter_map(|bytes| {
        let read = reference::read_fold(&bytes, limit, prices);
        let fold = Ranked { cost: read.cost, repeats: count_repeats(&decode(&bytes)), bytes };
        match read.refusal {
            0 => Some(fold),
            19 => None,
            other => panic!("refused by {other}: {:02X?}", fold.bytes),
        }
    });
    allowed.min().expect("the run itself")
}

fn labels_of(items: &[Item]) -> Vec<u8> {
    let label = |item: &Item| if let Item::Step(label) = item { *label } else { panic!("a flat run") };
    items.iter().map(label).collect()
}

/// Prices at which many folds cost the same, or a mark is in the way.
fn close_prices() -> Vec<Prices> {
    let by = |one, first, each, marked| {
        let mut costs = vec![1; 256];
        costs[1] = one;
        Prices { marks: marking(|label| marked && label == 1), ..Prices::by_label(costs, first, each) }
    };
    vec![
        by(1, 1, 0, false),
        by(1, 0, 0, false),
        by(1, 0, 1, false),
        by(0, 0, 0, false),
        by(0, 1, 0, true),
        by(1, 1, 5, false),
        by(65535, 65535, 65535, false),
    ]
}

#[test]
fn every_fold_of_short_runs() {
    let r = &mut Random::new(1);
    for n in 0..=9 {
        every_word(n, &mut |items| {
            let labels = labels_of(items);
            for prices in close_prices().into_iter().chain([prices(r)]) {
                for limit in [r.below(5), 32] {
                    assert_eq!(cheapest_season(&labels, limit, &prices), by_trial(items, limit, &prices), "{labels:?}");
                }
            }
        });
    }
}

#[test]
fn first_independent_folder() {
    let r = &mut Random::new(2);
    for k in 0..400 {
        let n = r.below(if k % 8 == 0 { 110 } else { 40 });
        let labels = flat_run(r, n);
        let (limit, prices) = (r.below(33), prices(r));
        let first = reference::cheapest(&steps(labels.iter().copied()), limit, &prices);
        assert_eq!(cheapest_season(&labels, limit, &prices), first, "{labels:?}, limit {limit}, {prices:?}");
    }
}

/// The method's fold and cost; its work is cleared, and no more of it.
fn by_the_method(labels: &[u8], limit: usize, prices: &Prices) -> (Vec<u8>, u64) {
    let (needed, run) = (season::needed(labels.len()), flat_bytes(labels));
    let (mut work, mut out) = (vec![9; needed + 1], vec![9; 4 * labels.len() + 1]);
    let (length, cost) = fold_season(&run, limit, prices, &mut work, &mut out).expect("the run is sound");
    assert!(work[..needed].iter().all(|&entry| entry == 0) && work[needed] == 9);
    assert!(out[length..].iter().all(|&byte| byte == 9));
    out.truncate(length);
    (out, cost)
}

fn hold_method(labels: &[u8], limit: usize, prices: &Prices) -> (Vec<u8>, u64) {
    let Ranked { cost, bytes, .. } = cheapest_season(labels, limit, prices);
    let given = by_the_method(labels, limit, prices);
    assert!(given == (bytes, cost), "{labels:?}, limit {limit}, {prices:?}");
    given
}

#[test]
fn method_of_the_season_folder() {
    let r = &mut Random::new(3);
    for limit in 0..=32 {
        for k in 0..40 {
            let n = r.below(if k == 0 { 1025 } else { 90 });
            let (labels, prices) = (flat_run(r, n), prices(r));
            let (bytes, cost) = hold_method(&labels, limit, &prices);
            let Prices { steps, groups, marks, first, each } = &prices;
            let lent = runfold::Prices { steps, groups, marks, first: *first, each: *each };
            // The first folder of the library.
            assert_eq!(runfold::folded(&flat_bytes(&labels), limit, lent), Ok((bytes, cost)), "{labels:?}");
        }
    }
}

#[test]
fn long_runs() {
    let r = &mut Random::new(4);
    let unit = Prices::by_label(vec![1; 256], 1, 0);
    let dear = Prices::by_label(vec![65_535; 256], 65_535, 65_535);
    // The highest cost of all is that of the longest run, where nothing is repeated.
    let (bytes, cost) = hold_method(&[1].repeat(65_535), 0, &dear);
    assert_eq!((bytes.len(), cost), (131_070, 65_535 * 65_535));
    let (bytes, cost) = hold_method(&[1].repeat(65_535), 32, &unit);
    assert_eq!((bytes, cost), (vec![0x20, 0xFF, 0xFF, 0, 1, 0x10, 1, 0x21], 2));
    for n in [4097, 65_535] {
        hold_method(&flat_run(r, n), 32, &prices(r));
    }
}

/// The refusals of the independent season folder and of the method, each by itself and where others apply too.
#[test]
fn refusals_in_their_order() {
    let unit = Prices::by_label(vec![1; 256], 1, 0);
    let sound = [0x10, 1];
    let wrong = |steps, groups, marks| Prices { steps: vec![1; steps], groups: vec![1; groups], marks, ..unit.clone() };
    let long = [0x10, 1].repeat(65_536);
    let cases = [
        (&[0x13][..], 33, wrong(255, 255, vec![2; 256]), (11, 0)),
        (&[0x13], 33, wrong(256, 255, vec![2; 256]), (15, 0)),
        (&[0x13], 33, wrong(256, 256, vec![2; 256]), (12, 0)),
        (&[0x13], 32, wrong(256, 256, vec![2; 256]), (18, 0)),
        (&[0x13], 32, wrong(256, 256, vec![0; 255]), (18, 0)),
        (&[0x13], 32, unit.clone(), (1, 0)),
        (&[0x22, 2, 1], 32, unit.clone(), (1, 0)),
        (&[0x10, 1, 0x20], 32, unit.clone(), (2, 2)),
        (&[0x10, 1, 0x21], 32, unit.clone(), (2, 2)),
        (&[0x10, 1, 0x11], 32, unit.clone(), (21, 2)),
        (&[0x11, 5, 0x12], 32, unit.clone(), (21, 0)),
        (&[0x10, 1, 0x10], 32, unit.clone(), (3, 3)),
        (&[0x10, 1, 0x12], 32, unit.clone(), (4, 2)),
        (&long, 32, unit.clone(), (10, 131_070)),
        (&sound, 32, unit.clone(), (13, 0)),
        (&[], 0, unit.clone(), (13, 0)),
    ];
    for (run, limit, prices, refused) in cases {
        let solved = season::solve(run, limit, &prices);
        let answer = solved.map_or_else(|answer| answer, |solved| season::lend(&solved, 255, 0).0);
        assert_eq!((answer.refusal, answer.place), refused);
        assert_eq!(fold_season(run, limit, &prices, &mut [9; 255], &mut []), Err(refused));
    }
    // 14 clears the work, 13 leaves it.
    let mut work = [9; 513];
    assert_eq!(fold_season(&sound, 32, &unit, &mut work[..511], &mut []), Err((13, 0)));
    assert_eq!(work, [9; 513]);
    assert_eq!(fold_season(&sound, 32, &unit, &mut work, &mut [9]), Err((14, 0)));
    assert_eq!((&work[..512], work[512]), (&[0; 512][..], 9));
    let solved = season::solve(&sound, 32, &unit).expect("a sound run");
    assert_eq!(season::lend(&solved, 511, 0).0.refusal, 13);
    assert_eq!(season::lend(&solved, 512, 1).0.refusal, 14);
    assert_eq!(
        season::lend(&solved, 512, 2),
        (reference::Answer { length: 2, cost: 1, ..Default::default() }, sound.to_vec())
    );
}

/// Season reader and season unroller of the independent implementation, by hand.
#[test]
fn independent_readers() {
    let unit = Prices::by_label(vec![1; 256], 1, 0);
    let marked = Prices { marks: marking(|label| label == 7), ..unit.clone() };
    let refused = |refusal, place| [refusal, place, 0, 0, 0, 0, 0];
    let wide = |width: u8, steps: usize| [&[0x20, 0, 2, 0, width][..], &[0x10, 1].repeat(steps), &[0x21]].concat();
    let eleven = [[0x20, 0, 2, 0, 1].repeat(11), vec![0x10, 1]].concat();
    for (fold, limit, prices, numbers) in [
        (vec![], 0, &unit, [0; 7]),
        (vec![0x20, 0xFF, 0xFF, 0, 1, 0x10, 7, 0x21], 32, &unit, [0, 0, 65_535, 131_070, 2, 65_535, 0]),
        (vec![0x10, 7, 0x20, 0xFF, 0xFE, 0, 1, 0x10, 7, 0x21], 1, &unit, [0, 0, 65_535, 131_070, 3, 65_535, 0]),
        (vec![0x10, 7, 0x20, 0xFF, 0xFF, 0, 1, 0x10, 7, 0x21], 32, &unit, refused(10, 9)),
        (vec![0x10, 7, 0x20, 0xFF, 0xFF, 0, 2, 0x10, 7, 0x21], 32, &unit, refused(10, 9)),
        (vec![0x20, 0xFF, 0xFF, 0, 2, 0x10, 7, 0x21], 32, &unit, refused(9, 7)),
        (wide(32, 32), 32, &unit, [0, 0, 64, 128, 33, 64, 0]),
        (wide(32, 32), 31, &unit, refused(7, 0)),
        (wide(33, 33), 32, &unit, refused(7, 0)),
        (wide(32, 32), 33, &unit, refused(12, 0)),
        (vec![0x20, 0, 2, 0, 1, 0x11], 32, &unit, refused(21, 5)),
        (vec![0x11, 5, 0x12], 32, &unit, refused(21, 0)),
        (vec![0x20, 0, 2, 0, 1, 0x10, 7, 0x21], 32, &marked, refused(19, 5)),
        (eleven, 32, &unit, refused(8, 50)),
    ] {
        assert_eq!(season::read_season(&fold, limit, prices).numbers(), numbers, "{fold:02X?}");
        // The unroller knows no marks.
        let (answer, run) = season::unroll_season(&fold, limit, usize::MAX);
        match numbers[0] {
            0 => assert_eq!((answer.refusal, run.len() as u64), (0, numbers[3])),
            19 => assert_eq!((answer.refusal, &run[..]), (0, &[0x10, 7, 0x10, 7][..])),
            _ => assert_eq!((answer.numbers(), run.len()), (numbers, 0)),
        }
        if numbers[3] > 0 {
            assert_eq!(season::unroll_season(&fold, limit, numbers[3] as usize - 1).0.numbers(), refused(14, 0));
        }
    }
    let run = [0x10, 1].repeat(65_536);
    assert_eq!(season::read_season_run(&run).numbers(), refused(10, 131_070));
    assert_eq!(season::read_season_run(&run[2..]).numbers(), [0, 0, 65_535, 0, 0, 65_535, 0]);
    assert_eq!(season::read_season_run(&[0x10, 1, 0x11]).numbers(), refused(21, 2));
}
