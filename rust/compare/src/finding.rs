//! Finding a node beside unrolling the fold, for the benchmark: the folds, and timing both on them. Every answer is held to the
//! independent implementation.

use crate::figure1::seconds;
use crate::inputs::{bytes_of, families, price_sets, siblings, Random};
use crate::measured::Finding;
use crate::reference::{self, Item, Prices};
use runfold::{folded, raw, MAX_NODES, MAX_WIDTH, RUN_ROOM};

/// In a round each function is timed once, and the finder once at each position.
const ROUNDS: usize = 9;
/// The seconds that are timed at once, at least: the clock itself takes a small part of it.
const AT_ONCE: f64 = 40e-6;

/// The families whose cheapest folds are measured too.
const CHEAPEST: [&str; 8] = [
    "random, 2 labels",
    "random, 256 labels",
    "Fibonacci word",
    "nested, noise",
    "period 8, slip",
    "three long powers",
    "groups, long sequences",
    "groups, small",
];

/// Folds of 1,024 nodes by what they are.
fn folds(unit: &Prices) -> Vec<(String, Vec<u8>)> {
    let r = &mut Random::new(MAX_NODES as u64);
    let mut steps = |nodes| families::random(r, nodes, 4);
    let repeat = |count, body: Vec<Item>| Item::Repeat(count, siblings(&body), body);
    let by_hand = [
        ("a step 1,024 times, as one repeat", vec![repeat(1024, steps(1))]),
        ("a step in ten repeats of count 2", (0..10).fold(steps(1), |body, _| vec![repeat(2, body)])),
        ("512 steps twice, as one repeat", vec![repeat(2, steps(512))]),
        ("512 repeats of a step, count 2", (0..512).map(|_| repeat(2, steps(1))).collect()),
        ("1,024 steps", steps(1024)),
        ("256 groups of three steps", (0..256).map(|_| Item::Group(1, steps(3))).collect()),
        ("1,016 steps in eight groups", (0..8).fold(steps(1016), |body, _| vec![Item::Group(1, body)])),
    ];
    let mut folds: Vec<_> = by_hand.into_iter().map(|(name, items)| (name.to_string(), bytes_of(&items))).collect();
    let Prices { steps, groups, marks, first, each } = unit;
    let prices = runfold::Prices { steps, groups, marks, first: *first, each: *each };
    for name in CHEAPEST {
        let which = families::all().iter().position(|family| family.name == name).expect("a family");
        let run = bytes_of(&families::run(which, MAX_NODES, 0));
        folds.push((format!("cheapest: {name}"), folded(&run, MAX_WIDTH, prices).expect("the run is sound").0));
    }
    folds
}

/// The lowest time of a call so far, and how many of them are timed at once.
struct Least {
    calls: u32,
    seconds: f64,
}

impl Least {
    fn new(mut call: impl FnMut()) -> Least {
        let mut least = Least { calls: 1, seconds: f64::INFINITY };
        loop {
            least.time(&mut call);
            if least.seconds * f64::from(least.calls) >= AT_ONCE {
                return least;
            }
            least = Least { calls: 2 * least.calls, seconds: f64::INFINITY };
        }
    }

    fn time(&mut self, mut call: impl FnMut()) {
        let start = seconds();
        for _ in 0..self.calls {
            call();
        }
        self.seconds = self.seconds.min((seconds() - start) / f64::from(self.calls));
    }
}

/// What the functions answer on a fold.
fn check(name: &str, fold: &[u8], offsets: &[u32], before: &[u32]) {
    let listed = reference::list(fold).expect("the fold is sound");
    assert!(listed.offsets == offsets && listed.before == before, "{name}: another index");
    assert_eq!(listed.nodes.len(), MAX_NODES, "{name}: another number of nodes");
    for position in 0..MAX_NODES as u64 {
        let mut answer = [0; raw::ENTRIES];
        raw::find(fold, offsets, before, position, &mut answer);
        assert_eq!(answer, listed.found(offsets, before, position), "{name}: another node at {position}");
    }
}

fn measure(name: String, fold: &[u8], unit: &Prices) -> Finding {
    let (mut offsets, mut before) = ([0; MAX_NODES], [0; MAX_NODES]);
    let items = runfold::index(fold, &mut offsets, &mut before).expect("the fold is sound");
    let (offsets, before) = (&offsets[..items], &before[..items]);
    check(&name, fold, offsets, before);

    let mut run = [0; RUN_ROOM];
    let (mut to_offsets, mut to_before) = ([0; MAX_NODES], [0; MAX_NODES]);
    let Prices { steps, groups, marks, first, each } = unit;
    let mut unroll = || assert_eq!(raw::unroll(fold, MAX_WIDTH, &mut run, &mut [0; raw::ENTRIES]), 0);
    let mut read =
        || assert_eq!(raw::read_fold(fold, MAX_WIDTH, steps, groups, marks, *first, *each, &mut [0; raw::ENTRIES]), 0);
    let mut build = || assert_eq!(raw::index(fold, &mut to_offsets, &mut to_before, &mut [0; raw::ENTRIES]), 0);
    let find = |position| assert_eq!(raw::find(fold, offsets, before, position, &mut [0; raw::ENTRIES]), 0);

    // The first round also finds how many calls are timed at once.
    let mut unrolling = Least::new(&mut unroll);
    let mut reading = Least::new(&mut read);
    let mut building = Least::new(&mut build);
    let mut finding: Vec<Least> = (0..MAX_NODES as u64).map(|position| Least::new(|| find(position))).collect();
    for _ in 1..ROUNDS {
        unrolling.time(&mut unroll);
        reading.time(&mut read);
        building.time(&mut build);
        for (position, least) in (0..).zip(&mut finding) {
            least.time(|| find(position));
        }
    }
    Finding {
        fold: name,
        bytes: fold.len(),
        items,
        unrolling: unrolling.seconds,
        finding: finding.iter().map(|least| least.seconds).sum::<f64>() / MAX_NODES as f64,
        slowest: finding.iter().map(|least| least.seconds).fold(0.0, f64::max),
        reading: reading.seconds,
        building: building.seconds,
    }
}

/// Finding beside unrolling on every fold.
pub fn measure_all() -> Vec<Finding> {
    let unit = &price_sets()[0].1;
    folds(unit).into_iter().map(|(name, fold)| measure(name, &fold, unit)).collect()
}
