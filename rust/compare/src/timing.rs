//! Timing the folder and the report's method on the same bytes, for the benchmark and the climber: every cost is compared,
//! and every fold is read back and unrolled.

use crate::figure1::{seconds, Method, Tables};
use crate::measured::Times;
use crate::reference::{self, Prices};
use runfold::{fold_room, raw, work_entries, MAX_NODES, MAX_WIDTH};

/// The report's method in the order of their times.
pub const METHODS: [Method; 3] = [Method::Plain, Method::Transposed, Method::Blocked];

/// The memory of all methods, allocated once.
pub struct Bench {
    costs: Vec<u32>,
    choices: Vec<u32>,
    out: Vec<u8>,
    methods: [Tables; 3],
    /// The fold that was written last.
    fold: Vec<u8>,
    /// How many folds were read back.
    pub checked: usize,
}

impl Default for Bench {
    fn default() -> Bench {
        let entries = work_entries(MAX_NODES);
        Bench {
            costs: vec![0; entries],
            choices: vec![0; entries],
            out: vec![0; fold_room(MAX_NODES)],
            methods: METHODS.map(Tables::new),
            fold: Vec::new(),
            checked: 0,
        }
    }
}

impl Bench {
    /// Folds a run with the library: the time and the cost.
    pub fn ours(&mut self, run: &[u8], prices: &Prices) -> (f64, u64) {
        let mut answer = [0; raw::ENTRIES];
        let start = seconds();
        let status = raw::fold(
            run,
            MAX_WIDTH,
            &prices.steps,
            &prices.groups,
            &prices.marks,
            prices.first,
            prices.each,
            &mut self.costs,
            &mut self.choices,
            &mut self.out,
            &mut answer,
        );
        let time = seconds() - start;
        assert_eq!(status, 0, "the folder refuses a run of the benchmark");
        self.fold.clear();
        self.fold.extend(&self.out[..answer[raw::LENGTH] as usize]);
        (time, answer[raw::COST])
    }

    /// Folds it with a form of the report's method.
    pub fn theirs(&mut self, method: Method, run: &[u8], prices: &Prices) -> (f64, u64) {
        self.fold.clear();
        let start = seconds();
        let cost = self.methods[method as usize].minimum(run, prices, &mut self.fold);
        (seconds() - start, cost as u64)
    }

    /// Reads back the fold that was written last, and holds its cost to another's. Answers the fold.
    pub fn check(&mut self, name: &str, run: &[u8], prices: &Prices, cost: u64, other: u64) -> &[u8] {
        assert_eq!(cost, other, "{name}: the methods differ in cost");
        let read = reference::read_fold(&self.fold, MAX_WIDTH, prices);
        assert!(read.refusal == 0 && read.cost == cost, "{name}: the fold does not cost what was said");
        assert!(reference::run_of(&self.fold) == run, "{name}: the fold is not one of the run");
        self.checked += 1;
        &self.fold
    }

    /// The lowest times of several rounds; in each round every method runs once, one after the other. On long runs the plain
    /// method is slow and steady: it has `plain` rounds there.
    pub fn measure(&mut self, name: &str, run: &[u8], prices: &Prices, plain: usize) -> Times {
        let long = run.len() > 600;
        let mut times = [f64::INFINITY; 4];
        let (mut began, mut round) = (0.0, 0);
        while round < 5 || (seconds() - began < 0.25 && round < 200) {
            if round == 1 {
                began = seconds();
            }
            let (time, ours) = self.ours(run, prices);
            times[0] = times[0].min(time);
            if round == 0 {
                self.check(name, run, prices, ours, ours);
            }
            for method in METHODS {
                if method == Method::Plain && long && round >= plain {
                    continue;
                }
                let (time, theirs) = self.theirs(method, run, prices);
                times[1 + method as usize] = times[1 + method as usize].min(time);
                if round == 0 {
                    self.check(name, run, prices, theirs, ours);
                }
            }
            round += 1;
        }
        times
    }

    /// What clearing both work slices takes by itself, in the state that the other methods leave the caches in.
    pub fn clearing(&mut self, run: &[u8], prices: &Prices) -> f64 {
        let mut least = f64::INFINITY;
        for _ in 0..20 {
            for method in &METHODS[1..] {
                self.theirs(*method, run, prices);
            }
            let start = seconds();
            self.costs.fill(0);
            self.choices.fill(0);
            std::hint::black_box((&mut self.costs, &mut self.choices));
            least = least.min(seconds() - start);
        }
        least
    }
}
