//! Timing the season folder, for the benchmark: beside its own method in plain Rust and, where the run is short enough, beside
//! the first folder. All three run in turn on the same bytes; every fold is held to the others and read back.

use crate::figure1::seconds;
use crate::inputs::{flat_bytes, marking, price_sets, word, Random};
use crate::reference::{run_of, Prices};
use crate::{season, season_method};
use runfold::{fold_room, raw, season_work_entries, work_entries, MAX_NODES, SEASON_NODES, SEASON_WIDTH};
use std::fmt::Write;

/// The steps of the runs.
const SIZES: [usize; 4] = [MAX_NODES, 4096, 16_384, SEASON_NODES];

/// In a round each folder runs once: so many rounds at least, and more while they take less than so many seconds.
const ROUNDS: usize = 7;
const SECONDS: f64 = 0.3;
const MOST_ROUNDS: usize = 200;

/// The runs by what they are: a word, or so many labels at random.
enum Make {
    Word(&'static str),
    Random(usize),
}

struct Family {
    name: &'static str,
    make: Make,
    /// Whether label 0 is marked.
    marked: bool,
}

const FAMILIES: [Family; 9] = [
    Family { name: "random, 2 labels", make: Make::Random(2), marked: false },
    Family { name: "random, 4 labels", make: Make::Random(4), marked: false },
    Family { name: "random, 256 labels", make: Make::Random(256), marked: false },
    Family { name: "random, 4 labels, one marked", make: Make::Random(4), marked: true },
    Family { name: "one label", make: Make::Word("a^n"), marked: false },
    Family { name: "period 7", make: Make::Word("(abacabd)^n"), marked: false },
    Family { name: "period 32", make: Make::Word("(aabaabaabcaabaabaabcdddddaabcabc)^n"), marked: false },
    Family { name: "nested periods, 21", make: Make::Word("(((aab)^3 c)^2 d)^n"), marked: false },
    Family { name: "stretches of a and b, 40 each", make: Make::Word("(a^40 b^40)^n"), marked: false },
];

impl Family {
    fn run(&self, steps: usize) -> Vec<u8> {
        let r = &mut Random::new(steps as u64);
        flat_bytes(&match self.make {
            Make::Word(text) => word(text, steps),
            Make::Random(labels) => (0..steps).map(|_| r.below(labels) as u8).collect(),
        })
    }
}

/// The lowest times of a run in seconds: the season folder's, its method's and the first folder's, where that takes it.
#[derive(Clone, Copy)]
struct Times {
    steps: usize,
    season: f64,
    method: f64,
    first: Option<f64>,
}

impl Times {
    /// The season folder's time a step, in nanoseconds.
    fn a_step(&self) -> f64 {
        self.season / self.steps as f64 * 1e9
    }

    /// The parts that it takes of the others' times.
    fn of_method(&self) -> f64 {
        self.season / self.method
    }

    fn of_first(&self) -> Option<f64> {
        self.first.map(|first| self.season / first)
    }
}

/// The memory of all folders, allocated once.
struct Bench {
    work: Vec<u32>,
    out: Vec<u8>,
    costs: Vec<u32>,
    choices: Vec<u32>,
}

/// A fold's bytes and cost, and the time it took.
type Folded = (Vec<u8>, u64, f64);

impl Bench {
    fn new() -> Bench {
        let [costs, choices] = [0; 2].map(|entry| vec![entry; work_entries(MAX_NODES)]);
        let (work, out) = (vec![0; season_work_entries(SEASON_NODES)], vec![0; fold_room(SEASON_NODES)]);
        Bench { work, out, costs, choices }
    }

    fn season(&mut self, run: &[u8], prices: &Prices) -> Folded {
        let mut answer = [0; raw::ENTRIES];
        let Prices { steps, groups, marks, first, each } = prices;
        let (work, out) = (&mut self.work[..], &mut self.out[..]);
        let start = seconds();
        let status = raw::fold_season(run, SEASON_WIDTH, steps, groups, marks, *first, *each, work, out, &mut answer);
        let time = seconds() - start;
        assert_eq!(status, 0, "the season folder refuses a run of the benchmark");
        (out[..answer[raw::LENGTH] as usize].to_vec(), answer[raw::COST], time)
    }

    fn method(&mut self, run: &[u8], prices: &Prices) -> Folded {
        let start = seconds();
        let folded = season_method::fold_season(run, SEASON_WIDTH, prices, &mut self.work, &mut self.out);
        let time = seconds() - start;
        let (length, cost) = folded.expect("a run of the benchmark");
        (self.out[..length].to_vec(), cost, time)
    }

    fn first(&mut self, run: &[u8], prices: &Prices) -> Folded {
        let mut answer = [0; raw::ENTRIES];
        let Prices { steps, groups, marks, first, each } = prices;
        let (costs, choices, out) = (&mut self.costs[..], &mut self.choices[..], &mut self.out[..]);
        let start = seconds();
        let status =
            raw::fold(run, SEASON_WIDTH, steps, groups, marks, *first, *each, costs, choices, out, &mut answer);
        let time = seconds() - start;
        assert_eq!(status, 0, "the folder refuses a run of the benchmark");
        (out[..answer[raw::LENGTH] as usize].to_vec(), answer[raw::COST], time)
    }

    fn measure(&mut self, name: &str, run: &[u8], prices: &Prices) -> Times {
        let steps = run.len() / 2;
        let mut times = Times { steps, season: f64::INFINITY, method: f64::INFINITY, first: None };
        let (mut spent, mut round) = (0.0, 0);
        while round < ROUNDS || (spent < SECONDS && round < MOST_ROUNDS) {
            // Each goes first in every second round: what runs before a folder decides what it finds in the caches.
            let (ours, theirs) = if round % 2 == 0 {
                let ours = self.season(run, prices);
                (ours, self.method(run, prices))
            } else {
                let theirs = self.method(run, prices);
                (self.season(run, prices), theirs)
            };
            let ((fold, cost, season), (other, other_cost, method)) = (ours, theirs);
            assert!((&fold, cost) == (&other, other_cost), "{name}: another fold by the method");
            times.season = times.season.min(season);
            times.method = times.method.min(method);
            spent += season + method;
            if steps <= MAX_NODES {
                let (other, other_cost, first) = self.first(run, prices);
                assert!((&fold, cost) == (&other, other_cost), "{name}: another fold by the first folder");
                times.first = Some(times.first.unwrap_or(first).min(first));
                spent += first;
            }
            if round == 0 {
                let read = season::read_season(&fold, SEASON_WIDTH, prices);
                assert!(read.refusal == 0 && read.cost == cost, "{name}: the fold does not cost what was said");
                assert!(run_of(&fold) == run, "{name}: the fold is not one of the run");
            }
            round += 1;
        }
        times
    }

    /// What clearing the work takes by itself, in nanoseconds a step of the longest run.
    fn clearing(&mut self) -> f64 {
        let mut least = f64::INFINITY;
        for _ in 0..ROUNDS {
            self.work.fill(9);
            let start = seconds();
            self.work.fill(0);
            std::hint::black_box(&mut self.work);
            least = least.min(seconds() - start);
        }
        least / SEASON_NODES as f64 * 1e9
    }
}

/// What was measured of a family at one prices, by size.
struct Row {
    family: &'static str,
    prices: &'static str,
    times: [Times; SIZES.len()],
}

impl Row {
    /// The time a step of the longest run, as a part of that of the shortest.
    fn growth(&self) -> f64 {
        let [short, .., long] = &self.times;
        long.a_step() / short.a_step()
    }

    /// The part of the method's time, at the size where it is highest.
    fn of_method(&self) -> f64 {
        self.times.iter().map(Times::of_method).fold(0.0, f64::max)
    }

    fn of_first(&self) -> f64 {
        self.times[0].of_first().expect("the first folder takes the shortest")
    }
}

fn table(rows: &[Row]) -> String {
    let mut table = String::from(
        "| run | prices | ns a step at 1,024 | 4,096 | 16,384 | 65,535 | last by first | of plain Rust at 1,024 | 4,096 | 16,384 | 65,535 | of the folder at 1,024 |\n",
    );
    table += "|---|---|---:|---:|---:|---:|---:|---:|---:|---:|---:|---:|\n";
    for row in rows {
        let _ = write!(table, "| {} | {} |", row.family, row.prices);
        for times in &row.times {
            let _ = write!(table, " {:.0} |", times.a_step());
        }
        let _ = write!(table, " {:.2} |", row.growth());
        for times in &row.times {
            let _ = write!(table, " {:.2} |", times.of_method());
        }
        let _ = writeln!(table, " {:.3} |", row.of_first());
    }
    table
}

/// A number's range over the rows, with where it is highest.
fn range(rows: &[Row], of: impl Fn(&Row) -> f64) -> String {
    let lowest = rows.iter().map(&of).fold(f64::INFINITY, f64::min);
    let highest = rows.iter().max_by(|a, b| of(a).total_cmp(&of(b))).expect("something was measured");
    format!("{lowest:.3} to {:.3}, highest on {} at {} prices", of(highest), highest.family, highest.prices)
}

/// Measures every family at every size, and says how and what.
pub fn report() -> String {
    let mut bench = Bench::new();
    let sets = price_sets();
    let mut rows = Vec::new();
    for (prices, set) in [&sets[0], &sets[3]] {
        for family in &FAMILIES {
            let lent = Prices { marks: marking(|label| family.marked && label == 0), ..set.clone() };
            let times = SIZES.map(|steps| bench.measure(family.name, &family.run(steps), &lent));
            rows.push(Row { family: family.name, prices, times });
        }
    }
    let clearing = bench.clearing();
    let mut text = format!(
        "The season folder at limit 32, beside its method in plain Rust and, at 1,024 steps, beside the folder at limit 32. In a \
         round each of them runs once, one after the other, on the same bytes, and the first two in the same work and in turn \
         first; a time is the lowest of at least {ROUNDS} rounds, in processor time of the thread. Every fold is held to the \
         others', and read back once.\n\n"
    );
    text += &table(&rows);
    let _ = writeln!(text, "\ntime a step, 65,535 steps by 1,024: {}", range(&rows, Row::growth));
    let _ = writeln!(
        text,
        "part of the time of plain Rust, at the size where it is highest: {}",
        range(&rows, Row::of_method)
    );
    let _ = writeln!(text, "part of the folder's time at 1,024 steps: {}", range(&rows, Row::of_first));
    let _ = write!(
        text,
        "work: 256 entries a step, 1,024 bytes, all of which is cleared; clearing that of 65,535 steps takes {clearing:.0} ns a step by itself"
    );
    text
}
