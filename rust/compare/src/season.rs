//! The independent implementation for whole seasons: readers and unroller are those of `reference` under other limits. The
//! folder goes over the run from its end, and takes bodies from the first independent folder, one for each stretch of labels
//! that is met. What is chosen at a step is chosen among all counts and widths, by cost, repeats, count and width.

use crate::inputs::families::steps;
use crate::reference::{cheapest, either, lend_work, read, run_of, terms, written};
use crate::reference::{Answer, Family, Limits, Prices, Ranked, Rules, Solved};
use std::collections::HashMap;

const SEASON: Limits = Limits { nodes: 65_535, width: 32, groups: false };

const RUN: Rules = Rules { limits: SEASON, family: None, limit: 0, prices: None };

fn fold_rules(limit: usize, prices: Option<&Prices>) -> Rules<'_> {
    Rules { limits: SEASON, family: Some(Family::Long), limit, prices }
}

/// The entries of work that a run of so many steps needs.
pub fn needed(steps: usize) -> usize {
    256 * steps + 256
}

/// The season run reader.
pub fn read_season_run(run: &[u8]) -> Answer {
    either(read(run, RUN).map(|a| Answer { length: 0, ..a }))
}

/// The season reader.
pub fn read_season(fold: &[u8], limit: usize, prices: &Prices) -> Answer {
    let rules = fold_rules(limit, Some(prices));
    either(terms(SEASON, limit, rules.prices).and_then(|()| read(fold, rules)))
}

/// What the season unroller has to write, or its refusal for another reason than too short an output.
pub fn unrolled(fold: &[u8], limit: usize) -> Result<Vec<u8>, Answer> {
    terms(SEASON, limit, None)?;
    read(fold, fold_rules(limit, None))?;
    Ok(run_of(fold))
}

/// The season unroller: its answer where the output has room for `room` bytes, and the bytes it writes.
pub fn unroll_season(fold: &[u8], limit: usize, room: usize) -> (Answer, Vec<u8>) {
    written(unrolled(fold, limit), room)
}

/// What follows for the season folder from run, limit and prices alone.
pub fn solve(run: &[u8], limit: usize, prices: &Prices) -> Result<Solved, Answer> {
    terms(SEASON, limit, Some(prices))?;
    let nodes = read(run, RUN)?.nodes;
    let labels: Vec<u8> = run.iter().skip(1).step_by(2).copied().collect();
    let Ranked { cost, bytes, .. } = cheapest_season(&labels, limit, prices);
    Ok(Solved { nodes, cost, bytes })
}

/// The season folder's answer for the lent slices' sizes: 13, then 14.
pub fn lend(solved: &Solved, work: usize, room: usize) -> (Answer, Vec<u8>) {
    lend_work(solved, work >= needed(solved.nodes), room)
}

/// What the fold of all steps from one on is chosen by, in this order, and how it begins: with a repeat, or where count and width
/// are 0 with the step.
#[derive(Clone, Copy, Default, PartialEq, Eq, PartialOrd, Ord)]
struct Rest {
    cost: u64,
    repeats: usize,
    count: usize,
    width: usize,
}

/// Where the repeats of a width may stop that begin at steps a multiple of it apart, in one stretch of equal steps.
#[derive(Clone, Copy, Default)]
struct Stops {
    /// The first step that has no equal one a width later: it tells the stretches apart.
    unequal: usize,
    /// The best place to stop at so far, by the cost of the rest and of a count for each width before it, then the rest's
    /// repeats, then the place itself.
    best: (u64, usize, usize),
}

/// The cheapest fold of a flat run.
pub fn cheapest_season(labels: &[u8], limit: usize, prices: &Prices) -> Ranked {
    let n = labels.len();
    let mut bodies: HashMap<&[u8], Ranked> = HashMap::new();
    // All that is left at each step, and at the end nothing.
    let mut rests = vec![Rest::default(); n + 1];
    // By the width: the first step from the present one on that has no equal one a width later, or that is marked.
    let mut unequal: Vec<usize> = (0..=limit).map(|width| n.saturating_sub(width)).collect();
    // By the width, and by what is left of the step divided by it.
    let mut stops: Vec<Vec<Stops>> =
        (0..=limit).map(|width| vec![Stops { unequal: usize::MAX, ..Stops::default() }; width]).collect();
    for i in (0..n).rev() {
        let mut best = Rest { cost: prices.step(labels[i]) + rests[i + 1].cost, count: 0, width: 0, ..rests[i + 1] };
        for width in 1..=limit.min(n - i) {
            if i + width >= n || labels[i] != labels[i + width] || prices.marked(labels[i]) {
                unequal[width] = i;
            }
            let most = (unequal[width] - i) / width + 1;
            if most < 2 {
                continue;
            }
            let stop = |count: usize| {
                let at = i + count * width;
                (rests[at].cost + prices.each as u64 * (at / width) as u64, rests[at].repeats, at)
            };
            let known = &mut stops[width][i % width];
            if known.unequal == unequal[width] {
                // All but the nearest were there a width later.
                known.best = known.best.min(stop(2));
            } else {
                let best = (2..=most).map(stop).min().expect("a count");
                *known = Stops { unequal: unequal[width], best };
            }
            let at = known.best.2;
            let count = (at - i) / width;
            let labels = &labels[i..i + width];
            let body = bodies.entry(labels).or_insert_with(|| cheapest(&steps(labels.iter().copied()), limit, prices));
            best = best.min(Rest {
                cost: prices.repeat(count) + body.cost + rests[at].cost,
                repeats: 1 + body.repeats + rests[at].repeats,
                count,
                width,
            });
        }
        rests[i] = best;
    }
    let mut bytes = Vec::new();
    let mut i = 0;
    while i < n {
        let Rest { count, width, .. } = rests[i];
        if count == 0 {
            bytes.extend([0x10, labels[i]]);
            i += 1;
            continue;
        }
        bytes.push(0x20);
        bytes.extend((count as u16).to_be_bytes());
        bytes.extend((width as u16).to_be_bytes());
        bytes.extend(&bodies[&labels[i..i + width]].bytes);
        bytes.push(0x21);
        i += count * width;
    }
    Ranked { cost: rests[0].cost, repeats: rests[0].repeats, bytes }
}
