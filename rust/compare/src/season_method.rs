//! The season folder's own method in plain Rust, for the benchmark to measure the library beside: what the proof and its compiler
//! leave of the speed that such code has by itself. It is compared with the independent implementation, and takes no part in
//! comparing the library.
//!
//! Work is a block of 256 entries for each step and one for the end. A slot is three entries: cost, repeats and choice, which is
//! 64 times a count and a width, or 0 for a plain step. In the block of a step, slot d up to 32 has the cheapest fold of d steps
//! from there on, slot 33 that of all that are left, and slot 33 + w the best count of a repeat of width w.

use crate::reference::Prices;

const BLOCK: usize = 256;
const TAIL: usize = 33;
const WIDTHS: usize = 32;
const STEPS: usize = 65_535;

/// The entries of a slot.
#[derive(Clone, Copy, Default)]
struct Slot {
    cost: u32,
    repeats: u32,
    choice: u32,
}

fn load(work: &[u32], step: usize, slot: usize) -> Slot {
    let at = BLOCK * step + 3 * slot;
    let entries = &work[at..at + 3];
    Slot { cost: entries[0], repeats: entries[1], choice: entries[2] }
}

fn store(work: &mut [u32], step: usize, slot: usize, Slot { cost, repeats, choice }: Slot) {
    let at = BLOCK * step + 3 * slot;
    work[at..at + 3].copy_from_slice(&[cost, repeats, choice]);
}

/// Cost and repeats in one number, which the cost decides first. Those of two slots add up.
fn rank(Slot { cost, repeats, .. }: Slot) -> u64 {
    u64::from(cost) * 65_536 + u64::from(repeats)
}

/// The least so far.
#[derive(Clone, Copy)]
struct Least {
    rank: u64,
    choice: u32,
}

impl Least {
    fn or(&mut self, rank: u64, choice: u32) {
        if (rank, choice) < (self.rank, self.choice) {
            *self = Least { rank, choice };
        }
    }

    fn slot(self) -> Slot {
        Slot { cost: (self.rank / 65_536) as u32, repeats: (self.rank % 65_536) as u32, choice: self.choice }
    }
}

/// The refusals that come before 13, or the steps of the run.
fn check(run: &[u8], limit: usize, prices: &Prices) -> Result<usize, (u8, usize)> {
    if prices.steps.len() != 256 {
        return Err((11, 0));
    }
    if prices.groups.len() != 256 {
        return Err((15, 0));
    }
    if limit > WIDTHS {
        return Err((12, 0));
    }
    if prices.marks.len() != 256 || prices.marks.iter().any(|&mark| mark > 1) {
        return Err((18, 0));
    }
    for (step, command) in run.chunks(2).enumerate() {
        let place = 2 * step;
        match command {
            [0x10, _] if step < STEPS => {}
            [0x10, _] => return Err((10, place)),
            [0x10] => return Err((3, run.len())),
            [0x11, ..] => return Err((21, place)),
            [0x12, ..] => return Err((4, place)),
            [0x20 | 0x21, ..] => return Err((2, place)),
            _ => return Err((1, place)),
        }
    }
    Ok(run.len() / 2)
}

/// Folds a season run: the length and the cost, or a refusal and its place.
pub fn fold_season(
    run: &[u8],
    limit: usize,
    prices: &Prices,
    work: &mut [u32],
    out: &mut [u8],
) -> Result<(usize, u64), (u8, usize)> {
    let n = check(run, limit, prices)?;
    let work = work.get_mut(..BLOCK * (n + 1)).ok_or((13, 0))?;
    fill(run, n, limit, prices, work);
    let length = tail_length(work, n);
    let cost = load(work, 0, TAIL).cost;
    let answer = match out.get_mut(..length) {
        Some(out) => {
            write_tail(run, work, n, out);
            Ok((length, u64::from(cost)))
        }
        None => Err((14, 0)),
    };
    work.fill(0);
    answer
}

/// Fills the blocks from the last step to the first.
fn fill(run: &[u8], n: usize, limit: usize, prices: &Prices, work: &mut [u32]) {
    let repeats = Repeats { first: u64::from(prices.first) * 65_536 + 1, each: u64::from(prices.each) * 65_536 };
    // By the width, from 1 on: how many steps from the present one on equal those a width later, all of them free.
    let mut matches = [0; WIDTHS];
    store(work, n, 0, Slot::default());
    store(work, n, TAIL, Slot::default());
    for i in (0..n).rev() {
        let label = run[2 * i + 1];
        let free = prices.marks[label as usize] == 0;
        for (width, matched) in (1..=limit).zip(&mut matches) {
            let equal = free && i + width < n && run[2 * (i + width) + 1] == label;
            *matched = if equal { *matched + 1 } else { 0 };
        }
        let own = u64::from(prices.steps[label as usize]) * 65_536;
        store(work, i, 0, Slot::default());
        for d in 1..=limit.min(n - i) {
            let found = repeats.stretch(work, i, d, &matches, own);
            store(work, i, d, found);
        }
        let found = repeats.tail(work, i, &matches[..limit], own);
        store(work, i, TAIL, found);
    }
}

/// What a repeat of count 2 adds to the rank of its body, and what each count more does.
struct Repeats {
    first: u64,
    each: u64,
}

impl Repeats {
    /// The cheapest fold of d steps from one on, whose own rank is given.
    fn stretch(&self, work: &[u32], i: usize, d: usize, matches: &[usize], own: u64) -> Slot {
        let mut least = Least { rank: own + rank(load(work, i + 1, d - 1)), choice: 0 };
        for (width, &matched) in (1..=d / 2).zip(matches) {
            if matched < width {
                continue;
            }
            let body = rank(load(work, i, width));
            let (mut count, mut price) = (2, self.first);
            while count * width <= d && matched >= (count - 1) * width {
                let rest = rank(load(work, i + count * width, d - count * width));
                least.or(price + body + rest, (count * 64 + width) as u32);
                count += 1;
                price += self.each;
            }
        }
        least.slot()
    }

    /// The cheapest fold of all steps from one on; stores the best count of each width.
    fn tail(&self, work: &mut [u32], i: usize, matches: &[usize], own: u64) -> Slot {
        let mut least = Least { rank: own + rank(load(work, i + 1, TAIL)), choice: 0 };
        for (width, &matched) in (1..).zip(matches) {
            if matched < width {
                continue;
            }
            let mut best = Least { rank: rank(load(work, i + 2 * width, TAIL)), choice: 2 };
            if matched >= 2 * width {
                let more = load(work, i + width, TAIL + width);
                best.or(self.each + rank(more), more.choice + 1);
            }
            store(work, i, TAIL + width, best.slot());
            least.or(self.first + rank(load(work, i, width)) + best.rank, best.choice * 64 + width as u32);
        }
        least.slot()
    }
}

/// Count and width of the repeat that a fold begins with, by its choice; none where it begins with a plain step.
fn repeat(choice: u32) -> Option<(usize, usize)> {
    (choice != 0).then_some((choice as usize / 64, choice as usize % 64))
}

/// The length of all from the first step on.
fn tail_length(work: &[u32], n: usize) -> usize {
    let (mut i, mut length) = (0, 0);
    while i < n {
        let (steps, bytes) = item_length(work, i, TAIL);
        i += steps;
        length += bytes;
    }
    length
}

/// The length of d steps from one on.
fn stretch_length(work: &[u32], mut i: usize, d: usize) -> usize {
    let (end, mut length) = (i + d, 0);
    while i < end {
        let (steps, bytes) = item_length(work, i, end - i);
        i += steps;
        length += bytes;
    }
    length
}

/// The steps and the length of the item that the fold of a slot begins with.
fn item_length(work: &[u32], i: usize, slot: usize) -> (usize, usize) {
    match repeat(load(work, i, slot).choice) {
        None => (1, 2),
        Some((count, width)) => (count * width, 6 + stretch_length(work, i, width)),
    }
}

fn write_tail(run: &[u8], work: &[u32], n: usize, out: &mut [u8]) {
    let (mut i, mut at) = (0, 0);
    while i < n {
        i += write_item(run, work, i, TAIL, out, &mut at);
    }
}

fn write_stretch(run: &[u8], work: &[u32], mut i: usize, d: usize, out: &mut [u8], at: &mut usize) {
    let end = i + d;
    while i < end {
        i += write_item(run, work, i, end - i, out, at);
    }
}

/// Writes the item that the fold of a slot begins with, and answers its steps; goes on to the place behind what is written.
fn write_item(run: &[u8], work: &[u32], i: usize, slot: usize, out: &mut [u8], at: &mut usize) -> usize {
    let Some((count, width)) = repeat(load(work, i, slot).choice) else {
        out[*at..*at + 2].copy_from_slice(&run[2 * i..2 * i + 2]);
        *at += 2;
        return 1;
    };
    out[*at] = 0x20;
    out[*at + 1..*at + 3].copy_from_slice(&(count as u16).to_be_bytes());
    out[*at + 3..*at + 5].copy_from_slice(&(width as u16).to_be_bytes());
    *at += 5;
    write_stretch(run, work, i, width, out, at);
    out[*at] = 0x21;
    *at += 1;
    count * width
}
