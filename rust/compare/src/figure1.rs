//! The report's method, from a run's bytes to a fold's bytes: its Figure 1 in C (rust/compare/figure1, which scripts/figure1.sh
//! compiles) under its Figure 6 for groups. As it stands, with a transposed copy, and in blocks.

use crate::letters::Letters;
use crate::reference::Prices;
use runfold::MAX_NODES;
use std::mem::take;

const STRIDE: usize = 1040;

extern "C" {
    fn figure1_plain(
        n: usize,
        label: *const u32,
        weight: *const u32,
        first: u32,
        each: u32,
        l: *mut u32,
        kind: *mut u32,
    ) -> u32;
    fn figure1_transposed(
        n: usize,
        label: *const u32,
        weight: *const u32,
        first: u32,
        each: u32,
        l: *mut u32,
        t: *mut u32,
        matches: *mut u32,
    ) -> u32;
    fn figure1_blocked(
        n: usize,
        label: *const u32,
        weight: *const u32,
        first: u32,
        each: u32,
        l: *mut u32,
        matches: *mut u32,
    ) -> u32;
    fn figure1_seconds() -> f64;
}

/// The processor time of this thread.
pub fn seconds() -> f64 {
    // SAFETY: it reads a clock.
    unsafe { figure1_seconds() }
}

#[derive(Clone, Copy, PartialEq, Eq)]
pub enum Method {
    Plain,
    Transposed,
    Blocked,
}

/// One vector of a table.
#[derive(Clone, Copy)]
#[repr(align(64))]
struct Lane([u32; 16]);

/// The tables of the report's method, and what a sequence is listed in: allocated once and used again by every sequence.
pub struct Tables {
    method: Method,
    l: Vec<Lane>,
    /// The types of Figure 1, or the transposed copy.
    second: Vec<Lane>,
    matches: Vec<Lane>,
    letters: Letters,
    siblings: Siblings,
    /// The fold of a sequence while it is written.
    written: Vec<u8>,
}

/// The siblings of the sequences that are being listed, those of a group above those around it. Each has a letter, a weight and
/// the place of its fold, which goes up to the next one's.
#[derive(Default)]
struct Siblings {
    labels: Vec<u32>,
    weights: Vec<u32>,
    starts: Vec<usize>,
    folds: Vec<u8>,
}

impl Tables {
    pub fn new(method: Method) -> Tables {
        let table = |rows: usize| vec![Lane([0; 16]); rows * STRIDE / 16];
        Tables {
            method,
            l: table(STRIDE),
            second: table(STRIDE),
            matches: table(5),
            letters: Letters::default(),
            siblings: Siblings::default(),
            written: Vec::new(),
        }
    }

    fn length(&self, i: usize, j: usize) -> u32 {
        self.l[(i * STRIDE + j) / 16].0[(i * STRIDE + j) % 16]
    }

    fn kind(&self, i: usize, j: usize) -> usize {
        self.second[(i * STRIDE + j) / 16].0[(i * STRIDE + j) % 16] as usize
    }

    /// Fills the table for the siblings from `base` on, as a string of letters.
    fn fill(&mut self, base: usize, prices: &Prices) -> u32 {
        let (label, weight) = (&self.siblings.labels[base..], &self.siblings.weights[base..]);
        let n = label.len();
        assert!(n <= MAX_NODES && n == weight.len());
        let (first, each) = (prices.first as u32, prices.each as u32);
        let l = self.l.as_mut_ptr().cast::<u32>();
        let second = self.second.as_mut_ptr().cast::<u32>();
        let matches = self.matches.as_mut_ptr().cast::<u32>();
        let (label, weight) = (label.as_ptr(), weight.as_ptr());
        // SAFETY: n letters and weights, tables of 1,040 rows and a place of five rows for the matches.
        unsafe {
            match self.method {
                Method::Plain => figure1_plain(n, label, weight, first, each, l, second),
                Method::Transposed => figure1_transposed(n, label, weight, first, each, l, second, matches),
                Method::Blocked => figure1_blocked(n, label, weight, first, each, l, matches),
            }
        }
    }

    /// The report's MinimumRRT on a run, which knows no marks. Appends the fold and answers its cost.
    pub fn minimum(&mut self, run: &[u8], prices: &Prices, out: &mut Vec<u8>) -> u32 {
        self.letters.clear();
        let (cost, _) = self.sequence(run, 0, prices);
        out.append(&mut self.siblings.folds);
        cost
    }

    /// The sequence from an offset on: the groups' insides first, then the sequence as a string whose letters are its siblings.
    /// Appends its fold to the folds, and answers its cost and the offset behind it.
    fn sequence(&mut self, run: &[u8], mut at: usize, prices: &Prices) -> (u32, usize) {
        let (base, folds) = (self.siblings.labels.len(), self.siblings.folds.len());
        while at < run.len() && run[at] != 0x12 {
            let (begin, start) = (at, self.siblings.folds.len());
            let table = if run[at] == 0x11 { &prices.groups } else { &prices.steps };
            let mut weight = table[run[at + 1] as usize] as u32;
            self.siblings.folds.extend(&run[at..at + 2]);
            at += 2;
            if run[begin] == 0x11 {
                let (inside, end) = self.sequence(run, at, prices);
                weight += inside;
                self.siblings.folds.push(0x12);
                at = end + 1;
            }
            self.siblings.labels.push(self.letters.letter(run, begin, at));
            self.siblings.weights.push(weight);
            self.siblings.starts.push(start);
        }
        let siblings = self.siblings.labels.len() - base;
        let cost = if siblings == 0 { 0 } else { self.fold(base, siblings, prices) };
        self.siblings.labels.truncate(base);
        self.siblings.weights.truncate(base);
        self.siblings.starts.truncate(base);
        self.siblings.folds.truncate(folds);
        self.siblings.folds.append(&mut self.written);
        (cost, at)
    }

    /// Writes the fold of the siblings from `base` on, and answers its cost.
    fn fold(&mut self, base: usize, siblings: usize, prices: &Prices) -> u32 {
        let cost = self.fill(base, prices);
        let mut written = take(&mut self.written);
        let Siblings { labels, starts, folds, .. } = &self.siblings;
        let nodes = Nodes { labels: &labels[base..], starts: &starts[base..], folds };
        self.construct(&nodes, prices, 0, siblings - 1, &mut written);
        self.written = written;
        cost
    }

    /// Writes the representation of the letters i to j.
    fn construct(&self, nodes: &Nodes, prices: &Prices, i: usize, j: usize, out: &mut Vec<u8>) {
        if i == j {
            let end = nodes.starts.get(i + 1).copied().unwrap_or(nodes.folds.len());
            out.extend(&nodes.folds[nodes.starts[i]..end]);
            return;
        }
        let width = if self.method == Method::Plain {
            let kind = self.kind(i, j);
            (kind >> 16 == 1).then_some(kind & 0xFFFF)
        } else {
            self.repeat_at(nodes, prices, i, j)
        };
        if let Some(width) = width {
            out.push(0x20);
            out.extend((((j - i + 1) / width) as u16).to_be_bytes());
            out.extend((width as u16).to_be_bytes());
            self.construct(nodes, prices, i, i + width - 1, out);
            out.push(0x21);
            return;
        }
        let cut = if self.method == Method::Plain {
            i + (self.kind(i, j) & 0xFFFF)
        } else {
            (i..j).find(|&k| self.length(i, k) + self.length(k + 1, j) == self.length(i, j)).unwrap()
        };
        self.construct(nodes, prices, i, cut, out);
        self.construct(nodes, prices, cut + 1, j, out);
    }

    /// The width at which the letters i to j are cheapest as one repeat, if they are.
    fn repeat_at(&self, nodes: &Nodes, prices: &Prices, i: usize, j: usize) -> Option<usize> {
        let d = j - i + 1;
        (1..=d / 2).find(|&w| {
            let price = prices.first as u32 + prices.each as u32 * (d / w - 2) as u32;
            d.is_multiple_of(w)
                && self.length(i, i + w - 1) + price == self.length(i, j)
                && nodes.labels[i..=j - w] == nodes.labels[i + w..=j]
        })
    }
}

/// The siblings of a sequence: equal ones have equal labels; the fold of each.
struct Nodes<'a> {
    labels: &'a [u32],
    folds: &'a [u8],
    starts: &'a [usize],
}
