//! What the benchmark measured: the times of each family of runs at each size and prices, and what page and plot ask of them; and
//! the times of finding beside unrolling.

use crate::inputs::families::{Family, FOUND};
use runfold::MAX_NODES;

/// The times of one run in seconds: the folder's, then those of plain, transposed and blocked.
pub type Times = [f64; 4];

/// The nodes of the runs.
pub const SIZES: [usize; 4] = [128, 256, 512, MAX_NODES];

/// The times of a family at one size and price.
pub struct Row {
    pub family: &'static Family,
    pub nodes: usize,
    pub prices: &'static str,
    pub times: Times,
}

impl Row {
    /// The folder's part of each method's time.
    pub fn parts(&self) -> [f64; 3] {
        let [ours, theirs @ ..] = self.times;
        theirs.map(|time| ours / time)
    }

    pub fn is_of(&self, family: &Family, nodes: usize) -> bool {
        self.family.name == family.name && self.nodes == nodes
    }
}

/// The row where a number is highest.
pub fn highest<'a>(rows: impl Iterator<Item = &'a Row>, of: impl Fn(&Row) -> f64) -> &'a Row {
    rows.max_by(|a, b| of(a).total_cmp(&of(b))).expect("something was measured")
}

/// A family at one size, at the prices where the folder takes longest.
pub fn slowest<'a>(rows: &'a [Row], family: &Family, nodes: usize) -> &'a Row {
    highest(rows.iter().filter(|row| row.is_of(family, nodes)), |row| row.times[0])
}

pub fn is_found(family: &Family) -> bool {
    FOUND.iter().any(|found| found.name == family.name)
}

/// The power of n by which the folder's time grew between two sizes, at the slowest prices of each.
pub fn power(rows: &[Row], family: &Family, from: usize, to: usize) -> f64 {
    let [short, long] = [from, to].map(|nodes| slowest(rows, family, nodes).times[0]);
    (long / short).ln() / (to as f64 / from as f64).ln()
}

/// Finding beside unrolling on one fold of 1,024 nodes. Times are in seconds.
pub struct Finding {
    /// What the fold is.
    pub fold: String,
    pub bytes: usize,
    /// Its outermost items, which are the entries of its index.
    pub items: usize,
    pub unrolling: f64,
    /// The mean over all positions.
    pub finding: f64,
    /// The same at the position where it takes longest.
    pub slowest: f64,
    /// The fold reader.
    pub reading: f64,
    /// The index builder.
    pub building: f64,
}

impl Finding {
    /// The parts of unrolling's time that finding takes, in the mean and at the slowest position.
    pub fn parts(&self) -> [f64; 2] {
        [self.finding, self.slowest].map(|time| time / self.unrolling)
    }
}
