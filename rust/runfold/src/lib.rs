//! The run folder. A *run* is a record of steps and nested groups of steps, as bytes. A *fold* is the same run with nested
//! repeats, priced by the costs of steps, of groups and of repeats; a marked label stands in no repeat. The folder gives
//! the cheapest fold of a run, the fold reader reads a fold and gives its cost, the unroller gives the run back, and the finder
//! a single node of it, by an index that is kept beside the fold. A fold also has a *short form*, in which a repeat takes two
//! bytes less where its count and width are below 256: there are a reader and a folder of it, and both conversions. A run of a
//! whole *season* is flat, steps alone, and has up to 65,535 of them: it has readers, an unroller and a folder of its own.
//! `docs/FORMAT.md` has the bytes of runs and folds.
//!
//! ```
//! use runfold::{folded, unroll, Prices, MAX_WIDTH, RUN_ROOM};
//!
//! fn main() -> Result<(), Box<dyn std::error::Error>> {
//!     // aaa, three steps of label 01.
//!     let run = [0x10, 0x01, 0x10, 0x01, 0x10, 0x01];
//!     // Every step and every group costs 1, and so does a repeat of any count; no label is marked.
//!     let prices = Prices { steps: &[1; 256], groups: &[1; 256], marks: &[0; 256], first: 1, each: 0 };
//!
//!     // A repeat of count 3 and width 1 over one step.
//!     let (fold, cost) = folded(&run, MAX_WIDTH, prices)?;
//!     println!("cost {cost}, fold {fold:02X?}");
//!     assert_eq!(cost, 2);
//!     assert_eq!(fold, [0x20, 0x00, 0x03, 0x00, 0x01, 0x10, 0x01, 0x21]);
//!
//!     let mut back = [0; RUN_ROOM];
//!     let length = unroll(&fold, MAX_WIDTH, &mut back)?;
//!     assert_eq!(back[..length], run);
//!     Ok(())
//! }
//! ```
//!
//! # What is promised
//!
//! The functions behind this crate are compiled from proved Rattle code. Their contracts stand in `crates/embed/src/lib.rt`,
//! their proofs in `crates/embed/proofs` and the crates below it, and `docs/CERTIFICATE.md` lists what they promise: every
//! input has an answer, the one that the definitions give; a fold that the folder writes is a fold of its run within the width
//! limit and with no marked label in a repeat, and no other such fold is cheaper; of several cheapest it has the fewest
//! repeats, and of several such it is the one whose bytes come first; so it is with the season folder, which up to 1,024 steps
//! writes what the folder writes; the finder gives the node that unrolling writes at the position; a fold comes back from its
//! short form as it was; no function reads or writes outside the slices that it is lent.
//!
//! The library asks one thing of a caller: a slice that is written overlaps no other. That follows from the types here, so
//! every function is safe to call with any arguments. None keeps state, and they may run in several threads at once. With the
//! `librunfold.a` of this version none panics, unless memory for [`folded`] is short.
//!
//! Not proved are the compilers, the declarations in `src/declared.rs` and this wrapper, which only hands slices over and reads
//! the answer; `scripts/differential.sh` compares all of it with an independent implementation.
//!
//! # Memory
//!
//! Only [`folded`] allocates; the crate is `no_std`. [`fold`], [`fold_short`] and [`fold_season`] are lent their work and their
//! output, [`unroll`], [`unroll_season`], [`to_short`] and [`to_long`] their output, [`index`] the slices that it fills, and the
//! others need none. A call takes up to [`STACK`] bytes of stack; `docs/CERTIFICATE.md` has each function's own.
//!
//! # Linking
//!
//! The library is `librunfold.a`, for x86-64 Linux. `scripts/library.sh` proves it and builds it into `target/lib`, where the
//! build script looks for it; the environment variable `RUNFOLD_LIB_DIR` names another folder, such as that of an installation.

#![no_std]
#![warn(missing_docs)]

extern crate alloc;

mod declared;
pub mod raw;
mod refusal;

pub use refusal::Refusal;

use alloc::vec;
use alloc::vec::Vec;

/// The nodes of the longest run.
pub const MAX_NODES: usize = 1024;
/// The groups that may be open at a time.
pub const MAX_GROUPS: usize = 8;
/// The repeats that may be open at a time in a fold.
pub const MAX_REPEATS: usize = 10;
/// The highest width limit. No repeat of 1,024 nodes is wider, so this is no limit at all.
pub const MAX_WIDTH: usize = 1024;

/// The steps of the longest season run.
pub const SEASON_NODES: usize = 65_535;
/// The highest width limit for a season.
pub const SEASON_WIDTH: usize = 32;

/// The bytes that a run has at most, three a node: room for whatever the unroller writes.
pub const RUN_ROOM: usize = 3 * MAX_NODES;
/// The bytes that a season run has at most, two a step: room for whatever the season unroller writes.
pub const SEASON_RUN_ROOM: usize = 2 * SEASON_NODES;

/// The bytes that a fold of a run of that many nodes has at most, also where it is longer than the run, and a season fold too.
/// A short form is no longer.
pub const fn fold_room(nodes: usize) -> usize {
    nodes.saturating_mul(4)
}

/// The entries that each work slice of the folder needs for a run of that many nodes.
pub const fn work_entries(nodes: usize) -> usize {
    nodes.saturating_add(1).saturating_mul(nodes) / 2
}

/// The entries that the work slice of the season folder needs for a run of that many steps.
pub const fn season_work_entries(steps: usize) -> usize {
    steps.saturating_add(1).saturating_mul(256)
}

/// The bytes of stack that a call takes at most, as measured: what a thread that folds has to have left.
pub const STACK: usize = 98_304;

/// What steps, groups and repeats cost, and which labels may stand in no repeat.
///
/// ```
/// use runfold::{folded, read_fold, Prices, Refusal, MAX_WIDTH};
///
/// // Label 01 is that of a bag that is tipped by hand: a fold is to show it as often as the run does.
/// let mut marks = [0; 256];
/// marks[0x01] = 1;
/// let prices = Prices { steps: &[1; 256], groups: &[1; 256], marks: &marks, first: 1, each: 0 };
///
/// let run = [0x10, 0x01, 0x10, 0x01, 0x10, 0x01];
/// assert_eq!(folded(&run, MAX_WIDTH, prices)?, (run.to_vec(), 3));
/// let fold = [0x20, 0x00, 0x03, 0x00, 0x01, 0x10, 0x01, 0x21];
/// assert_eq!(read_fold(&fold, MAX_WIDTH, prices), Err(Refusal::MarkedInRepeat { place: 5 }));
/// # Ok::<(), Refusal>(())
/// ```
#[derive(Clone, Copy, Debug, PartialEq, Eq, Hash)]
pub struct Prices<'a> {
    /// What a step costs by its label, 256 entries; any other number of entries is [`Refusal::StepTableSize`].
    pub steps: &'a [u16],
    /// What a group costs by its label, beside what it holds, 256 entries; any other number is [`Refusal::GroupTableSize`].
    pub groups: &'a [u16],
    /// The marks of the labels, 256 entries: 1 for a label that may stand nowhere inside a repeat, be it a step's or a group's,
    /// and 0 for a free one. A marked group may hold repeats; a free group that holds a marked label may not be repeated. Any
    /// other number of entries, and any other entry, is [`Refusal::WrongMarks`].
    pub marks: &'a [u8],
    /// What a repeat of count 2 costs, beside its body.
    pub first: u16,
    /// What each count more costs: a repeat costs `first + each × (count − 2)`.
    pub each: u16,
}

/// What run reader and season run reader give.
#[derive(Clone, Copy, Debug, PartialEq, Eq, Hash)]
pub struct RunReading {
    /// The nodes of the run: its steps and its groups.
    pub nodes: usize,
    /// How many of them are steps.
    pub steps: usize,
    /// The most groups that are open together, 0 for a run without groups.
    pub depth: usize,
}

/// What fold reader, short reader and season reader give.
#[derive(Clone, Copy, Debug, PartialEq, Eq, Hash)]
pub struct FoldReading {
    /// The nodes of the run that the fold unrolls to.
    pub nodes: usize,
    /// The bytes of that run.
    pub length: usize,
    /// The fold's cost.
    pub cost: u64,
    /// How many nodes of that run are steps.
    pub steps: usize,
    /// The most groups of that run that are open together, 0 for a run without groups.
    pub depth: usize,
}

/// What the folders give.
#[derive(Clone, Copy, Debug, PartialEq, Eq, Hash)]
pub struct Folding {
    /// The bytes of the fold, written at the front of the output.
    pub length: usize,
    /// The fold's cost.
    pub cost: u64,
}

/// What kind of node it is: a step or a group.
#[derive(Clone, Copy, Debug, PartialEq, Eq, Hash)]
pub enum Kind {
    /// A step, command `10`.
    Step,
    /// A group, command `11`.
    Group,
}

/// What the finder gives.
#[derive(Clone, Copy, Debug, PartialEq, Eq, Hash)]
pub struct Found {
    /// Whether it is a step or a group.
    pub kind: Kind,
    /// Its label.
    pub label: u8,
    /// The offset of its command in the fold. All copies that a repeat makes of a node have the same one.
    pub offset: usize,
}

/// The refusal that a function answered, if any.
fn answered(status: u8, answer: &[u64; raw::ENTRIES]) -> Result<(), Refusal> {
    match status {
        0 => Ok(()),
        // The contracts allow no number but those of this version.
        _ => Err(Refusal::numbered(status, answer[raw::PLACE] as usize).expect("librunfold.a is of another version")),
    }
}

/// Reads a run and gives the number of its nodes, how many of them are steps, and the depth of its groups.
///
/// Refusals 1 to 5, 8 and 10.
///
/// ```
/// use runfold::{read_run, Refusal, RunReading};
///
/// // Two groups 05, each holding aaa, three steps of label 01.
/// let group = [0x11, 0x05, 0x10, 0x01, 0x10, 0x01, 0x10, 0x01, 0x12];
/// assert_eq!(read_run(&[group, group].concat())?, RunReading { nodes: 8, steps: 6, depth: 1 });
/// # Ok::<(), Refusal>(())
/// ```
pub fn read_run(run: &[u8]) -> Result<RunReading, Refusal> {
    let mut answer = [0; raw::ENTRIES];
    run_reading(raw::read_run(run, &mut answer), &answer)
}

/// What run reader or season run reader answered.
fn run_reading(status: u8, answer: &[u64; raw::ENTRIES]) -> Result<RunReading, Refusal> {
    answered(status, answer)?;
    Ok(RunReading {
        nodes: answer[raw::NODES] as usize,
        steps: answer[raw::STEPS] as usize,
        depth: answer[raw::DEPTH] as usize,
    })
}

/// The part of a node: the bytes of the step or group that starts at the offset `at`, with all it holds. Empty where
/// [`read_run`] refuses the run or no node starts there.
pub fn part(run: &[u8], at: usize) -> &[u8] {
    match raw::part(run, at) {
        0 => &[],
        length => &run[at..at + length],
    }
}

/// Reads a fold whose widths are at most `limit` and whose repeats hold no marked label, and gives the nodes, bytes, steps and
/// depth of its run and its cost at these prices.
///
/// Refusals 1, 3 to 12, 15, 18 and 19.
pub fn read_fold(fold: &[u8], limit: usize, prices: Prices) -> Result<FoldReading, Refusal> {
    let mut answer = [0; raw::ENTRIES];
    let Prices { steps, groups, marks, first, each } = prices;
    fold_reading(raw::read_fold(fold, limit, steps, groups, marks, first, each, &mut answer), &answer)
}

/// What a reader of folds answered.
fn fold_reading(status: u8, answer: &[u64; raw::ENTRIES]) -> Result<FoldReading, Refusal> {
    answered(status, answer)?;
    Ok(FoldReading {
        nodes: answer[raw::NODES] as usize,
        length: answer[raw::LENGTH] as usize,
        cost: answer[raw::COST],
        steps: answer[raw::STEPS] as usize,
        depth: answer[raw::DEPTH] as usize,
    })
}

/// Unrolls a fold whose widths are at most `limit`, and gives the length of its run.
///
/// The run then stands at the front of `out`, and what is behind it stays as it was; after a refusal all of `out` does.
/// [`RUN_ROOM`] bytes are always enough.
///
/// Refusals 1, 3 to 10, 12 and 14.
pub fn unroll(fold: &[u8], limit: usize, out: &mut [u8]) -> Result<usize, Refusal> {
    let mut answer = [0; raw::ENTRIES];
    answered(raw::unroll(fold, limit, out, &mut answer), &answer)?;
    Ok(answer[raw::LENGTH] as usize)
}

/// Folds a run: gives the cheapest fold whose widths are at most `limit` and whose repeats hold no marked label; of several,
/// the one with the fewest `20` commands, each counted once; and of several such, the one whose bytes come first.
///
/// `costs` and `choices` are work, of any contents; each needs [`work_entries`] of the run's nodes. [`fold_room`] of them is
/// always enough for `out`.
///
/// On success the fold stands at the front of `out`, and what is behind it stays as it was; after a refusal all of `out` does.
/// On success and after refusal 14 the entries of both work slices that the run needs are 0, and those behind them as they
/// were; after any other refusal all are as they were.
///
/// Refusals 1 to 5, 8, 10 to 15 and 18.
///
/// ```
/// use runfold::{fold, fold_room, work_entries, Folding, Prices, Refusal, MAX_WIDTH};
///
/// // Room for runs of 100 nodes, without an allocation.
/// const NODES: usize = 100;
/// let (mut costs, mut choices) = ([0; work_entries(NODES)], [0; work_entries(NODES)]);
/// let mut out = [0; fold_room(NODES)];
///
/// let run = [0x10, 0x01, 0x10, 0x01, 0x10, 0x01];
/// let prices = Prices { steps: &[1; 256], groups: &[1; 256], marks: &[0; 256], first: 1, each: 0 };
/// let folding = fold(&run, MAX_WIDTH, prices, &mut costs, &mut choices, &mut out)?;
/// assert_eq!(folding, Folding { length: 8, cost: 2 });
/// assert_eq!(out[..folding.length], [0x20, 0x00, 0x03, 0x00, 0x01, 0x10, 0x01, 0x21]);
/// # Ok::<(), Refusal>(())
/// ```
pub fn fold(
    run: &[u8],
    limit: usize,
    prices: Prices,
    costs: &mut [u32],
    choices: &mut [u32],
    out: &mut [u8],
) -> Result<Folding, Refusal> {
    let mut answer = [0; raw::ENTRIES];
    let Prices { steps, groups, marks, first, each } = prices;
    folding(raw::fold(run, limit, steps, groups, marks, first, each, costs, choices, out, &mut answer), &answer)
}

/// What a folder answered.
fn folding(status: u8, answer: &[u64; raw::ENTRIES]) -> Result<Folding, Refusal> {
    answered(status, answer)?;
    Ok(Folding { length: answer[raw::LENGTH] as usize, cost: answer[raw::COST] })
}

/// Folds a run as [`fold`] does, in memory of its own, and gives the bytes of the fold and its cost.
///
/// Refusals 1 to 5, 8, 10 to 12, 15 and 18.
pub fn folded(run: &[u8], limit: usize, prices: Prices) -> Result<(Vec<u8>, u64), Refusal> {
    // A refused run needs no memory: the folder below says which refusal comes first.
    let nodes = read_run(run).map_or(0, |reading| reading.nodes);
    let mut costs = vec![0; work_entries(nodes)];
    let mut choices = vec![0; work_entries(nodes)];
    let mut out = vec![0; fold_room(nodes)];
    let folding = fold(run, limit, prices, &mut costs, &mut choices, &mut out)?;
    out.truncate(folding.length);
    Ok((out, folding.cost))
}

/// Indexes a fold: writes for each of its outermost items, that is for each step, group and repeat that stands in nothing else,
/// its offset in the fold and the number of the run's nodes before it, and gives the number of these entries.
///
/// The index then stands at the front of `offsets` and `before`, and what is behind it stays as it was; after a refusal all of
/// both does. [`MAX_NODES`] entries in each are always enough. Kept beside the fold, it serves [`find`].
///
/// There are neither a width limit nor marks: what is not refused here, [`read_fold`] accepts at [`MAX_WIDTH`] where no label
/// is marked.
///
/// Refusals 1, 3 to 6, 8 to 10 and 14.
pub fn index(fold: &[u8], offsets: &mut [u32], before: &mut [u32]) -> Result<usize, Refusal> {
    let mut answer = [0; raw::ENTRIES];
    answered(raw::index(fold, offsets, before, &mut answer), &answer)?;
    Ok(answer[raw::INDEXED] as usize)
}

/// Finds a node of the run that a fold unrolls to, without unrolling it, by the index that [`index`] wrote for this fold: both
/// slices have the entries that it gave, and no others.
///
/// `position` counts the nodes of the run from 0, in the order of its bytes: a group comes right before what it holds.
///
/// Refusals 1, 3 to 6, 8 to 10, then 17, then 16.
///
/// ```
/// use runfold::{find, index, Found, Kind, Refusal, MAX_NODES};
///
/// // A step 01, then 300 times a step 02 and a group 05 that holds a step 03: 901 nodes.
/// let fold = [0x10, 0x01, 0x20, 0x01, 0x2C, 0x00, 0x02, 0x10, 0x02, 0x11, 0x05, 0x10, 0x03, 0x12, 0x21];
/// let (mut offsets, mut before) = ([0; MAX_NODES], [0; MAX_NODES]);
/// let entries = index(&fold, &mut offsets, &mut before)?;
/// let (offsets, before) = (&offsets[..entries], &before[..entries]);
/// assert_eq!((offsets, before), (&[0, 2][..], &[0, 1][..]));
///
/// assert_eq!(find(&fold, offsets, before, 700)?, Found { kind: Kind::Step, label: 0x02, offset: 7 });
/// assert_eq!(find(&fold, offsets, before, 701)?, Found { kind: Kind::Group, label: 0x05, offset: 9 });
/// assert_eq!(find(&fold, offsets, before, 901), Err(Refusal::PastEnd));
/// assert_eq!(find(&fold, offsets, &before[1..], 700), Err(Refusal::FalseIndex));
/// # Ok::<(), Refusal>(())
/// ```
pub fn find(fold: &[u8], offsets: &[u32], before: &[u32], position: u64) -> Result<Found, Refusal> {
    let mut answer = [0; raw::ENTRIES];
    answered(raw::find(fold, offsets, before, position, &mut answer), &answer)?;
    Ok(Found {
        kind: if answer[raw::COMMAND] == 0x10 { Kind::Step } else { Kind::Group },
        label: answer[raw::LABEL] as u8,
        offset: answer[raw::OFFSET] as usize,
    })
}

/// Reads a short fold as [`read_fold`] reads a fold: what it gives is what that gives for the fold that this is the short form
/// of.
///
/// In the short family a `22`, with one byte of count and one byte of width, opens a repeat wherever both are below 256, and a
/// `20` any other. No other function but [`to_long`] takes a `22`.
///
/// Refusals 1, 3 to 12, 15 and 18 to 20.
///
/// ```
/// use runfold::{read_short, Prices, Refusal, MAX_WIDTH};
///
/// let prices = Prices { steps: &[1; 256], groups: &[1; 256], marks: &[0; 256], first: 1, each: 0 };
/// // aaa, three steps of label 01: a repeat of count 3 and width 1.
/// let read = read_short(&[0x22, 0x03, 0x01, 0x10, 0x01, 0x21], MAX_WIDTH, prices)?;
/// assert_eq!((read.nodes, read.length, read.cost), (3, 6, 2));
/// // A fold is not its own short form where it has such a repeat.
/// let fold = [0x20, 0x00, 0x03, 0x00, 0x01, 0x10, 0x01, 0x21];
/// assert_eq!(read_short(&fold, MAX_WIDTH, prices), Err(Refusal::LongInShort { place: 0 }));
/// # Ok::<(), Refusal>(())
/// ```
pub fn read_short(fold: &[u8], limit: usize, prices: Prices) -> Result<FoldReading, Refusal> {
    let mut answer = [0; raw::ENTRIES];
    let Prices { steps, groups, marks, first, each } = prices;
    fold_reading(raw::read_short(fold, limit, steps, groups, marks, first, each, &mut answer), &answer)
}

/// Folds a run as [`fold`] does and writes the short form of that fold: gives the length of the short form, and the cost. That
/// it is shorter decides nothing about which fold it is.
///
/// Work and output are lent and left as there; refusal 14 comes where `out` has no room for the short form.
///
/// Refusals 1 to 5, 8, 10 to 15 and 18.
///
/// ```
/// use runfold::{fold_room, fold_short, work_entries, Folding, Prices, Refusal, MAX_WIDTH};
///
/// const NODES: usize = 3;
/// let (mut costs, mut choices) = ([0; work_entries(NODES)], [0; work_entries(NODES)]);
/// let mut out = [0; fold_room(NODES)];
///
/// let run = [0x10, 0x01, 0x10, 0x01, 0x10, 0x01];
/// let prices = Prices { steps: &[1; 256], groups: &[1; 256], marks: &[0; 256], first: 1, each: 0 };
/// let folding = fold_short(&run, MAX_WIDTH, prices, &mut costs, &mut choices, &mut out)?;
/// assert_eq!(folding, Folding { length: 6, cost: 2 });
/// assert_eq!(out[..folding.length], [0x22, 0x03, 0x01, 0x10, 0x01, 0x21]);
/// # Ok::<(), Refusal>(())
/// ```
pub fn fold_short(
    run: &[u8],
    limit: usize,
    prices: Prices,
    costs: &mut [u32],
    choices: &mut [u32],
    out: &mut [u8],
) -> Result<Folding, Refusal> {
    let mut answer = [0; raw::ENTRIES];
    let Prices { steps, groups, marks, first, each } = prices;
    folding(raw::fold_short(run, limit, steps, groups, marks, first, each, costs, choices, out, &mut answer), &answer)
}

/// Converts a fold to its short form, and gives the length of that.
///
/// The short form then stands at the front of `out`, and what is behind it stays as it was; after a refusal all of `out` does.
/// As many bytes as the fold has are always enough.
///
/// As with [`index`] there are neither a width limit nor marks.
///
/// Refusals 1, 3 to 6, 8 to 10 and 14.
///
/// ```
/// use runfold::{to_long, to_short, Refusal};
///
/// // 256 times a step 02 and three steps 03: a count of 256 has no room in a byte, one of 3 has.
/// let fold = [0x20, 0x01, 0x00, 0x00, 0x04, 0x10, 0x02, 0x20, 0x00, 0x03, 0x00, 0x01, 0x10, 0x03, 0x21, 0x21];
/// let mut short = [0; 16];
/// let length = to_short(&fold, &mut short)?;
/// assert_eq!(short[..length], [0x20, 0x01, 0x00, 0x00, 0x04, 0x10, 0x02, 0x22, 0x03, 0x01, 0x10, 0x03, 0x21, 0x21]);
///
/// let mut back = [0; 16];
/// assert_eq!(to_long(&short[..length], &mut back)?, 16);
/// assert_eq!(back, fold);
/// # Ok::<(), Refusal>(())
/// ```
pub fn to_short(fold: &[u8], out: &mut [u8]) -> Result<usize, Refusal> {
    let mut answer = [0; raw::ENTRIES];
    answered(raw::to_short(fold, out, &mut answer), &answer)?;
    Ok(answer[raw::LENGTH] as usize)
}

/// Converts a short fold to the fold that it is the short form of, and gives the length of that.
///
/// The fold then stands at the front of `out`, and what is behind it stays as it was; after a refusal all of `out` does.
/// [`fold_room`] of the run's nodes is always enough.
///
/// Refusals 1, 3 to 6, 8 to 10, 14 and 20.
pub fn to_long(fold: &[u8], out: &mut [u8]) -> Result<usize, Refusal> {
    let mut answer = [0; raw::ENTRIES];
    answered(raw::to_long(fold, out, &mut answer), &answer)?;
    Ok(answer[raw::LENGTH] as usize)
}

/// Reads a season run, which has steps alone and up to [`SEASON_NODES`] of them, and gives their number; the depth is 0.
///
/// Refusals 1 to 4, 10 and 21.
///
/// ```
/// use runfold::{read_season_run, Refusal, RunReading};
///
/// let run = [0x10, 0x01].repeat(2000);
/// assert_eq!(read_season_run(&run)?, RunReading { nodes: 2000, steps: 2000, depth: 0 });
/// // A group is refused where it opens, also where its label is missing.
/// assert_eq!(read_season_run(&[0x10, 0x01, 0x11]), Err(Refusal::GroupInSeason { place: 2 }));
/// # Ok::<(), Refusal>(())
/// ```
pub fn read_season_run(run: &[u8]) -> Result<RunReading, Refusal> {
    let mut answer = [0; raw::ENTRIES];
    run_reading(raw::read_season_run(run, &mut answer), &answer)
}

/// Reads a season fold, which has steps and repeats alone, as [`read_fold`] reads a fold: its widths are at most `limit`, which
/// is at most [`SEASON_WIDTH`], and its run has at most [`SEASON_NODES`] steps.
///
/// Refusals 1, 3 to 12, 15, 18, 19 and 21.
pub fn read_season(fold: &[u8], limit: usize, prices: Prices) -> Result<FoldReading, Refusal> {
    let mut answer = [0; raw::ENTRIES];
    let Prices { steps, groups, marks, first, each } = prices;
    fold_reading(raw::read_season(fold, limit, steps, groups, marks, first, each, &mut answer), &answer)
}

/// Unrolls a season fold as [`unroll`] does a fold, and gives the length of its run. [`SEASON_RUN_ROOM`] bytes are always
/// enough.
///
/// Refusals 1, 3 to 10, 12, 14 and 21.
pub fn unroll_season(fold: &[u8], limit: usize, out: &mut [u8]) -> Result<usize, Refusal> {
    let mut answer = [0; raw::ENTRIES];
    answered(raw::unroll_season(fold, limit, out, &mut answer), &answer)?;
    Ok(answer[raw::LENGTH] as usize)
}

/// Folds a season run: gives the cheapest fold whose widths are at most `limit`, which is at most [`SEASON_WIDTH`], in the order
/// of [`fold`]. Up to [`MAX_NODES`] steps its bytes are those that [`fold`] writes at the same limit and prices.
///
/// `work` may have any contents; it needs [`season_work_entries`] of the run's steps. [`fold_room`] of them is always enough
/// for `out`, which is written as there. On success and after refusal 14 the entries of `work` that the run needs are 0, and
/// those behind them as they were; after any other refusal all are as they were.
///
/// Refusals 1 to 4, 10 to 15, 18 and 21.
///
/// ```
/// use runfold::{fold_room, fold_season, season_work_entries, unroll_season};
/// use runfold::{Folding, Prices, Refusal, SEASON_NODES, SEASON_RUN_ROOM, SEASON_WIDTH};
///
/// // The longest run: ab, steps of labels 01 and 02, again and again, and an a.
/// let run = [[0x10, 0x01, 0x10, 0x02].repeat(SEASON_NODES / 2), vec![0x10, 0x01]].concat();
/// let mut work = vec![0; season_work_entries(SEASON_NODES)];
/// let mut out = vec![0; fold_room(SEASON_NODES)];
/// let prices = Prices { steps: &[1; 256], groups: &[1; 256], marks: &[0; 256], first: 1, each: 0 };
/// let folding = fold_season(&run, SEASON_WIDTH, prices, &mut work, &mut out)?;
/// // Of the folds for 4, all of one repeat, a plain step goes first: a, then ba 32,767 times.
/// let fold = [0x10, 0x01, 0x20, 0x7F, 0xFF, 0x00, 0x02, 0x10, 0x02, 0x10, 0x01, 0x21];
/// assert_eq!(folding, Folding { length: fold.len(), cost: 4 });
/// assert_eq!(out[..folding.length], fold);
///
/// let mut back = vec![0; SEASON_RUN_ROOM];
/// let length = unroll_season(&fold, SEASON_WIDTH, &mut back)?;
/// assert_eq!(back[..length], run);
/// # Ok::<(), Refusal>(())
/// ```
pub fn fold_season(
    run: &[u8],
    limit: usize,
    prices: Prices,
    work: &mut [u32],
    out: &mut [u8],
) -> Result<Folding, Refusal> {
    let mut answer = [0; raw::ENTRIES];
    let Prices { steps, groups, marks, first, each } = prices;
    folding(raw::fold_season(run, limit, steps, groups, marks, first, each, work, out, &mut answer), &answer)
}
