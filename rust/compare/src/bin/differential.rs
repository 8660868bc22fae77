//! Compares the library with the independent implementation on many inputs, short and long, sound and damaged. Every answer,
//! every byte of the lent output and every entry of the lent work and index is compared, also those that a call must leave alone.
//!
//! Usage: `differential [SEED [SCALE]]`. One seed and scale give one run. The first difference ends it and prints its input.

#[path = "differential/season.rs"]
mod season;
#[path = "differential/short.rs"]
mod short;

use compare::inputs::{self, depth, marking, Random};
use compare::reference::{self, decode, Answer, Family, Item, Listed, Prices, Ranked, Solved};
use runfold::raw::{self, ENTRIES, SHORT};
use runfold::{work_entries, MAX_NODES, MAX_WIDTH, RUN_ROOM, SEASON_WIDTH};
use season::Seasons;
use std::collections::HashMap;
use std::fmt::Write;
use std::process::exit;
use std::time::Instant;

/// The entry points, in the order of the counts.
#[derive(Clone, Copy, PartialEq, Eq)]
enum Entry {
    Run,
    Part,
    Fold,
    Unroll,
    Folder,
    Index,
    Find,
    ShortFold,
    ShortFolder,
    ToShort,
    ToLong,
    SeasonRun,
    SeasonFold,
    SeasonUnroll,
    SeasonFolder,
}

use Entry::*;

const ENTRY_NAMES: [&str; 15] = [
    "run reader",
    "part of a node",
    "fold reader",
    "unroller",
    "folder",
    "index builder",
    "finder",
    "short reader",
    "short folder",
    "to short form",
    "to long form",
    "season run reader",
    "season reader",
    "season unroller",
    "season folder",
];

impl Entry {
    fn name(self) -> &'static str {
        ENTRY_NAMES[self as usize]
    }

    /// The command family of what it reads.
    fn family(self) -> Family {
        match self {
            ShortFold | ToLong => Family::Short,
            _ => Family::Long,
        }
    }

    fn is_of_season(self) -> bool {
        [SeasonRun, SeasonFold, SeasonUnroll, SeasonFolder].contains(&self)
    }
}

/// One more than the highest refusal.
const NUMBERS: usize = 22;

/// The refusals that each entry point can give.
const POSSIBLE: [&[u8]; 15] = [
    &[1, 2, 3, 4, 5, 8, 10],
    &[],
    &[1, 3, 4, 5, 6, 7, 8, 9, 10, 11, 12, 15, 18, 19],
    &[1, 3, 4, 5, 6, 7, 8, 9, 10, 12, 14],
    &[1, 2, 3, 4, 5, 8, 10, 11, 12, 13, 14, 15, 18],
    &[1, 3, 4, 5, 6, 8, 9, 10, 14],
    &[1, 3, 4, 5, 6, 8, 9, 10, 16, 17],
    &[1, 3, 4, 5, 6, 7, 8, 9, 10, 11, 12, 15, 18, 19, 20],
    &[1, 2, 3, 4, 5, 8, 10, 11, 12, 13, 14, 15, 18],
    &[1, 3, 4, 5, 6, 8, 9, 10, 14],
    &[1, 3, 4, 5, 6, 8, 9, 10, 14, 20],
    &[1, 2, 3, 4, 10, 21],
    &[1, 3, 4, 5, 6, 7, 8, 9, 10, 11, 12, 15, 18, 19, 21],
    &[1, 3, 4, 5, 6, 7, 8, 9, 10, 12, 14, 21],
    &[1, 2, 3, 4, 10, 11, 12, 13, 14, 15, 18, 21],
];

/// What has to come up: a case that never did is a failure. Where entry points are named it has to come up by each of them.
const CASES: &[(&[Entry], &[&str])] = &[
    (&[Fold, Unroll, Index, Find, ShortFold, ToShort, ToLong, SeasonFold, SeasonUnroll], &["10 where 9 applies too"]),
    (&[Index, Find, ToShort, ToLong], &["9 where the highest limit gives 7"]),
    (
        &[Fold, Folder, ShortFold, ShortFolder, SeasonFold, SeasonFolder],
        &[
            "11 where 18 applies too",
            "15 where 18 applies too",
            "12 where 18 applies too",
            "18 by too few marks",
            "18 by too many marks",
            "18 by a mark above 1",
            "18 where a command is refused too",
        ],
    ),
    (
        &[Fold, ShortFold],
        &[
            "19 at a step",
            "19 at a group",
            "19 in a group in a repeat",
            "19 right behind a repeat in a repeat",
            "19 at a step where 10 applies too",
            "19 at a group where 10 applies too",
            "8 at a marked group in a repeat",
            "3 for a missing label in a repeat, every label marked",
            "a fold with repeats and a marked label outside them",
        ],
    ),
    (&[Unroll, ToShort, ToLong], &["a fold of 19 written"]),
    (&[Folder, ShortFolder], &["a fold of a run with a marked label", "such a fold with repeats"]),
    (
        &[],
        &[
            "a long run with a marked label",
            "such a run whose fold has repeats",
            "a fold that marks change",
            "a fold that marks change at the same cost",
            "a fold that marks leave no repeat of",
            "a fold that marks change and that has repeats",
            "a fold that has more repeats by marks",
            "a fold with a marked group that holds a repeat",
            "a group not repeated since it holds a marked label",
            "a tie that fewer repeats decide against byte order",
            "such a tie inside a group",
            "a tie of as many repeats, which byte order decides",
            "a tie that falls otherwise by the most repeats",
            "a tie that falls otherwise by a body's repeats times the count",
            "a tie that falls otherwise without the repeats in groups",
            "a tie that falls otherwise by the length of the short forms",
            "index written to slices just long enough",
            "index written to longer slices",
            "index of 1,024 entries written",
            "14 by the offsets alone",
            "14 by the numbers before alone",
            "14 by both",
            "a step found",
            "a group found",
            "a node found in a later copy of a repeat",
            "a node found at position 1,023",
            "16 at the total",
            "16 past the total",
            "16 where the position's low 32 bits are below the total",
            "16 in the empty fold",
            "17 by offsets one short",
            "17 by numbers before one short",
            "17 by both one short",
            "17 by offsets one long",
            "17 by numbers before one long",
            "17 by both one long",
            "17 by an offset",
            "17 by a number before",
            "17 by slices swapped",
            "17 by another fold's index",
            "17 by another fold's index of as many entries",
            "17 by slices of no entries",
            "17 where the position is not below the total either",
            "17 in a damaged fold",
            "a node found in a damaged fold",
        ],
    ),
    (
        &[
            Run,
            Fold,
            Unroll,
            Folder,
            Index,
            Find,
            ShortFolder,
            ToShort,
            SeasonRun,
            SeasonFold,
            SeasonUnroll,
            SeasonFolder,
        ],
        &["1 at a 22"],
    ),
    (
        &[ShortFold, ToLong],
        &[
            "3 at a 22 without operands",
            "3 at a 22 without its width",
            "5 at the close of a 22",
            "6 at a 22",
            "8 at a 22",
            "9 at the close of a 22",
            "10 at the close of a 22",
            "3 at a 20 in the short family",
            "6 at a 20 where 20 applies too",
            "20 where 8 applies too",
        ],
    ),
    (&[ShortFold], &["7 at a 22", "7 at a 20 where 20 applies too", "19 in a 22"]),
    (
        &[ShortFold, ShortFolder, ToShort, ToLong],
        &[
            "a short fold with count 255",
            "a short fold with count 256",
            "a short fold with width 255",
            "a short fold with width 256",
            "a 22 in a 20",
            "a 20 in a 22",
        ],
    ),
    (
        &[ToShort, ToLong, SeasonUnroll, SeasonFolder],
        &["14 by one byte", "an output just long enough", "a longer output"],
    ),
    (&[ToShort, ToLong], &["there and back"]),
    (&[ShortFolder, ToShort], &["an output that the long form has no room in"]),
    (
        &[SeasonRun, SeasonFold, SeasonUnroll, SeasonFolder],
        &[
            "65,535 steps",
            "10 at a step",
            "3 where a label of a 65,536th step is missing",
            "21 where 3 applies too",
            "21 behind 65,535 steps",
        ],
    ),
    (&[SeasonFold, SeasonUnroll], &["10 at a close", "21 in a repeat", "7 at width 33"]),
    (
        &[SeasonFold, SeasonUnroll, SeasonFolder],
        &["limit 0", "limit 32", "12 at limit 33", "12 at a limit of other folds", "a width of 32"],
    ),
    (
        &[SeasonFolder],
        &[
            "0 steps",
            "1 step",
            "1,024 steps",
            "a count above 1,024",
            "a count of 65,535",
            "a repeat in a repeat",
            "a marked label beside repeats",
            "a cost of all 32 bits",
        ],
    ),
    (
        &[],
        &[
            "13 by one entry of a season's work",
            "13 where 14 applies too in a season",
            "13 for the empty season run",
            "a season folded in work just long enough",
            "a season folded in longer work",
            "14 in a season with longer work",
            "a season fold with repeats and a marked label outside them",
            "3 for a missing label in a season's repeat, every label marked",
            "19 right behind a repeat in a season's repeat",
            "19 in a season where 10 applies too",
            "a season fold that marks change",
        ],
    ),
];

/// Their names, each with that of its entry point.
fn case_names() -> Vec<String> {
    let by = |entry: &Entry, case: &&str| format!("{case}, {}", entry.name());
    let names = |(entries, cases): &(&[Entry], &[&str])| match entries {
        [] => cases.iter().map(|case| case.to_string()).collect::<Vec<_>>(),
        _ => cases.iter().flat_map(|case| entries.iter().map(move |entry| by(entry, case))).collect(),
    };
    CASES.iter().flat_map(names).collect()
}

struct Compare {
    seed: u64,
    random: Random,
    calls: [u64; ENTRY_NAMES.len()],
    refusals: [[u64; NUMBERS]; ENTRY_NAMES.len()],
    cases: HashMap<String, u64>,
    short_answers: u64,
    against_trial: u64,
    /// Folds that were written, in the long form and in the short one.
    written: [u64; 2],
    unlike_tables: u64,
    against_lowest: u64,
    longest: usize,
    deepest: usize,
    seasons: Seasons,
    /// The fold before, whose index is another one.
    last: Listed,
}

fn hex(bytes: &[u8]) -> String {
    bytes.iter().fold(String::new(), |mut text, b| {
        let _ = write!(text, "{b:02X}");
        text
    })
}

/// Prices in few words: the entries of a table are in hexadecimal, four digits each, where they differ.
fn shown(prices: &Prices) -> String {
    let table = |entries: &[u16]| match entries.first() {
        Some(entry) if entries.iter().all(|other| other == entry) => format!("all {entry}"),
        _ => entries.iter().map(|entry| format!("{entry:04X}")).collect(),
    };
    let Prices { steps, groups, marks, first, each } = prices;
    let marks: Vec<u16> = marks.iter().map(|&mark| mark.into()).collect();
    let [a, b, c] = [steps, groups, &marks].map(|entries| format!("{} entries {}", entries.len(), table(entries)));
    format!("steps: {a}, groups: {b}, marks: {c}, first {first}, each {each}")
}

/// The commands and labels of the nodes of a run, in their order.
fn nodes_of(run: &[u8]) -> Vec<[u8; 2]> {
    let mut nodes = Vec::new();
    let mut at = 0;
    while at < run.len() {
        if run[at] == 0x12 {
            at += 1;
        } else {
            nodes.push([run[at], run[at + 1]]);
            at += 2;
        }
    }
    nodes
}

/// The offsets of the commands that opened what is open behind these, the first of a fold of either family, and the offset
/// behind the last of these, which is past the end where it is cut off.
fn open_behind(commands: &[u8]) -> (Vec<usize>, usize) {
    let (mut open, mut at) = (Vec::new(), 0);
    while at < commands.len() {
        match commands[at] {
            0x11 | 0x20 | 0x22 => open.push(at),
            0x12 | 0x21 => {
                open.pop();
            }
            _ => {}
        }
        at += match commands[at] {
            0x10 | 0x11 => 2,
            0x20 => 5,
            0x22 => 3,
            _ => 1,
        };
    }
    (open, at)
}

/// Whether something that one of these commands opened is open at an offset of a fold.
fn open_at(fold: &[u8], offset: usize, commands: &[u8]) -> bool {
    open_behind(&fold[..offset]).0.iter().any(|&at| commands.contains(&fold[at]))
}

/// Whether the `21` at an offset of a fold closes a repeat of another width than the command that opened it says.
fn false_width(fold: &[u8], offset: usize) -> bool {
    let at = *open_behind(&fold[..offset]).0.last().expect("a repeat that is open");
    let opening = inputs::openings(&fold[at..])[0];
    reference::expand(&decode(&fold[at + opening.size..offset])).len() != opening.width
}

/// The items with every group a step of its label.
fn without_bodies(items: &[Item]) -> Vec<Item> {
    items
        .iter()
        .map(|item| match item {
            Item::Step(label) | Item::Group(label, _) => Item::Step(*label),
            Item::Repeat(count, width, body) => Item::Repeat(*count, *width, without_bodies(body)),
        })
        .collect()
}

/// Whether there is an item that is so, at any depth.
fn any_item(items: &[Item], so: &dyn Fn(&Item) -> bool) -> bool {
    items.iter().any(|item| {
        so(item)
            || match item {
                Item::Step(_) => false,
                Item::Group(_, body) | Item::Repeat(_, _, body) => any_item(body, so),
            }
    })
}

/// The command that the bytes of a fold end in the middle of; empty where they end behind one.
fn cut_off(fold: &[u8]) -> &[u8] {
    let last = (0..fold.len()).rev().find(|&at| open_behind(&fold[..at]).1 == at);
    match last {
        Some(at) if open_behind(fold).1 > fold.len() => &fold[at..],
        _ => &[],
    }
}

/// Whether a marked label stands in a repeat of these items.
fn mark_repeated(items: &[Item], prices: &Prices) -> bool {
    any_item(items, &|item| matches!(item, Item::Repeat(_, _, body) if prices.mark_in(body)))
}

/// Wrong numbers of repeats: those that a repeat holds count as often as it goes over them; those in groups count for nothing.
fn multiplied(items: &[Item]) -> usize {
    items
        .iter()
        .map(|item| match item {
            Item::Step(_) => 0,
            Item::Group(_, body) => multiplied(body),
            Item::Repeat(count, _, body) => 1 + count * multiplied(body),
        })
        .sum()
}

fn outside_groups(items: &[Item]) -> usize {
    items
        .iter()
        .map(|item| match item {
            Item::Repeat(_, _, body) => 1 + outside_groups(body),
            _ => 0,
        })
        .sum()
}

/// The functions of fold reader and short reader, of both folders and of both conversions.
type ReadFold = fn(&[u8], usize, &[u16], &[u16], &[u8], u16, u16, &mut [u64]) -> u8;
type FoldRun = fn(&[u8], usize, &[u16], &[u16], &[u8], u16, u16, &mut [u32], &mut [u32], &mut [u8], &mut [u64]) -> u8;
type Convert = fn(&[u8], &mut [u8], &mut [u64]) -> u8;

/// Entries that no call writes by chance: each says where it stands.
fn stamped_bytes(n: usize) -> Vec<u8> {
    (0..n).map(|k| 0xA5 ^ (k as u8).wrapping_mul(29)).collect()
}

fn stamped_words(n: usize) -> Vec<u32> {
    (0..n).map(|k| 0xDEAD_0000 ^ k as u32).collect()
}

fn stamped_answer(n: usize) -> Vec<u64> {
    (0..n).map(|k| 0xFEED_FACE_0000_0000 + k as u64).collect()
}

impl Compare {
    fn differ(
        &self,
        entry: Entry,
        input: &[u8],
        call: &dyn Fn() -> String,
        what: &str,
        given: &str,
        expected: &str,
    ) -> ! {
        println!("DIFFERENCE: {}, seed {}", entry.name(), self.seed);
        println!("input {}", if input.is_empty() { "-".into() } else { hex(input) });
        println!("call: {}", call());
        println!("{what}: the library has {given}");
        println!("{what}: expected is {expected}");
        exit(1);
    }

    /// A lent answer slice: mostly of as many entries as an answer has, or some more; at times too short.
    fn answer_slice(&mut self) -> Vec<u64> {
        let entries = match self.random.below(16) {
            0 => self.random.below(ENTRIES),
            k => ENTRIES + k % 3,
        };
        stamped_answer(entries)
    }

    /// Holds a status and an answer slice to what is expected; says whether the slice was long enough.
    fn check_answer(
        &mut self,
        entry: Entry,
        input: &[u8],
        call: &dyn Fn() -> String,
        status: u8,
        answer: &[u64],
        expected: [u64; ENTRIES],
    ) -> bool {
        self.calls[entry as usize] += 1;
        let mut after = stamped_answer(answer.len());
        let enough = after.len() >= ENTRIES;
        let refusal = expected[raw::REFUSAL] as u8;
        if enough {
            after[..ENTRIES].copy_from_slice(&expected);
            self.refusals[entry as usize][refusal as usize] += 1;
            self.at_command(entry, input, refusal, expected[raw::PLACE] as usize);
        } else {
            self.short_answers += 1;
        }
        if answer != after {
            self.differ(entry, input, call, "answer", &format!("{answer:?}"), &format!("{after:?}"));
        }
        let returned = if enough { refusal } else { SHORT };
        if status != returned {
            self.differ(entry, input, call, "status", &status.to_string(), &returned.to_string());
        }
        enough
    }

    /// Which check it was that refused a command, where it is one of several.
    fn at_command(&mut self, entry: Entry, input: &[u8], refusal: u8, place: usize) {
        match refusal {
            1 if input[place] == 0x22 => self.reached_by(entry, "1 at a 22"),
            9 if [Index, Find, ToShort, ToLong].contains(&entry) && over_the_limit(entry.family(), input) => {
                self.reached_by(entry, "9 where the highest limit gives 7");
            }
            10 if input[place] == 0x21 && false_width(input, place) => {
                self.reached_by(entry, "10 where 9 applies too");
            }
            _ => {}
        }
        if entry.family() == Family::Short {
            self.refused_in_short(entry, input, refusal, place);
        }
        if entry.is_of_season() {
            self.refused_in_season(entry, input, refusal, place);
        }
    }

    fn check_slice<T: PartialEq + std::fmt::Debug>(
        &self,
        entry: Entry,
        input: &[u8],
        call: &dyn Fn() -> String,
        what: &str,
        given: &[T],
        expected: &[T],
    ) {
        if given != expected {
            let at = (0..given.len()).find(|&k| given[k] != expected[k]).unwrap();
            let part = |s: &[T]| format!("{:X?} from entry {at} on", &s[at..s.len().min(at + 16)]);
            self.differ(entry, input, call, what, &part(given), &part(expected));
        }
    }

    fn run_reader(&mut self, run: &[u8]) {
        let mut answer = self.answer_slice();
        let status = raw::read_run(run, &mut answer);
        let expected = reference::read_run(run).numbers();
        self.check_answer(Run, run, &String::new, status, &answer, expected);
    }

    fn part(&mut self, run: &[u8], at: usize) {
        self.calls[Part as usize] += 1;
        let (given, expected) = (runfold::part(run, at), reference::part(run, at));
        if given != expected {
            let call = || format!("offset {at}");
            self.differ(Part, run, &call, "part", &hex(given), &hex(expected));
        }
    }

    fn parts(&mut self, run: &[u8]) {
        for at in 0..=run.len() + 1 {
            self.part(run, at);
        }
        self.part(run, usize::MAX);
    }

    /// The fold reader, and the short reader on what the short family has of that.
    fn fold_readers(&mut self, fold: &[u8], limit: usize, prices: &Prices) {
        self.fold_reader(Family::Long, fold, limit, prices);
        let short = self.for_short(fold);
        self.fold_reader(Family::Short, &short, limit, prices);
    }

    /// Fold reader or short reader.
    fn fold_reader(&mut self, family: Family, fold: &[u8], limit: usize, prices: &Prices) {
        let (entry, read): (_, ReadFold) = match family {
            Family::Long => (Fold, raw::read_fold),
            Family::Short => (ShortFold, raw::read_short),
        };
        let call = || format!("limit {limit}, {}", shown(prices));
        let mut answer = self.answer_slice();
        let Prices { steps, groups, marks, first, each } = prices;
        let status = read(fold, limit, steps, groups, marks, *first, *each, &mut answer);
        let expected = reference::read_in(family, fold, limit, prices);
        if self.check_answer(entry, fold, &call, status, &answer, expected.numbers()) {
            let refused = || reference::read_in(family, fold, limit, &unit()).refusal != 0;
            self.wrong_marks(entry, expected.refusal, &prices.marks, &refused);
            self.marks_in_fold(entry, fold, limit, prices, expected);
            if entry == ShortFold && expected.refusal == 0 {
                self.short_fold(entry, fold);
            }
        }
    }

    /// The unroller; says whether a run was written.
    fn unroller(&mut self, fold: &[u8], limit: usize) -> bool {
        let (unbounded, run) = reference::unroll(fold, limit, usize::MAX);
        let room = match self.random.below(4) {
            0 if !run.is_empty() => run.len() - 1 - self.random.below(run.len()),
            1 => run.len(),
            _ => run.len() + self.random.below(40),
        };
        let run = if unbounded.refusal == 0 { Ok(run) } else { Err(unbounded) };
        let expected = reference::written(run, room);
        let call = || format!("limit {limit}, output of {room} bytes");
        let write = &mut |out: &mut [u8], answer: &mut [u64]| raw::unroll(fold, limit, out, answer);
        self.writer(Unroll, fold, &call, room, &expected, write) == Some(0)
    }

    /// A function with an output of so many bytes, held to its answer and to what it writes there; gives the refusal where the
    /// lent answer is long enough.
    fn writer(
        &mut self,
        entry: Entry,
        input: &[u8],
        call: &dyn Fn() -> String,
        room: usize,
        (expected, bytes): &(Answer, Vec<u8>),
        write: &mut dyn FnMut(&mut [u8], &mut [u64]) -> u8,
    ) -> Option<u8> {
        let mut answer = self.answer_slice();
        let mut out = stamped_bytes(room);
        let status = write(&mut out, &mut answer);
        let enough = self.check_answer(entry, input, call, status, &answer, expected.numbers());
        let mut after = stamped_bytes(room);
        if enough {
            after[..bytes.len()].copy_from_slice(bytes);
        }
        self.check_slice(entry, input, call, "output", &out, &after);
        enough.then_some(expected.refusal)
    }

    /// How many entries to lend where so many are needed: mostly enough.
    fn lent(&mut self, needed: usize) -> usize {
        match self.random.below(12) {
            0 if needed > 0 => needed - 1 - self.random.below(needed),
            1 => needed,
            _ => needed + self.random.below(30),
        }
    }

    /// Both folders, each held to the solution that the independent implementation found, in the form of its family; says
    /// whether the folder wrote a fold.
    fn folders(&mut self, run: &[u8], limit: usize, prices: &Prices, solved: &Result<Solved, Answer>) -> bool {
        let short = solved.as_ref().map(|solved| solved.form_in(Family::Short)).map_err(|refused| *refused);
        self.folder(Family::Short, run, limit, prices, &short);
        self.folder(Family::Long, run, limit, prices, solved)
    }

    /// The folder or the short folder, held to a solution in the form of its family; says whether a fold was written.
    fn folder(
        &mut self,
        family: Family,
        run: &[u8],
        limit: usize,
        prices: &Prices,
        solved: &Result<Solved, Answer>,
    ) -> bool {
        let (entry, fold): (_, FoldRun) = match family {
            Family::Long => (Folder, raw::fold),
            Family::Short => (ShortFolder, raw::fold_short),
        };
        let (nodes, length) = solved.as_ref().map_or((2, 9), |s| (s.nodes, s.bytes.len()));
        let needed = work_entries(nodes);
        let (a, b, room) = (self.lent(needed), self.lent(needed), self.lent(length));
        let expected = match solved {
            Ok(solved) => reference::lend(solved, a, b, room),
            Err(refused) => (*refused, Vec::new()),
        };
        let call = || format!("limit {limit}, {}, work of {a} and {b} entries, output of {room} bytes", shown(prices));
        let (mut costs, mut choices) = (stamped_words(a), stamped_words(b));
        let Prices { steps, groups, marks, first, each } = prices;
        let write = &mut |out: &mut [u8], answer: &mut [u64]| {
            fold(run, limit, steps, groups, marks, *first, *each, &mut costs, &mut choices, out, answer)
        };
        let refusal = self.writer(entry, run, &call, room, &expected, write);
        for (which, work) in [("first work slice", costs), ("second work slice", choices)] {
            let mut after = stamped_words(work.len());
            if let Some(0 | 14) = refusal {
                after[..needed].fill(0);
            }
            self.check_slice(entry, run, &call, which, &work, &after);
        }
        if let Some(refusal) = refusal {
            self.wrong_marks(entry, refusal, marks, &|| reference::read_run(run).refusal != 0);
        }
        if refusal == Some(0) {
            self.fold_written(entry, run, prices, &expected.1, room);
        }
        refusal == Some(0)
    }

    /// Counts a fold that was written to so much room.
    fn fold_written(&mut self, entry: Entry, run: &[u8], prices: &Prices, fold: &[u8], room: usize) {
        self.written[usize::from(entry == ShortFolder)] += 1;
        let read = reference::read_run(run);
        if prices.steps != prices.groups {
            self.unlike_tables += u64::from(read.steps < read.nodes);
        }
        if prices.mark_in(&decode(run)) {
            self.reached_by(entry, "a fold of a run with a marked label");
            if fold != run {
                self.reached_by(entry, "such a fold with repeats");
            }
        }
        if entry == ShortFolder {
            self.short_form_written(entry, fold, room);
        }
        self.longest = self.longest.max(read.nodes);
    }

    fn limit(&mut self) -> usize {
        match self.random.below(24) {
            0 => 0,
            1..=3 => 1 + self.random.below(8),
            4 => self.random.below(1025),
            5 => 1023,
            6 => *self.random.pick(&[1025, 1026, 65536, usize::MAX]),
            _ => 1024,
        }
    }

    /// Tables of 256 entries, and marks of 256 labels.
    fn sound_prices(&mut self) -> Prices {
        inputs::prices(&mut self.random)
    }

    /// The same, but for a table or the marks now and then.
    fn prices(&mut self) -> Prices {
        let mut prices = self.sound_prices();
        let r = &mut self.random;
        if r.once_in(60) {
            prices.marks = inputs::wrong_marks(r, prices.marks);
        }
        if r.once_in(60) {
            let sizes = [0, 1, 255, 257, 300];
            let which = r.below(3);
            if which != 1 {
                prices.steps.resize(*r.pick(&sizes), 1);
            }
            if which != 0 {
                prices.groups.resize(*r.pick(&sizes), 1);
            }
        }
        prices
    }

    /// One run at one limit and prices, through every entry point.
    fn whole(&mut self, items: &[Item], limit: usize, prices: &Prices) {
        let run = inputs::bytes_of(items);
        let solved = reference::solve(&run, limit, prices);
        self.folders(&run, limit, prices, &solved);
        if let Ok(solved) = solved {
            assert!(solved.bytes.len() <= 4 * solved.nodes, "a fold of more than four bytes a node");
            self.deepest = self.deepest.max(depth(items));
            self.fold_readers(&solved.bytes, limit, prices);
            self.unroller(&solved.bytes, limit);
            self.index_and_find(&solved.bytes);
            self.conversions(&solved.bytes);
        }
    }

    /// Every fold of a run, tried: of the cheapest of them that repeat no marked label the one with the fewest repeats, and of
    /// several such the first in byte order, is what the folder writes.
    fn trial(&mut self, items: &[Item], limit: usize, prices: &Prices) {
        let run = inputs::bytes_of(items);
        let unmarked = prices.unmarked();
        let mut folds: Vec<Ranked> = reference::every_fold(items, limit)
            .into_iter()
            .map(|bytes| {
                let read = reference::read_fold(&bytes, limit, &unmarked);
                assert!(read.refusal == 0 && reference::run_of(&bytes) == run, "no fold: {}", hex(&bytes));
                Ranked { cost: read.cost, repeats: reference::count_repeats(&decode(&bytes)), bytes }
            })
            .collect();
        folds.sort();
        let without_marks = folds[0].clone();
        let (barred, mut folds): (Vec<_>, Vec<_>) = folds.into_iter().partition(|Ranked { bytes, .. }| {
            let barred = mark_repeated(&decode(bytes), prices);
            let refusal = reference::read_fold(bytes, limit, prices).refusal;
            assert_eq!(refusal, if barred { 19 } else { 0 }, "{}", hex(bytes));
            barred
        });
        let cost = folds[0].cost;
        folds.retain(|fold| fold.cost == cost);
        let solved = Solved { nodes: reference::count_nodes(items), cost, bytes: folds[0].bytes.clone() };
        if self.folders(&run, limit, prices, &Ok(solved)) {
            self.tie(&folds);
            self.moved_by_marks(&folds[0], &without_marks, prices);
        }
        if !barred.is_empty() {
            let fold = self.random.pick(&barred).bytes.clone();
            self.barred(&fold, limit, prices);
        }
        self.against_trial += 1;
    }

    /// The same where repeats cost little, and many folds the same.
    fn trials_of_ties(&mut self, items: &[Item]) {
        for each in [0, 1] {
            self.trial(items, MAX_WIDTH, &Prices::by_label(vec![1; 256], 0, each));
        }
    }

    /// The same where label 1 is marked, at some prices. At the last of them it costs nothing, so that a fold that repeats it
    /// can cost the same as one that does not.
    fn trials_of_marks(&mut self, items: &[Item]) {
        for (one, first, each) in [(1, 1, 0), (1, 0, 0), (1, 0, 1), (0, 1, 0)] {
            let mut costs = vec![1; 256];
            costs[1] = one;
            let prices = Prices::by_label(costs, first, each);
            self.trial(items, MAX_WIDTH, &Prices { marks: marking(|label| label == 1), ..prices });
        }
    }

    /// What decides between the folds of lowest cost, which are given in their order.
    fn tie(&mut self, folds: &[Ranked]) {
        let (best, last) = (&folds[0], &folds[folds.len() - 1]);
        // The one that comes first by another number than that of repeats.
        let by = |number: fn(&[Item]) -> usize| {
            folds.iter().min_by_key(|fold| (number(&decode(&fold.bytes)), &fold.bytes)).unwrap()
        };
        let by_bytes = by(|_| 0);
        if by_bytes != best {
            self.reached("a tie that fewer repeats decide against byte order");
            let at = (0..).find(|&k| best.bytes[k] != by_bytes.bytes[k]).unwrap();
            if open_at(&best.bytes, at, &[0x11]) {
                self.reached("such a tie inside a group");
            }
        }
        if folds.len() > 1 && folds[1].repeats == best.repeats {
            self.reached("a tie of as many repeats, which byte order decides");
        }
        if last.repeats > best.repeats {
            self.reached("a tie that falls otherwise by the most repeats");
        }
        if by(multiplied) != best {
            self.reached("a tie that falls otherwise by a body's repeats times the count");
        }
        if by(outside_groups) != best {
            self.reached("a tie that falls otherwise without the repeats in groups");
        }
        if by(|items| reference::bytes_in(Family::Short, items).len()) != best {
            self.reached("a tie that falls otherwise by the length of the short forms");
        }
    }

    /// A long run: the fold that the folder writes is a fold of the run within the limit, of the cost that it says, and that
    /// is the lowest; and no fold of that cost has fewer repeats.
    fn cost_and_repeats(&mut self, items: &[Item], limit: usize, prices: &Prices) {
        let run = inputs::bytes_of(items);
        let solved = by_the_library(items, limit, prices);
        let (bytes, cost) = (&solved.bytes[..], solved.cost);
        let call = || format!("limit {limit}, {}", shown(prices));
        let (lowest, fewest) = reference::lowest(items, limit, prices);
        if cost != lowest {
            self.differ(Folder, &run, &call, "cost", &cost.to_string(), &lowest.to_string());
        }
        let read = reference::read_fold(bytes, limit, prices);
        if read.refusal != 0 || read.cost != cost || reference::run_of(bytes) != run {
            self.differ(Folder, &run, &call, "fold", &hex(bytes), "a fold of the run, of the cost said");
        }
        let repeats = reference::count_repeats(&decode(bytes));
        if repeats != fewest {
            self.differ(Folder, &run, &call, "repeats", &repeats.to_string(), &fewest.to_string());
        }
        self.calls[Folder as usize] += 1;
        self.refusals[Folder as usize][0] += 1;
        self.against_lowest += 1;
        if prices.mark_in(items) {
            self.reached("a long run with a marked label");
            if repeats > 0 {
                self.reached("such a run whose fold has repeats");
            }
        }
        self.longest = self.longest.max(reference::count_nodes(items));
        self.deepest = self.deepest.max(depth(items));
        self.fold_readers(bytes, limit, prices);
        self.unroller(bytes, limit);
        self.every_position(bytes);
        self.there_and_back(bytes);
        self.folder(Family::Short, &run, limit, prices, &Ok(solved.form_in(Family::Short)));
    }

    /// Bytes of any kind, through every entry point.
    fn any_bytes(&mut self, bytes: &[u8]) {
        let (limit, prices) = (self.limit(), self.prices());
        self.run_reader(bytes);
        let at = self.random.below(bytes.len() + 3);
        self.part(bytes, at);
        self.unroller(bytes, limit);
        self.index_and_find(bytes);
        self.conversions(bytes);
        self.priced(bytes, limit, &prices);
        if bytes.len() <= 400 {
            self.season_bytes(bytes);
        }
    }

    /// The same through those that take costs.
    fn priced(&mut self, bytes: &[u8], limit: usize, prices: &Prices) {
        self.fold_readers(bytes, limit, prices);
        // A long sequence is left to the other comparisons: the independent folder is slow.
        if bytes.len() <= 120 || reference::read_run(bytes).refusal != 0 {
            let solved = reference::solve(bytes, limit, prices);
            self.folders(bytes, limit, prices, &solved);
        }
    }
}

/// Marks.
impl Compare {
    /// Which refusal comes where the lent marks are not in order, of a reader of folds or a folder. `refused` says whether a
    /// command is refused too.
    fn wrong_marks(&mut self, entry: Entry, refusal: u8, marks: &[u8], refused: &dyn Fn() -> bool) {
        let wrong = match marks.len() {
            256 if marks.iter().all(|&mark| mark <= 1) => return,
            256 => "a mark above 1",
            ..256 => "too few marks",
            _ => "too many marks",
        };
        if refusal != 18 {
            return self.reached_by(entry, &format!("{refusal} where 18 applies too"));
        }
        self.reached_by(entry, &format!("18 by {wrong}"));
        if refused() {
            self.reached_by(entry, "18 where a command is refused too");
        }
    }

    /// What marks decide at a command, by what fold reader or short reader answers.
    fn marks_in_fold(&mut self, entry: Entry, fold: &[u8], limit: usize, prices: &Prices, answer: Answer) {
        let place = answer.place;
        let in_repeat = |end: usize| open_at(fold, end, &[0x20, 0x22]);
        let both = |items: &[Item]| reference::count_repeats(items) > 0 && prices.mark_in(items);
        match answer.refusal {
            0 if both(&decode(fold)) => self.reached_by(entry, "a fold with repeats and a marked label outside them"),
            3 if prices.marks == [1; 256] && matches!(cut_off(fold), [0x10 | 0x11]) && in_repeat(fold.len() - 1) => {
                self.reached_by(entry, "3 for a missing label in a repeat, every label marked");
            }
            8 if fold[place] == 0x11 && prices.marked(fold[place + 1]) && in_repeat(place) => {
                self.reached_by(entry, "8 at a marked group in a repeat");
            }
            19 => self.marked_in_repeat(entry, fold, limit, prices, place),
            _ => {}
        }
    }

    /// A marked label in a repeat, at the place of the refusal.
    fn marked_in_repeat(&mut self, entry: Entry, fold: &[u8], limit: usize, prices: &Prices, place: usize) {
        let kind = if fold[place] == 0x10 { "step" } else { "group" };
        self.reached_by(entry, &format!("19 at a {kind}"));
        if open_behind(&fold[..place]).0.last().is_some_and(|&at| fold[at] == 0x11) {
            self.reached_by(entry, "19 in a group in a repeat");
        }
        if fold[place - 1] == 0x21 && open_behind(&fold[..place - 1]).1 == place - 1 {
            self.reached_by(entry, "19 right behind a repeat in a repeat");
        }
        let unmarked = reference::read_in(entry.family(), fold, limit, &prices.unmarked());
        if (unmarked.refusal, unmarked.place) == (10, place) {
            self.reached_by(entry, &format!("19 at a {kind} where 10 applies too"));
        }
    }

    /// A fold that is refused by its marks alone: what takes no costs knows no marks.
    fn barred(&mut self, fold: &[u8], limit: usize, prices: &Prices) {
        self.fold_readers(fold, limit, prices);
        self.index_and_find(fold);
        let short = reference::form_in(Family::Short, fold);
        let written =
            [self.unroller(fold, limit), self.convert(Family::Short, fold), self.convert(Family::Long, &short)];
        for (entry, written) in [Unroll, ToShort, ToLong].into_iter().zip(written) {
            if written {
                self.reached_by(entry, "a fold of 19 written");
            }
        }
    }

    /// What marks change: the cheapest fold by them, and the cheapest without.
    fn moved_by_marks(&mut self, best: &Ranked, unmarked: &Ranked, prices: &Prices) {
        let has_repeat = |body: &[Item]| reference::count_repeats(body) > 0;
        let holds = |item: &Item| matches!(item, Item::Group(label, body) if prices.marked(*label) && has_repeat(body));
        if any_item(&decode(&best.bytes), &holds) {
            self.reached("a fold with a marked group that holds a repeat");
        }
        if best == unmarked {
            return;
        }
        self.reached("a fold that marks change");
        self.reached(match best.repeats {
            0 => "a fold that marks leave no repeat of",
            _ => "a fold that marks change and that has repeats",
        });
        if best.cost == unmarked.cost {
            self.reached("a fold that marks change at the same cost");
        }
        if best.repeats > unmarked.repeats {
            self.reached("a fold that has more repeats by marks");
        }
        // The labels of the repeat's own level are free.
        let inside = |body: &[Item]| prices.mark_in(body) && !prices.mark_in(&without_bodies(body));
        if any_item(&decode(&unmarked.bytes), &|item| matches!(item, Item::Repeat(_, _, body) if inside(body))) {
            self.reached("a group not repeated since it holds a marked label");
        }
    }

    /// Bytes with each of them as the one label that is marked, and as the one that is free, and with every label marked.
    fn marks_in_turn(&mut self, bytes: &[u8]) {
        let mut labels = bytes.to_vec();
        labels.sort();
        labels.dedup();
        let prices = self.sound_prices();
        let each = |&label: &u8| [marking(|other| other == label), marking(|other| other != label)];
        for marks in labels.iter().flat_map(each).chain([vec![1; 256]]) {
            self.priced(bytes, MAX_WIDTH, &Prices { marks, ..prices.clone() });
        }
    }

    /// At times some labels that few nodes have, so that long stretches lie between those that are marked.
    fn rare_labels(&mut self, items: &mut [Item]) {
        if self.random.once_in(2) {
            inputs::noise(&mut self.random, items, 8, 60);
        }
    }

    /// Bytes with marks that are not in order, where a table, the limit or nothing before them is refused.
    fn wrong_heads(&mut self, bytes: &[u8]) {
        let above = marking(|label| label == 7).into_iter().map(|mark| 2 * mark).collect();
        for marks in [vec![0; 255], vec![0; 257], above] {
            for (steps, groups, over) in [(255, 255, 1), (256, 257, 1), (256, 256, 1), (256, 256, 0)] {
                let (steps, groups) = (vec![1; steps], vec![1; groups]);
                let prices = Prices { steps, groups, marks: marks.clone(), first: 1, each: 0 };
                self.priced(bytes, MAX_WIDTH + over, &prices);
            }
        }
    }
}

/// A fold as the independent implementation lists it, or its refusal.
type Listing<'a> = Result<&'a Listed, &'a Answer>;

/// Index builder and finder.
impl Compare {
    fn reached(&mut self, case: &str) {
        *self.cases.get_mut(case).expect("a case of the list") += 1;
    }

    fn reached_by(&mut self, entry: Entry, case: &str) {
        self.reached(&format!("{case}, {}", entry.name()));
    }

    /// The index builder with slices of so many entries, held to the independent listing.
    fn index_builder(&mut self, fold: &[u8], listed: Listing, a: usize, b: usize) {
        let expected = listed.map_or_else(|refused| refused.numbers(), |listed| listed.indexed(a, b));
        let call = || format!("slices of {a} and {b} entries");
        let mut answer = self.answer_slice();
        let (mut offsets, mut before) = (stamped_words(a), stamped_words(b));
        let status = raw::index(fold, &mut offsets, &mut before, &mut answer);
        self.check_answer(Index, fold, &call, status, &answer, expected);
        let (mut offsets_after, mut before_after) = (stamped_words(a), stamped_words(b));
        let entries = listed.map_or(0, |listed| listed.offsets.len());
        if let (0, Ok(listed)) = (status, listed) {
            offsets_after[..entries].copy_from_slice(&listed.offsets);
            before_after[..entries].copy_from_slice(&listed.before);
            if entries == MAX_NODES {
                self.reached("index of 1,024 entries written");
            }
        }
        self.check_slice(Index, fold, &call, "offsets", &offsets, &offsets_after);
        self.check_slice(Index, fold, &call, "numbers before", &before, &before_after);
        match status {
            0 if a == entries && b == entries => self.reached("index written to slices just long enough"),
            0 => self.reached("index written to longer slices"),
            14 if b >= entries => self.reached("14 by the offsets alone"),
            14 if a >= entries => self.reached("14 by the numbers before alone"),
            14 => self.reached("14 by both"),
            _ => {}
        }
    }

    /// The finder by any index, held to the independent listing. Gives the answer where the lent slice is long enough.
    fn finder(
        &mut self,
        fold: &[u8],
        listed: Listing,
        (offsets, before): (&[u32], &[u32]),
        position: u64,
    ) -> Option<[u64; ENTRIES]> {
        let found = |listed: &Listed| listed.found(offsets, before, position);
        let expected = listed.map_or_else(|refused| refused.numbers(), found);
        let call = || format!("position {position}, offsets {offsets:?}, numbers before {before:?}");
        let mut answer = self.answer_slice();
        let status = raw::find(fold, offsets, before, position, &mut answer);
        self.check_answer(Find, fold, &call, status, &answer, expected);
        let total = listed.map_or(0, |listed| listed.nodes.len() as u64);
        match status {
            16 if total == 0 => self.reached("16 in the empty fold"),
            16 if position == total => self.reached("16 at the total"),
            16 if position % (1 << 32) < total => {
                self.reached("16 where the position's low 32 bits are below the total")
            }
            16 => self.reached("16 past the total"),
            17 if position >= total => self.reached("17 where the position is not below the total either"),
            _ => {}
        }
        answer.first_chunk().copied()
    }

    /// The same, until the lent answer is long enough.
    fn find(&mut self, fold: &[u8], listed: Listing, index: (&[u32], &[u32]), position: u64) -> [u64; ENTRIES] {
        loop {
            if let Some(answer) = self.finder(fold, listed, index, position) {
                return answer;
            }
        }
    }

    /// Any bytes, mostly with slices that are long enough, and by their index.
    fn index_and_find(&mut self, fold: &[u8]) {
        let listed = reference::list(fold);
        let listed = listed.as_ref();
        let (entries, nodes) = listed.map_or((1, 1), |listed| (listed.offsets.len(), listed.nodes.len()));
        let (a, b) = (self.lent(entries), self.lent(entries));
        self.index_builder(fold, listed, a, b);
        let position = self.random.below(nodes + nodes / 16 + 2) as u64;
        let any = [0; 2].map(|_| (0..self.random.below(3)).map(|_| self.random.below(3) as u32).collect::<Vec<_>>());
        let index = match listed {
            Ok(listed) if !self.random.once_in(8) => (&listed.offsets[..], &listed.before[..]),
            _ => (&any[0][..], &any[1][..]),
        };
        self.finder(fold, listed, index, position);
    }

    /// A sound fold by its own index: the node at every position, against the run that the library's unroller writes and the
    /// fold's own bytes, and positions that it does not have.
    fn positions(&mut self, fold: &[u8], listed: &Listed) {
        let index = (&listed.offsets[..], &listed.before[..]);
        let mut run = [0; RUN_ROOM];
        let length = runfold::unroll(fold, MAX_WIDTH, &mut run).expect("the fold is sound");
        let nodes = nodes_of(&run[..length]);
        let mut met = vec![false; fold.len()];
        for (position, &[command, label]) in nodes.iter().enumerate() {
            let [_, _, found @ ..] = self.find(fold, Ok(listed), index, position as u64);
            let offset = found[2] as usize;
            if found[..2] != [label as u64, command as u64] || fold[offset..][..2] != [command, label] {
                let call = || format!("position {position}");
                let expected = format!("label {label}, command {command} in the run, and the same in the fold");
                self.differ(Find, fold, &call, "label, command, offset", &format!("{found:?}"), &expected);
            }
            self.reached(if command == 0x10 { "a step found" } else { "a group found" });
            if met[offset] {
                self.reached("a node found in a later copy of a repeat");
            }
            if position == MAX_NODES - 1 {
                self.reached("a node found at position 1,023");
            }
            met[offset] = true;
        }
        let total = nodes.len() as u64;
        let low = self.random.below(nodes.len().max(1)) as u64;
        for position in [total, total + 1, 1 << 16, 1 << 32, (1 << 32) + low, (1 << 63) + low, u64::MAX] {
            self.find(fold, Ok(listed), index, position);
        }
    }

    /// Slices just long enough, longer, and one too short.
    fn lengths(&mut self, fold: &[u8], listed: &Listed) {
        let entries = listed.offsets.len();
        let (less, more) = (entries.saturating_sub(1), entries + 1 + self.random.below(9));
        for (a, b) in [
            (entries, entries),
            (entries, more),
            (more, entries),
            (more, more),
            (less, entries),
            (entries, less),
            (less, more),
            (more, less),
            (less, less),
            (0, more),
            (more, 0),
        ] {
            self.index_builder(fold, Ok(listed), a, b);
        }
    }

    /// Indexes other than the fold's own, with a position that it has and one that it has not.
    fn other_indexes(&mut self, fold: &[u8], listed: &Listed) {
        let Listed { nodes, offsets, before } = listed;
        let shorter = |numbers: &[u32]| numbers[..numbers.len().saturating_sub(1)].to_vec();
        // What would be the next entry.
        let longer = [(offsets, fold.len()), (before, nodes.len())].map(|(a, next)| [&a[..], &[next as u32]].concat());
        let [more_offsets, more_before] = longer;
        let entries = offsets.len();
        let another = match self.last.offsets.len() == entries {
            true => "17 by another fold's index of as many entries",
            false => "17 by another fold's index",
        };
        let mut indexes = vec![
            ("17 by offsets one short", shorter(offsets), before.clone()),
            ("17 by numbers before one short", offsets.clone(), shorter(before)),
            ("17 by both one short", shorter(offsets), shorter(before)),
            ("17 by offsets one long", more_offsets.clone(), before.clone()),
            ("17 by numbers before one long", offsets.clone(), more_before.clone()),
            ("17 by both one long", more_offsets, more_before),
            ("17 by slices swapped", before.clone(), offsets.clone()),
            (another, self.last.offsets.clone(), self.last.before.clone()),
            ("17 by slices of no entries", Vec::new(), Vec::new()),
        ];
        // Every entry of a short index, some of a long one: one more, one less, and off by a power of two.
        for k in 0..entries.min(12) {
            let at = if entries <= 12 { k } else { self.random.below(entries) };
            for by in [1, u32::MAX, 1 << self.random.below(32)] {
                let off = |numbers: &[u32]| {
                    let mut numbers = numbers.to_vec();
                    numbers[at] = numbers[at].wrapping_add(by);
                    numbers
                };
                indexes.push(("17 by an offset", off(offsets), before.clone()));
                indexes.push(("17 by a number before", offsets.clone(), off(before)));
            }
        }
        for (case, offsets, before) in &indexes {
            let within = self.random.below(nodes.len().max(1));
            let past = nodes.len() + self.random.below(3);
            for position in [within, past] {
                let answer = self.find(fold, Ok(listed), (offsets, before), position as u64);
                // Some are the fold's own after all: two indexes of one entry are equal.
                if answer[raw::REFUSAL] == 17 {
                    self.reached(case);
                }
            }
        }
    }

    /// A damaged fold, by the index of the sound one.
    fn damaged(&mut self, fold: &[u8], sound: &Listed) {
        let bytes = inputs::damaged(&mut self.random, fold);
        let listed = reference::list(&bytes);
        let (a, b) = (self.lent(sound.offsets.len()), self.lent(sound.before.len()));
        self.index_builder(&bytes, listed.as_ref(), a, b);
        let position = self.random.below(sound.nodes.len() + 1) as u64;
        match self.find(&bytes, listed.as_ref(), (&sound.offsets, &sound.before), position)[raw::REFUSAL] {
            17 => self.reached("17 in a damaged fold"),
            0 => self.reached("a node found in a damaged fold"),
            _ => {}
        }
    }

    /// A fold through index builder and finder: every position, and many a slice and index.
    fn every_position(&mut self, fold: &[u8]) {
        let Ok(listed) = reference::list(fold) else { return self.index_and_find(fold) };
        self.positions(fold, &listed);
        self.lengths(fold, &listed);
        self.other_indexes(fold, &listed);
        for _ in 0..4 {
            self.damaged(fold, &listed);
        }
        self.last = listed;
    }
}

/// A sound run as the library's folder solves it.
fn by_the_library(items: &[Item], limit: usize, prices: &Prices) -> Solved {
    let Prices { steps, groups, marks, first, each } = prices;
    let lent = runfold::Prices { steps, groups, marks, first: *first, each: *each };
    let (bytes, cost) = runfold::folded(&inputs::bytes_of(items), limit, lent).expect("the run is sound");
    Solved { nodes: reference::count_nodes(items), cost, bytes }
}

/// Whether a fold is refused by its first width over the highest limit, which those who take no limit do not look for.
fn over_the_limit(family: Family, fold: &[u8]) -> bool {
    reference::read_in(family, fold, MAX_WIDTH, &unit()).refusal == 7
}

fn unit() -> Prices {
    Prices::by_label(vec![1; 256], 1, 0)
}

/// The inputs that stand at the edges of the rules, sound and refused.
fn edges() -> Vec<Vec<u8>> {
    let rep = |piece: &[u8], n: usize| piece.repeat(n);
    let nested = |depth: usize, width_one: &[u8]| {
        let mut bytes = rep(&[0x20, 0, 2, 0, 1], depth);
        bytes.extend(width_one);
        bytes.extend(rep(&[0x21], depth));
        bytes
    };
    let powers = |depth: u32| {
        // 2 to the power of `depth` nodes: each repeat's body is the one inside it.
        let mut bytes = Vec::new();
        for k in (0..depth).rev() {
            let [high, low] = (1u16 << k).to_be_bytes();
            bytes.extend([0x20, 0, 2, high, low]);
        }
        bytes.extend([0x10, 7]);
        bytes.extend(rep(&[0x21], depth as usize));
        bytes
    };
    let groups = |depth: usize| [rep(&[0x11, 1], depth), vec![0x10, 1], rep(&[0x12], depth)].concat();
    vec![
        vec![],
        vec![0x13],
        vec![0x10, 7, 0x21],
        vec![0x10, 7, 0x20],
        vec![0x11, 5],
        vec![0x12],
        vec![0x21],
        vec![0x11, 5, 0x12],
        vec![0x11, 5, 0x21],
        vec![0x20, 0, 2, 0, 1, 0x12],
        vec![0x20, 0, 1, 0, 1, 0x10, 7, 0x21],
        vec![0x20, 0, 0, 0, 1, 0x10, 7, 0x21],
        vec![0x20, 0, 1],
        vec![0x20, 0, 2, 0, 0, 0x21],
        vec![0x20, 0, 2, 0, 0, 0x10, 1, 0x21],
        vec![0x20, 0, 2, 0, 2, 0x10, 7, 0x10, 7, 0x21],
        vec![0x20, 0, 2, 0, 2, 0x10, 7, 0x21],
        vec![0x20, 4, 1, 0, 1, 0x10, 7, 0x21],
        vec![0x20, 4, 1, 0, 2, 0x10, 7, 0x21],
        vec![0x20, 4, 1, 0, 0, 0x10, 7, 0x21],
        vec![0x20, 4, 0, 0, 2, 0x10, 7, 0x21],
        vec![0x20, 4, 0, 0, 1, 0x10, 7, 0x21],
        vec![0x20, 0xFF, 0xFF, 0, 1, 0x10, 7, 0x21],
        vec![0x20, 0xFF, 0xFF, 0xFF, 0xFF, 0x10, 7, 0x21],
        vec![0x20, 0, 2, 4, 0, 0x10, 7, 0x21],
        vec![0x20, 0, 2, 4, 1, 0x10, 7, 0x21],
        vec![0x20, 0, 2, 0xFF, 0xFF, 0x10, 7, 0x21],
        vec![0x10, 1, 0x10, 1],
        vec![0x10],
        vec![0x10, 1, 0x11],
        rep(&[0x11, 1], 9),
        rep(&[0x11, 1], 8),
        [rep(&[0x11, 1], 8), vec![0x11]].concat(),
        groups(8),
        groups(9),
        nested(1, &[0x10, 7]),
        nested(10, &[0x10, 7]),
        nested(11, &[0x10, 7]),
        powers(9),
        powers(10),
        powers(11),
        rep(&[0x10, 1], 1024),
        rep(&[0x10, 1], 1025),
        [rep(&[0x10, 1], 1024), vec![0x11, 1, 0x10, 1, 0x12]].concat(),
        [vec![0x11, 1], rep(&[0x10, 1], 1023), vec![0x12]].concat(),
        [vec![0x11, 1], rep(&[0x10, 1], 1024), vec![0x12]].concat(),
        [vec![0x20, 2, 0, 0, 2], rep(&[0x10, 1], 2), vec![0x21]].concat(),
        [vec![0x20, 2, 1, 0, 2], rep(&[0x10, 1], 2), vec![0x21]].concat(),
    ]
}

/// The folds that stand at the edges of what marks bar, with labels that can be marked in turn.
fn edges_of_marks() -> Vec<Vec<u8>> {
    let open = [0x20, 0, 2, 0, 1];
    let twice = |body: &[u8]| [&open, body, &[0x21]].concat();
    let group = |label: u8, body: &[u8]| [&[0x11, label], body, &[0x12]].concat();
    vec![
        // In a repeat, and in groups in one.
        twice(&[0x10, 0xFF]),
        twice(&group(1, &[0x10, 2])),
        twice(&group(1, &group(2, &[0x10, 3]))),
        // Before, between and behind repeats, also inside another, and with repeats in a group.
        [&[0x10, 1][..], &twice(&[0x10, 2]), &[0x10, 3], &twice(&[0x10, 4]), &[0x10, 5]].concat(),
        [&[0x20, 0, 2, 0, 4, 0x10, 1][..], &twice(&[0x10, 2]), &[0x10, 3, 0x21]].concat(),
        group(1, &[&[0x10, 2][..], &twice(&[0x10, 3]), &[0x10, 4]].concat()),
        // A label that is missing, that of a 9th group, and that of a 1,025th node.
        [&open[..], &[0x10]].concat(),
        [&open[..], &[0x11]].concat(),
        [&open[..], &[0x11, 2].repeat(8), &[0x11, 1]].concat(),
        [&open[..], &[0x10, 2].repeat(1024), &[0x10, 1]].concat(),
        [&open[..], &[0x10, 2].repeat(1024), &[0x11, 1]].concat(),
    ]
}

fn main() {
    let mut args = std::env::args().skip(1).map(|word| word.parse::<u64>().expect("a number"));
    let seed = args.next().unwrap_or(1);
    let scale = args.next().unwrap_or(100) as usize;
    let began = Instant::now();
    let mut c = Compare {
        seed,
        random: Random::new(seed),
        calls: [0; ENTRY_NAMES.len()],
        refusals: [[0; NUMBERS]; ENTRY_NAMES.len()],
        cases: case_names().into_iter().map(|name| (name, 0)).collect(),
        unlike_tables: 0,
        short_answers: 0,
        against_trial: 0,
        written: [0; 2],
        against_lowest: 0,
        longest: 0,
        deepest: 0,
        seasons: Seasons::default(),
        last: Listed::default(),
    };
    let done = |what: &str| println!("{:6.1} s  {what}", began.elapsed().as_secs_f64());

    for input in [edges(), edges_of_marks(), short::edges()].concat() {
        for limit in [1024, 0, 1, 2, 1023, 1025] {
            let prices = c.prices();
            c.fold_readers(&input, limit, &prices);
            c.unroller(&input, limit);
        }
        c.run_reader(&input);
        c.parts(&input);
        c.every_position(&input);
        c.there_and_back(&input);
        c.as_short(&input);
        // Several times, since a lent answer is too short now and then.
        for _ in 0..4 {
            c.marks_in_turn(&input);
            c.wrong_heads(&input);
        }
        for _ in 0..scale {
            c.any_bytes(&input);
        }
    }
    done("the edges of the rules");

    for n in 0..=8 {
        inputs::every_run(n, &mut |items| {
            let run = inputs::bytes_of(items);
            c.run_reader(&run);
            if n <= 6 {
                c.parts(&run);
            }
            if n <= 7 {
                c.whole(items, 1024, &unit());
            }
            let (limit, prices) = (c.limit(), c.prices());
            c.whole(items, limit, &prices);
        });
    }
    done("every run of up to 8 nodes over two labels, groups among them");

    for n in 0..=13 {
        inputs::every_word(n, &mut |items| {
            c.whole(items, 1024, &unit());
            let (limit, prices) = (c.limit(), c.prices());
            c.whole(items, limit, &prices);
        });
    }
    done("every run of up to 13 steps over two labels");

    for n in 0..=6 {
        inputs::every_run(n, &mut |items| {
            for _ in 0..2 {
                let (limit, prices) = (c.limit().min(1024), c.sound_prices());
                c.trial(items, limit, &prices);
            }
            c.trials_of_ties(items);
            c.trials_of_marks(items);
        });
    }
    for n in 7..=10 {
        inputs::every_word(n, &mut |items| {
            let (limit, prices) = (c.limit().min(1024), c.sound_prices());
            c.trial(items, limit, &prices);
            c.trials_of_ties(items);
            c.trials_of_marks(items);
        });
    }
    done("a trial of every fold of short runs");

    for k in 0..600 * scale {
        let most = match k {
            _ if k % 100 == 0 => 300,
            _ if k % 10 == 0 => 120,
            _ => 40,
        };
        let nodes = 10 + c.random.below(most);
        let labels = 1 + c.random.below(4);
        let mut items = match k % 4 {
            0 => inputs::deep_run(&mut c.random, nodes.max(20), labels, 8),
            1 => inputs::regular_run(&mut c.random, nodes),
            _ => {
                let depth = c.random.below(9);
                inputs::structured_run(&mut c.random, nodes, labels, depth)
            }
        };
        c.rare_labels(&mut items);
        let run = inputs::bytes_of(&items);
        c.run_reader(&run);
        let at = c.random.below(run.len());
        c.part(&run, at);
        let (limit, prices) = (c.limit(), c.prices());
        c.whole(&items, limit, &prices);
    }
    done("structured and regular runs, groups down to eight levels");

    // Marks far apart, whatever is drawn.
    let far = inputs::families::steps(inputs::word("(a^50 d)^n", MAX_NODES));
    c.cost_and_repeats(&far, MAX_WIDTH, &Prices { marks: marking(|label| label == 4), ..unit() });
    for k in 0..2 * scale {
        let nodes = if k % 4 == 0 { 1024 } else { 300 + c.random.below(725) };
        let (labels, depth) = (1 + c.random.below(4), c.random.below(9));
        let mut items = match k % 3 {
            0 => inputs::structured_run(&mut c.random, nodes, labels, depth),
            1 => inputs::deep_run(&mut c.random, nodes, labels, 8),
            _ => inputs::regular_run(&mut c.random, nodes),
        };
        c.rare_labels(&mut items);
        let (limit, prices) = (c.limit().min(1024), c.sound_prices());
        c.cost_and_repeats(&items, limit, &prices);
    }
    done("long runs, by cost and repeats");

    for k in 0..200 * scale {
        let nodes = match k {
            _ if k % 200 < 2 => 1024,
            _ if k % 10 < 2 => 1 + c.random.below(300),
            _ => 1 + c.random.below(40),
        };
        let (labels, groups, repeats) = (1 + c.random.below(4), c.random.below(9), c.random.below(11));
        let make = if k % 2 == 0 { inputs::random_fold } else { inputs::wide_fold };
        let fold = inputs::bytes_of(&make(&mut c.random, nodes, labels, groups, repeats));
        c.every_position(&fold);
        c.there_and_back(&fold);
    }
    done("every position of folds, and to their short forms and back");

    c.border_runs();
    for k in 0..1000 * scale {
        c.short_folds(k);
    }
    done("short folds, sound and damaged, and counts and widths near 256");

    for _ in 0..8000 * scale {
        let size = 1 + c.random.below(40);
        let (labels, depth) = (1 + c.random.below(3), c.random.below(9));
        let fold = inputs::bytes_of(&inputs::random_fold(&mut c.random, size, labels, depth, 5));
        let fold = if c.random.once_in(5) { fold } else { inputs::damaged(&mut c.random, &fold) };
        c.any_bytes(&fold);
    }
    done("damaged folds");

    for k in 0..8000 * scale {
        let commands = c.random.below(30);
        let family = if k % 4 == 0 { Family::Short } else { Family::Long };
        let bytes = inputs::random_commands(&mut c.random, family, commands);
        c.any_bytes(&bytes);
    }
    done("random commands");

    for k in 0..2000 * scale {
        // Any bytes at all, or those that commands are made of.
        let few = [0x10, 0x11, 0x12, 0x20, 0x21, 0x22, 0, 1, 2];
        let byte = |r: &mut Random| if k % 2 == 0 { r.byte() } else { *r.pick(&few) };
        let bytes: Vec<u8> = (0..c.random.below(20)).map(|_| byte(&mut c.random)).collect();
        c.any_bytes(&bytes);
    }
    done("random bytes");

    for input in [season::edges(), season::long_edges()].concat() {
        c.season_edge(&input);
    }
    done("the edges of seasons");

    for n in 0..=12 {
        inputs::every_word(n, &mut |items| {
            let labels: Vec<u8> = inputs::bytes_of(items).chunks(2).map(|step| step[1]).collect();
            c.season(&labels, SEASON_WIDTH, &unit());
            let (limit, prices) = (c.limit().min(SEASON_WIDTH), c.prices());
            c.season(&labels, limit, &prices);
        });
    }
    for n in 0..=10 {
        inputs::every_word(n, &mut |items| {
            let (limit, prices) = (c.limit().min(SEASON_WIDTH), c.sound_prices());
            c.season_trial(items, limit, &prices);
            for each in [0, 1] {
                c.season_trial(items, SEASON_WIDTH, &Prices::by_label(vec![1; 256], 0, each));
            }
        });
    }
    done("flat runs of up to 12 steps over two labels as seasons, and a trial of every fold of the shorter ones");

    for k in 0..200 * scale {
        c.season_run(k);
    }
    done("flat runs of up to 1,024 steps as seasons");

    c.long_seasons(scale);
    done("long seasons");

    for k in 0..2000 * scale {
        c.damaged_season(k);
    }
    done("season runs and season folds, sound and damaged");

    let mut missing = Vec::new();
    println!("\nrefusals seen, by number (0: accepted)");
    for entry in 0..ENTRY_NAMES.len() {
        if entry == Part as usize {
            continue;
        }
        let seen: Vec<String> = (0..NUMBERS)
            .filter(|&n| c.refusals[entry][n] > 0)
            .map(|n| format!("{n}: {}", c.refusals[entry][n]))
            .collect();
        println!("  {:17} {}", ENTRY_NAMES[entry], seen.join("  "));
        for &number in POSSIBLE[entry] {
            if c.refusals[entry][number as usize] == 0 {
                missing.push(format!("{} {number}", ENTRY_NAMES[entry]));
            }
        }
    }
    println!("  answer slice too short: {}", c.short_answers);
    if !missing.is_empty() {
        println!("REFUSALS NEVER SEEN: {}", missing.join(", "));
        exit(1);
    }
    if c.unlike_tables == 0 {
        println!("NO FOLD WITH GROUPS PRICED UNLIKE STEPS");
        exit(1);
    }
    println!("\n9 and 10 together, marks, ties, indexes and positions, the short family, and seasons");
    for case in case_names() {
        println!("  {case:67} {:8}", c.cases[&case]);
    }
    let missing: Vec<String> = case_names().into_iter().filter(|case| c.cases[case] == 0).collect();
    if !missing.is_empty() {
        println!("CASES NEVER SEEN: {}", missing.join(", "));
        exit(1);
    }
    println!("\ncompared calls");
    for (name, calls) in ENTRY_NAMES.iter().zip(c.calls) {
        println!("  {name:17} {calls:9}");
    }
    println!(
        "  folds written and compared byte for byte: {}, and {} in their short form, {} of all with groups priced unlike steps; runs held to a trial of every fold: {}; long runs held to the lowest cost and the fewest repeats: {}",
        c.written[0], c.written[1], c.unlike_tables, c.against_trial, c.against_lowest
    );
    println!("  longest run {} nodes, deepest group {} levels", c.longest, c.deepest);
    println!(
        "  season folds written and compared byte for byte: {}, the longest of {} steps; runs whose season fold is the folder's: {}; held to a trial of every fold: {}",
        c.seasons.written, c.seasons.longest, c.seasons.as_first, c.seasons.against_trial
    );
    println!(
        "total {} calls compared, 0 differences, seed {seed}, scale {scale}, {:.0} s",
        c.calls.iter().sum::<u64>(),
        began.elapsed().as_secs_f64()
    );
}
