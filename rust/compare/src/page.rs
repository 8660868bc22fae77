//! The page of the benchmark: its tables, and in words what they show. All of it follows from what was measured.

use crate::inputs::families::{self, Kind, SEARCHED};
use crate::measured::{highest, is_found, power, slowest, Finding, Row, SIZES};
use runfold::MAX_NODES;
use std::fmt::Write;

/// The report's method in the order of the times.
const METHODS: [&str; 3] = ["plain", "transposed", "blocked"];
/// The rows of a short table, by each number that it goes by.
const SHORT_TABLE: usize = 5;

/// What is measured, how it was compiled, and how many of its instructions name a vector register of 16, 32 and 64 bytes.
pub struct Code {
    name: String,
    compiler: String,
    flags: String,
    vectors: Option<[u64; 3]>,
}

impl Code {
    /// From a line such as `plain|cc 12.2.0|-O3|7 0 0`; there may be no counts.
    pub fn new(line: &str) -> Option<Code> {
        let [name, compiler, flags, counts] = line.split('|').collect::<Vec<_>>().try_into().ok()?;
        let counts: Vec<u64> = counts.split_whitespace().map(str::parse).collect::<Result<_, _>>().ok()?;
        let vectors = if counts.is_empty() { None } else { Some(counts.try_into().ok()?) };
        Some(Code { name: name.into(), compiler: compiler.into(), flags: flags.into(), vectors })
    }
}

/// What the page is written from.
pub struct Results<'a> {
    pub date: &'a str,
    pub machine: &'a str,
    pub codes: &'a [Code],
    pub rows: &'a [Row],
    pub findings: &'a [Finding],
    /// How many folds were read back and unrolled.
    pub checked: u64,
    /// The seconds that clearing both work slices takes.
    pub clearing: f64,
}

/// A number with a comma before its last three digits.
fn thousands(n: u64) -> String {
    match n {
        ..1000 => n.to_string(),
        _ => format!("{},{:03}", n / 1000, n % 1000),
    }
}

/// Words in lines of at most 128 columns.
fn wrapped(text: &str) -> String {
    let (mut lines, mut columns) = (String::new(), 0);
    for word in text.split(' ') {
        let more = word.chars().count();
        if columns > 0 && columns + 1 + more > 128 {
            lines.push('\n');
            columns = 0;
        } else if columns > 0 {
            lines.push(' ');
            columns += 1;
        }
        lines += word;
        columns += more;
    }
    lines
}

/// The lowest and the highest of some numbers.
fn range(numbers: &[f64]) -> String {
    let [low, high] = [f64::min, f64::max].map(|of| numbers.iter().copied().reduce(of).expect("a number"));
    let [low, high] = [low, high].map(|number| format!("{number:.3}"));
    if low == high {
        low
    } else {
        format!("{low} to {high}")
    }
}

fn codes_table(codes: &[Code]) -> String {
    let mut table = String::from("| code | compiled by | flags | xmm, ymm, zmm |\n|---|---|---|---:|\n");
    for Code { name, compiler, flags, vectors } in codes {
        let vectors = vectors.map_or("–".into(), |counts| counts.map(|n| n.to_string()).join(", "));
        let _ = writeln!(table, "| {name} | {compiler} | {flags} | {vectors} |");
    }
    table
}

/// What the counts say of the folder's code.
fn folder_vectors(codes: &[Code]) -> String {
    match codes.iter().find(|code| code.name == "folder").and_then(|code| code.vectors) {
        Some([_, 0, 0]) => "The folder's code has none of 32 or 64 bytes.".into(),
        Some([_, ymm, zmm]) => format!("The folder's code has {ymm} of 32 and {zmm} of 64 bytes."),
        None => "The folder's code was not looked at.".into(),
    }
}

/// The runs of 1,024 nodes on which a number is highest, each at the prices where it is.
fn top(rows: &[Row], of: impl Fn(&Row) -> f64) -> Vec<&Row> {
    let at_its_highest = |family| highest(rows.iter().filter(|row| row.is_of(family, MAX_NODES)), &of);
    let mut top: Vec<&Row> = families::all().into_iter().map(at_its_highest).collect();
    top.sort_by(|a, b| of(b).total_cmp(&of(a)));
    top.truncate(SHORT_TABLE);
    top
}

/// The runs on which the folder is slowest, or fastest where `sign` is −1.
fn short_table(rows: &[Row], name: &str, sign: f64) -> String {
    let mut table = format!("| {name} by | run | prices | folder, ms | of plain | of transposed | of blocked |\n");
    table += "|---|---|---|---:|---:|---:|---:|\n";
    let by_part = top(rows, |row| sign * row.parts()[2]);
    let by_time = top(rows, |row| sign * row.times[0]);
    for (by, rows) in [("part of *blocked*", by_part), ("milliseconds", by_time)] {
        for row in rows {
            let [plain, transposed, blocked] = row.parts();
            let _ = writeln!(
                table,
                "| {by} | {} | {} | {:.2} | {plain:.3} | {transposed:.3} | {blocked:.3} |",
                row.family.name,
                row.prices,
                row.times[0] * 1e3
            );
        }
    }
    table
}

/// The highest parts at 1,024 nodes.
fn highest_parts(rows: &[Row]) -> String {
    let [steps, groups] = [false, true].map(|groups| {
        let parts = [0, 1, 2].map(|method| {
            let those = rows.iter().filter(|row| row.nodes == MAX_NODES && (row.family.kind == Kind::Groups) == groups);
            format!("{:.3} of *{}*", highest(those, |row| row.parts()[method]).parts()[method], METHODS[method])
        });
        parts.join(", ")
    });
    wrapped(&format!("At 1,024 nodes it takes at most {steps} on runs of steps, and {groups} on runs of groups."))
}

/// Where the folder takes as long as another method or longer, at any size.
fn losses(rows: &[Row]) -> String {
    let lost = |row: &&Row| row.parts().iter().any(|&part| part >= 1.0);
    let (lost, cases) = (rows.iter().filter(lost).count(), rows.len());
    let prices = rows.iter().filter(|row| row.is_of(rows[0].family, rows[0].nodes)).count();
    let mut text =
        format!("Of the {cases} cases measured (a run at one of {} sizes and one of {prices} prices) ", SIZES.len());
    text += "the folder takes as long as another method, or longer, in ";
    if lost == 0 {
        return wrapped(&(text + "none.\n"));
    }
    text = wrapped(&format!("{text}{lost}:\n\n"));
    let mut never = METHODS.to_vec();
    for family in families::all() {
        for nodes in SIZES {
            let those: Vec<&Row> = rows.iter().filter(|row| row.is_of(family, nodes)).collect();
            let mut against = Vec::new();
            for (method, name) in METHODS.iter().enumerate() {
                let parts: Vec<f64> = those.iter().map(|row| row.parts()[method]).filter(|&part| part >= 1.0).collect();
                if !parts.is_empty() {
                    against.push(format!("{} of *{name}* at {} of {} prices", range(&parts), parts.len(), those.len()));
                    never.retain(|other| other != name);
                }
            }
            if !against.is_empty() {
                let _ = writeln!(text, "- {}, {} nodes: {}", family.name, thousands(nodes as u64), against.join("; "));
            }
        }
    }
    if !never.is_empty() {
        let never: Vec<String> = never.iter().map(|name| format!("*{name}*")).collect();
        let _ = writeln!(text, "\nIt is ahead of {} in every case.", never.join(" and "));
    }
    text
}

fn families_table() -> String {
    let mut table = String::from("| run | what it is | how many |\n|---|---|---:|\n");
    for family in families::all() {
        let about = family.word().map_or(family.about.to_string(), |word| format!("`{word}`"));
        let _ = writeln!(table, "| {} | {about} | {} |", family.name, family.instances);
    }
    table
}

/// The folder's part of each method's time at 1,024 nodes, lowest to highest over the prices.
pub fn summary_table(rows: &[Row]) -> String {
    let mut table =
        String::from("| run of 1,024 nodes | of plain | of transposed | of blocked |\n|---|---:|---:|---:|\n");
    for family in families::all() {
        let cells = [0, 1, 2].map(|method| {
            let those = rows.iter().filter(|row| row.is_of(family, MAX_NODES));
            range(&those.map(|row| row.parts()[method]).collect::<Vec<_>>())
        });
        let _ = writeln!(table, "| {} | {} |", family.name, cells.join(" | "));
    }
    table
}

fn full_table(rows: &[Row]) -> String {
    let mut table = String::from(
        "| run of 1,024 nodes | prices | folder, ms | plain, ms | transposed, ms | blocked, ms | of plain | of transposed | of blocked |\n|---|---|---:|---:|---:|---:|---:|---:|---:|\n",
    );
    for row in rows.iter().filter(|row| row.nodes == MAX_NODES) {
        let [ours, plain, transposed, blocked] = row.times.map(|time| time * 1e3);
        let [a, b, c] = row.parts();
        let _ = writeln!(
            table,
            "| {} | {} | {ours:.2} | {plain:.1} | {transposed:.2} | {blocked:.2} | {a:.3} | {b:.3} | {c:.3} |",
            row.family.name, row.prices
        );
    }
    table
}

fn growth_table(rows: &[Row]) -> String {
    let mut table = String::from(
        "| run | 128 | 256 | 512 | 1,024 | power, 128 to 1,024 | power, 512 to 1,024 |\n|---|---:|---:|---:|---:|---:|---:|\n",
    );
    for family in families::all() {
        let cells = SIZES.map(|nodes| {
            let row = slowest(rows, family, nodes);
            let [plain, transposed, blocked] = row.parts();
            format!("{:.3} ({plain:.3}, {transposed:.2}, {blocked:.2})", row.times[0] * 1e3)
        });
        let powers = [SIZES[0], SIZES[2]].map(|from| match is_found(family) {
            true => "–".to_string(),
            false => format!("{:.2}", power(rows, family, from, MAX_NODES)),
        });
        let _ = writeln!(table, "| {} | {} | {} |", family.name, cells.join(" | "), powers.join(" | "));
    }
    table
}

/// The highest powers that were measured.
fn steepest(rows: &[Row]) -> String {
    let [whole, last] = [SIZES[0], SIZES[2]].map(|from| {
        let power = |family| power(rows, family, from, MAX_NODES);
        let listed = families::all().into_iter().filter(|family| !is_found(family));
        let family = listed.max_by(|a, b| power(a).total_cmp(&power(b))).expect("a family");
        format!("{:.2} from {from} to 1,024 nodes ({})", power(family), family.name)
    });
    wrapped(&format!(
        "The highest powers of the whole time that were measured: {whole} and {last}; 2 is quadratic, 3 cubic."
    ))
}

/// Finding beside unrolling, in microseconds.
pub fn finding_table(findings: &[Finding]) -> String {
    let mut table = String::from(
        "| fold of 1,024 nodes | bytes | outermost items | unrolling, µs | finding, µs | at its slowest, µs | finding of unrolling | at its slowest | reading, µs | reading of finding | building the index, µs |\n|---|---:|---:|---:|---:|---:|---:|---:|---:|---:|---:|\n",
    );
    for row in findings {
        let [unrolling, finding, slowest, reading, building] =
            [row.unrolling, row.finding, row.slowest, row.reading, row.building]
                .map(|time| format!("{:.2}", time * 1e6));
        let [mean_part, slowest_part] = row.parts();
        let _ = writeln!(
            table,
            "| {} | {} | {} | {unrolling} | {finding} | {slowest} | {mean_part:.2} | {slowest_part:.2} | {reading} | {:.2} | {building} |",
            row.fold,
            thousands(row.bytes as u64),
            thousands(row.items as u64),
            row.reading / row.finding
        );
    }
    table
}

/// The folds on which finding takes as long as unrolling, or longer.
pub fn finding_losses(findings: &[Finding]) -> String {
    let [mean, slowest] = [0, 1].map(|which| {
        let lost = findings.iter().filter(|row| row.parts()[which] >= 1.0);
        let lost: Vec<String> = lost.map(|row| format!("{} ({:.2})", row.fold, row.parts()[which])).collect();
        match lost.len() {
            0 => "none".to_string(),
            n => format!("{n}: {}", lost.join("; ")),
        }
    });
    wrapped(&format!(
        "Of these {} folds, finding takes as long as unrolling, or longer, in the mean on {mean}. At the slowest position it does \
         on {slowest}.",
        findings.len()
    ))
}

/// The page.
pub fn page_text(results: &Results) -> String {
    let &Results { date, machine, codes, rows, findings, checked, clearing } = results;
    let (seconds, tried) = SEARCHED;
    format!(
        "<!-- How fast the folder is beside the report's method, and finding beside unrolling. Written by scripts/benchmark.sh. -->
# The folder beside the report's method

Measured on {date} in one run, on one processor. `scripts/benchmark.sh` measures again and writes this page.

{machine}

{codes_table}
{vectors}

## Where the folder is slowest

Runs of 1,024 nodes, each at the prices where the folder is slowest: its highest parts of *blocked*'s time, and its longest
times.

{slowest}
{highest_parts}

{losses}
The folder leaves both work slices cleared, as docs/FORMAT.md asks. For 1,024 nodes that takes {clearing:.2} ms by itself (the
same stores, timed in the same run), whatever the run is; the other methods need nothing of the kind. What is close here may
turn on another machine: docs/DECISIONS.md, Speed, speaks of one.

## Where it is fastest

The same at the prices where the folder is fastest: its lowest parts of *blocked*'s time, and its shortest times.

{fastest}
## What grows how

| part of a fold | grows with |
|---|---|
| reading, listing the nodes, writing | the run |
| classing the siblings | in each sequence, siblings times different siblings to compare, and at worst the square to pass over |
| matches, how many siblings equal those further on | the square of each sequence |
| clearing | n(n + 1)/2 entries of both work slices, whatever the run is |
| solving | at worst the cube of the longest sequence: a stretch that is cheapest as one repeat is offered to all longer ones in its row |

{steepest}

The folder's milliseconds at the prices where it takes longest, and in parentheses its part of plain, transposed and blocked
there. Power: the p for which n^p grew as much. The found runs have none: cut, they are of another shape.

{growth}
![Growth of the folder's time](benchmark.svg)

## What is compared

All on the same bytes:

- *folder*: `runfold_fold` of the static library, the proved code. From the run's bytes to the fold's bytes: it reads and checks
  the run, fills the table, measures and writes the fold, and clears the lent work.
- *plain*: Figure 1 of the report in C, line by line, under its Figure 6 for groups.
- *transposed*: a vectorised form. The same table with a transposed copy, so that the inner loop runs over two contiguous rows;
  rows from the last to the first; copies counted once for each pair of letters.
- *blocked*: a vectorised form too. The same table in blocks of four rows by four columns. It is the fastest form of the report's
  method that we wrote on long sequences; on short ones, as those of groups, *transposed* is faster.

Around the report's forms stands Rust: one pass over the run lists the siblings of each sequence, with letters from a hash table,
and behind each sequence a cheapest fold is written too, any one of them: they have no tie rule. Width limit 1,024. Memory is
allocated once and used again in every round; the folder's work is 0 at entry and at exit, the others set up their tables
themselves. A time is processor time, the lowest of at least five rounds (plain on long
runs: two, and one on powers); in a round each method runs once. Where a family has several runs the mean is given. The costs of
all four are compared on every input, and each fold is read back and unrolled ({checked} folds in this run). No time is a test.

Unit prices are 1 for each label, first 1, each 0; the prices \"first 0\" have 1 for each label too; random prices are up to
1,000 a label, steps and groups each by themselves, first up to 2,000 and each up to 100. No label is marked: the report's
method knows no marks.

## The runs

Runs follow from fixed seeds (`rust/compare/src/inputs.rs`). A word such as `a^3 b`, that is aaab, stands for its first n
letters as steps.

{families}
The runs named *found* come from a search for slow ones (`scripts/climb.sh`): it changes words of a few blocks, again and
again, and keeps a change where the folder then takes more of *blocked*'s time. Its last search, before this run, took
{seconds} seconds, a quarter of them at each price, and tried {tried} runs of 1,024 steps. The slowest at each price is
listed; at the smaller sizes it is cut.

## Finding beside unrolling

One call of `runfold_find` beside one of `runfold_unroll`, on folds of 1,024 nodes. Both read and check the whole fold first, and
the finder the whole index with it. *Reading*, the fold reader on the same bytes, is a measure of that part. Microseconds of
processor time, the lowest of nine rounds, each with as many calls at once as the clock needs; in a round every function is timed
once, and finding once at each of the 1,024 positions. Every answer of the finder is compared with the independent
implementation's. A fold named *cheapest* is that of the first run of a family above, at unit prices.
`scripts/benchmark.sh finding` measures this alone.

{finding_table}
{finding_losses}

## All times at 1,024 nodes

The folder's part of each method's time, lowest to highest over the prices:

{summary}
Each by itself:

{full}",
        machine = wrapped(&format!("Machine: {machine}.")),
        codes_table = codes_table(codes),
        vectors = wrapped(&format!(
            "Plain, transposed and blocked are forms of the report's method (\"What is compared\", below). The last column \
             counts the instructions that name a vector register of 16, 32 and 64 bytes. {}",
            folder_vectors(codes)
        )),
        slowest = short_table(rows, "slowest", 1.0),
        highest_parts = highest_parts(rows),
        losses = losses(rows),
        clearing = clearing * 1e3,
        fastest = short_table(rows, "fastest", -1.0),
        steepest = steepest(rows),
        growth = growth_table(rows),
        checked = thousands(checked),
        families = families_table(),
        seconds = thousands(seconds),
        tried = thousands(tried),
        finding_table = finding_table(findings),
        finding_losses = finding_losses(findings),
        summary = summary_table(rows),
        full = full_table(rows),
    )
}

#[cfg(test)]
mod tests {
    use super::*;

    const PRICES: [&str; 2] = ["low", "high"];

    /// Every family at every size and two prices; the folder takes a tenth of plain's time, a fifth of transposed's and half of
    /// blocked's, and its time grows as the square.
    fn rows() -> Vec<Row> {
        let mut rows = Vec::new();
        for (k, family) in families::all().into_iter().enumerate() {
            for nodes in SIZES {
                for prices in PRICES {
                    let ours = (1.0 + k as f64) * (nodes * nodes) as f64 * 1e-9;
                    rows.push(Row { family, nodes, prices, times: [1.0, 10.0, 5.0, 2.0].map(|times| times * ours) });
                }
            }
        }
        rows
    }

    fn find<'a>(rows: &'a mut [Row], name: &str, nodes: usize, prices: &str) -> &'a mut Row {
        let those = |row: &&mut Row| row.family.name == name && row.nodes == nodes && row.prices == prices;
        rows.iter_mut().find(those).expect("a row")
    }

    #[test]
    fn losses_are_named_at_every_size() {
        let mut rows = rows();
        let cases = rows.len();
        let start = format!("Of the {cases} cases measured (a run at one of 4 sizes and one of 2 prices) ")
            + "the folder takes as long as another method, or longer,\nin ";
        assert_eq!(losses(&rows), format!("{start}none.\n"));
        // As long as blocked, longer than transposed, and one a little short of it.
        for (name, nodes, prices, method, part) in [
            ("one label", 256, "low", 3, 1.0),
            ("groups, small", 1024, "low", 2, 1.25),
            ("groups, small", 1024, "high", 2, 1.5),
            ("Fibonacci word", 1024, "high", 3, 0.9999),
        ] {
            let row = find(&mut rows, name, nodes, prices);
            row.times[method] = row.times[0] / part;
        }
        let lines = "3:\n\n- one label, 256 nodes: 1.000 of *blocked* at 1 of 2 prices
- groups, small, 1,024 nodes: 1.250 to 1.500 of *transposed* at 2 of 2 prices

It is ahead of *plain* in every case.\n";
        assert_eq!(losses(&rows), format!("{start}{lines}"));
    }

    #[test]
    fn short_tables_have_each_run_once_at_its_prices() {
        let mut rows = rows();
        find(&mut rows, "one label", 1024, "high").times[3] /= 1.5;
        find(&mut rows, "groups, small", 1024, "low").times[3] *= 2.0;
        let slowest = short_table(&rows, "slowest", 1.0);
        let fastest = short_table(&rows, "fastest", -1.0);
        let lines = |table: &str, name: &str| {
            table.lines().filter(|line| line.contains(name)).map(String::from).collect::<Vec<_>>()
        };
        assert_eq!(slowest.lines().count(), 2 + 2 * SHORT_TABLE);
        assert_eq!(
            lines(&slowest, "one label"),
            ["| part of *blocked* | one label | high | 4.19 | 0.100 | 0.200 | 0.750 |"]
        );
        assert_eq!(
            lines(&fastest, "groups, small"),
            ["| part of *blocked* | groups, small | low | 8.39 | 0.100 | 0.200 | 0.250 |"]
        );
        // The last family has the longest time, the first the shortest.
        let (first, last) = (families::all()[0].name, families::all().pop().expect("a family").name);
        assert!(slowest.lines().nth(2 + SHORT_TABLE).expect("a line").contains(last));
        assert!(fastest.lines().nth(2 + SHORT_TABLE).expect("a line").contains(first));
    }

    #[test]
    fn the_highest_powers_are_stated() {
        let mut rows = rows();
        for prices in PRICES {
            find(&mut rows, "one label", 1024, prices).times[0] *= 2.0;
        }
        let powers = "2.33 from 128 to 1,024 nodes (one label) and 3.00 from 512 to 1,024 nodes (one label)";
        assert!(steepest(&rows).replace('\n', " ").contains(powers));
    }

    fn finding(fold: &str, finding: f64, slowest: f64) -> Finding {
        let [unrolling, reading, building] = [20e-6, 4e-6, 5e-6];
        Finding { fold: fold.into(), bytes: 2048, items: 8, unrolling, finding, slowest, reading, building }
    }

    #[test]
    fn finding_is_given_as_part_of_unrolling() {
        let rows = [finding("some", 8e-6, 16e-6), finding("others", 25e-6, 30e-6), finding("more", 19.9e-6, 20e-6)];
        let line = "| some | 2,048 | 8 | 20.00 | 8.00 | 16.00 | 0.40 | 0.80 | 4.00 | 0.50 | 5.00 |";
        assert_eq!(finding_table(&rows).lines().nth(2), Some(line));
        let text = |rows: &[Finding]| finding_losses(rows).replace('\n', " ");
        let start =
            "Of these 3 folds, finding takes as long as unrolling, or longer, in the mean on 1: others (1.25). ";
        let end = "At the slowest position it does on 2: others (1.50); more (1.00).";
        assert_eq!(text(&rows), format!("{start}{end}"));
        let start = "Of these 1 folds, finding takes as long as unrolling, or longer, in the mean on none. ";
        assert_eq!(text(&rows[..1]), format!("{start}At the slowest position it does on none."));
    }

    #[test]
    fn lines_have_at_most_128_columns() {
        let words = "word ".repeat(60);
        let lines = wrapped(words.trim());
        assert!(lines.lines().all(|line| line.len() <= 128) && lines.lines().any(|line| line.len() > 128 - 5));
        assert_eq!(lines.replace('\n', " "), words.trim());
    }

    #[test]
    fn wide_vectors_in_the_folder_are_told() {
        let told = |line: &str| folder_vectors(&[Code::new(line).expect("a line")]);
        assert_eq!(told("folder|rt|-O3|125 0 0"), "The folder's code has none of 32 or 64 bytes.");
        assert_eq!(told("folder|rt|-O3|125 3 4"), "The folder's code has 3 of 32 and 4 of 64 bytes.");
        assert!(Code::new("folder|rt|-O3").is_none());
        assert!(Code::new("folder|rt|-O3|1 2").is_none());
    }
}
