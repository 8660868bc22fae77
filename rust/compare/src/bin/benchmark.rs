//! The folder beside the report's method, in one run on the same inputs: Figure 1 as it stands, with a transposed copy, and in
//! blocks. Every cost is compared, and every fold is read back and unrolled. Then finding beside unrolling. Prints the times and
//! writes a page and a plot.
//!
//! Usage: `benchmark PAGE PLOT DATE CODES`, where CODES is a file with a line for each code that is measured: name, compiler,
//! flags, and how many of its instructions name a vector register of 16, 32 and 64 bytes, between bars. `benchmark finding`
//! prints finding beside unrolling alone, and `benchmark season` the season folder beside its method in plain Rust and beside
//! the folder.

use compare::finding;
use compare::inputs::families::{self, Kind};
use compare::inputs::{bytes_of, price_sets};
use compare::machine::machine;
use compare::measured::{Finding, Row, Times, SIZES};
use compare::page::{finding_losses, finding_table, page_text, summary_table, Code, Results};
use compare::plot::plot_text;
use compare::reference::Prices;
use compare::season_timing;
use compare::timing::Bench;
use runfold::MAX_NODES;

/// The mean over the runs of the family at a place.
fn measure(bench: &mut Bench, which: usize, nodes: usize, prices: &Prices) -> Times {
    let family = families::all()[which];
    // The plain method takes most of the time.
    let plain = if matches!(family.kind, Kind::Steps | Kind::Groups) { 2 } else { 1 };
    let mut mean = [0.0; 4];
    for instance in 0..family.instances {
        let run = bytes_of(&families::run(which, nodes, instance));
        let times = bench.measure(family.name, &run, prices, plain);
        for (total, time) in mean.iter_mut().zip(times) {
            *total += time / family.instances as f64;
        }
    }
    mean
}

/// Measures finding beside unrolling, and prints it.
fn findings() -> Vec<Finding> {
    let findings = finding::measure_all();
    println!("{}\n{}", finding_table(&findings), finding_losses(&findings));
    findings
}

fn main() {
    let args: Vec<String> = std::env::args().skip(1).collect();
    if args == ["finding"] {
        findings();
        return;
    }
    if args == ["season"] {
        println!("{}\n{}", machine(), season_timing::report());
        return;
    }
    let [page, plot, date, codes] = &args[..] else {
        panic!("usage: benchmark PAGE PLOT DATE CODES, or benchmark finding, or benchmark season")
    };
    let codes = std::fs::read_to_string(codes).expect("the file of codes is read");
    let codes: Vec<Code> = codes.lines().map(|line| Code::new(line).expect("a line of the file of codes")).collect();
    let mut bench = Bench::default();
    let mut rows = Vec::new();
    for (which, family) in families::all().into_iter().enumerate() {
        for nodes in SIZES {
            for (prices, set) in &price_sets() {
                let row = Row { family, nodes, prices, times: measure(&mut bench, which, nodes, set) };
                let [plain, transposed, blocked] = row.parts();
                println!(
                    "{}, {nodes} nodes, {prices}: {:.3} ms, {plain:.3} of plain, {transposed:.3} of transposed, {blocked:.3} of blocked",
                    family.name,
                    row.times[0] * 1e3
                );
                rows.push(row);
            }
        }
    }
    let groups = families::all().iter().rposition(|family| family.kind == Kind::Groups).expect("a family of groups");
    let clearing = bench.clearing(&bytes_of(&families::run(groups, MAX_NODES, 0)), &price_sets()[0].1);
    println!("\n{}", summary_table(&rows));
    println!("{} folds read back, all costs agree", bench.checked);
    println!("clearing both work slices takes {:.3} ms\n", clearing * 1e3);
    let findings = &findings();
    let machine = &machine();
    let checked = bench.checked as u64;
    let results = Results { date, machine, codes: &codes, rows: &rows, findings, checked, clearing };
    std::fs::write(page, page_text(&results)).expect("the page is written");
    std::fs::write(plot, plot_text(&rows)).expect("the plot is written");
}
