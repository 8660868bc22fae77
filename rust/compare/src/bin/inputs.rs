//! Writes the runs of 1,024 nodes and the prices of the benchmark to standard output, for scripts/beside.sh. The parts of a line
//! stand between tabs: `prices`, a name and 514 numbers, the costs of steps, the costs of groups, first and each (no label is
//! marked); or `run`, a family and the bytes in hexadecimal.

use compare::inputs::{bytes_of, families, price_sets};
use runfold::MAX_NODES;

fn main() {
    for (name, prices) in price_sets() {
        let numbers = prices.steps.iter().chain(&prices.groups).chain([&prices.first, &prices.each]);
        let numbers: Vec<String> = numbers.map(u16::to_string).collect();
        println!("prices\t{name}\t{}", numbers.join(" "));
    }
    for (which, family) in families::all().into_iter().enumerate() {
        for instance in 0..family.instances {
            let run = bytes_of(&families::run(which, MAX_NODES, instance));
            let hex: String = run.iter().map(|byte| format!("{byte:02x}")).collect();
            println!("run\t{}\t{hex}", family.name);
        }
    }
}
