//! The plot of the benchmark: the folder's time over the number of nodes.

use crate::inputs::families::{self, Family, Kind};
use crate::measured::{is_found, slowest, Row, SIZES};
use runfold::MAX_NODES;
use std::fmt::Write;

/// The panels of the plot.
const PANELS: [(Kind, &str); 4] = [
    (Kind::Steps, "Runs of steps"),
    (Kind::Slips, "Powers with slips"),
    (Kind::Powers, "Repeated long powers; found runs at 1,024 nodes"),
    (Kind::Groups, "Runs of groups"),
];

const COLOURS: [&str; 8] = ["#1b6ca8", "#c0392b", "#27ae60", "#8e44ad", "#e67e22", "#16a2b8", "#d63384", "#7f5539"];

/// The guides: quadratic and cubic growth.
const GUIDES: [(i32, &str); 2] = [(2, "n²"), (3, "n³")];

/// The folder's time over nodes, both on logarithmic scales, at the slowest prices: a panel for each kind of runs.
pub fn plot_text(rows: &[Row]) -> String {
    let (width, height) = (1140, 740);
    let mut svg = format!(
        "<!-- Time of the folder over the number of nodes. Written by scripts/benchmark.sh. -->
<svg xmlns=\"http://www.w3.org/2000/svg\" viewBox=\"0 0 {width} {height}\" font-family=\"sans-serif\" font-size=\"12\">
<rect width=\"{width}\" height=\"{height}\" fill=\"white\"/>
<text x=\"20\" y=\"26\" font-size=\"14\">Time of one call of the folder, at the slowest of four prices; in the legends the milliseconds at 1,024 nodes; dotted: growth as n² and n³</text>
"
    );
    let panels = PANELS.map(|(kind, title)| Panel::new(rows, kind, title));
    // One scale for all panels.
    let (mut low, mut high) = (f64::INFINITY, 0.0f64);
    for panel in &panels {
        for time in panel.lines.iter().flat_map(|line| line.times).chain(GUIDES.map(|(power, _)| panel.guide(power))) {
            (low, high) = (low.min(time), high.max(time));
        }
    }
    let scale = (low.log10() - 0.1, high.log10() + 0.1);
    for (k, panel) in panels.iter().enumerate() {
        panel.draw(&mut svg, (20.0 + 560.0 * (k % 2) as f64, 45.0 + 345.0 * (k / 2) as f64), scale);
    }
    svg += "</svg>\n";
    svg
}

/// A line of the plot, or its last point alone: what it shows, and the times at each size.
struct Line {
    name: &'static str,
    times: [f64; 4],
    alone: bool,
    colour: &'static str,
    dash: &'static str,
}

struct Panel {
    title: &'static str,
    /// *Blocked*, then the families, the slowest first.
    lines: Vec<Line>,
}

impl Panel {
    fn new(rows: &[Row], kind: Kind, title: &'static str) -> Panel {
        let blocked = SIZES.map(|nodes| {
            let those = rows.iter().filter(|row| row.family.kind == kind && row.nodes == nodes);
            those.map(|row| row.times[3]).fold(f64::INFINITY, f64::min)
        });
        let blocked =
            Line { name: "blocked, lowest of these", times: blocked, alone: false, colour: "#222", dash: "6 3" };
        let mut those: Vec<&Family> = families::all().into_iter().filter(|family| family.kind == kind).collect();
        let time = |family: &Family, nodes| slowest(rows, family, nodes).times[0];
        those.sort_by(|a, b| time(b, MAX_NODES).total_cmp(&time(a, MAX_NODES)));
        let of_family = |(k, family): (usize, &Family)| Line {
            name: family.name,
            times: SIZES.map(|nodes| time(family, nodes)),
            // Cut, a found run is of another shape.
            alone: is_found(family),
            colour: COLOURS[k % COLOURS.len()],
            dash: "",
        };
        let lines = [blocked].into_iter().chain(those.into_iter().enumerate().map(of_family)).collect();
        Panel { title, lines }
    }

    /// The highest time of the folder at the smallest size, where the guides begin: a line that ends above one grew by more.
    fn start(&self) -> f64 {
        self.lines[1..].iter().filter(|line| !line.alone).map(|line| line.times[0]).fold(0.0, f64::max)
    }

    /// Where a guide ends.
    fn guide(&self, power: i32) -> f64 {
        self.start() * (MAX_NODES as f64 / SIZES[0] as f64).powi(power)
    }

    fn draw(&self, svg: &mut String, corner: (f64, f64), (low, high): (f64, f64)) {
        let (left, top, across, down) = (corner.0 + 55.0, corner.1 + 30.0, 228.0, 265.0);
        let (right, bottom) = (left + across, top + down);
        let x = |nodes: usize| left + (nodes as f64 / SIZES[0] as f64).log2() / 3.0 * across;
        let y = |seconds: f64| bottom - (seconds.log10() - low) / (high - low) * down;
        let _ = writeln!(svg, "<text x=\"{left}\" y=\"{}\" font-weight=\"bold\">{}</text>", top - 12.0, self.title);
        let _ = writeln!(
            svg,
            "<rect x=\"{left}\" y=\"{top}\" width=\"{across}\" height=\"{down}\" fill=\"none\" stroke=\"#ddd\"/>"
        );
        for decade in low.ceil() as i32..=high.floor() as i32 {
            let (at, ms) = (y(10f64.powi(decade)), 10f64.powi(decade + 3));
            let _ = writeln!(svg, "<line x1=\"{left}\" x2=\"{right}\" y1=\"{at:.1}\" y2=\"{at:.1}\" stroke=\"#ddd\"/>");
            let _ =
                writeln!(svg, "<text x=\"{}\" y=\"{:.1}\" text-anchor=\"end\">{ms} ms</text>", left - 6.0, at + 4.0);
        }
        for nodes in SIZES {
            let at = x(nodes);
            let _ = writeln!(svg, "<line x1=\"{at:.1}\" x2=\"{at:.1}\" y1=\"{top}\" y2=\"{bottom}\" stroke=\"#ddd\"/>");
            let _ = writeln!(svg, "<text x=\"{at:.1}\" y=\"{}\" text-anchor=\"middle\">{nodes}</text>", bottom + 17.0);
        }
        let _ = writeln!(
            svg,
            "<text x=\"{}\" y=\"{}\" text-anchor=\"middle\">nodes</text>",
            left + across / 2.0,
            bottom + 34.0
        );
        for (power, name) in GUIDES {
            let end = y(self.guide(power));
            *svg += &polyline(&[(left, y(self.start())), (right, end)], "stroke=\"#888\" stroke-dasharray=\"1 3\"");
            let _ = writeln!(svg, "<text x=\"{}\" y=\"{:.1}\" fill=\"#666\">{name}</text>", right + 8.0, end + 4.0);
        }
        // The slowest are drawn last, over the others.
        for (k, line) in self.lines.iter().enumerate().rev() {
            let Line { name, times, colour, dash, alone } = line;
            let style = format!("stroke=\"{colour}\" stroke-width=\"2\" stroke-dasharray=\"{dash}\"");
            let points: Vec<(f64, f64)> = SIZES.iter().zip(times).map(|(&nodes, &time)| (x(nodes), y(time))).collect();
            let points = if *alone { &points[3..] } else { &points[..] };
            let (from, at) = (right + 36.0, top + 8.0 + 22.0 * k as f64);
            if !alone {
                *svg += &polyline(points, &style);
                *svg += &polyline(&[(from, at), (from + 26.0, at)], &style);
            }
            for (x, y) in points.iter().chain(&[(from + 13.0, at)]) {
                *svg += &mark(k, *x, *y, colour);
            }
            let ms = times[3] * 1e3;
            let _ = writeln!(svg, "<text x=\"{}\" y=\"{}\" text-anchor=\"end\">{ms:.2}</text>", from + 64.0, at + 4.0);
            let _ = writeln!(svg, "<text x=\"{}\" y=\"{}\">{name}</text>", from + 70.0, at + 4.0);
        }
    }
}

fn joined(points: &[(f64, f64)]) -> String {
    let points: Vec<String> = points.iter().map(|(x, y)| format!("{x:.1},{y:.1}")).collect();
    points.join(" ")
}

fn polyline(points: &[(f64, f64)], style: &str) -> String {
    format!("<polyline points=\"{}\" fill=\"none\" {style}/>\n", joined(points))
}

/// The mark of a line at its points: none for the first, then circle, square, triangle and diamond in turn.
fn mark(k: usize, x: f64, y: f64, colour: &str) -> String {
    let corners: &[(f64, f64)] = match k % 4 {
        _ if k == 0 => return String::new(),
        1 => return format!("<circle cx=\"{x:.1}\" cy=\"{y:.1}\" r=\"3.5\" fill=\"{colour}\"/>\n"),
        2 => &[(-3.2, -3.2), (3.2, -3.2), (3.2, 3.2), (-3.2, 3.2)],
        3 => &[(0.0, -4.2), (4.0, 3.2), (-4.0, 3.2)],
        _ => &[(0.0, -4.5), (4.5, 0.0), (0.0, 4.5), (-4.5, 0.0)],
    };
    let corners: Vec<(f64, f64)> = corners.iter().map(|(a, b)| (x + a, y + b)).collect();
    format!("<polygon points=\"{}\" fill=\"{colour}\"/>\n", joined(&corners))
}
