//! Inputs for the comparisons and the benchmark. All follow from a seed.

use crate::reference::{bytes_in, count_nodes, expand, Family, Item, Prices};
use runfold::MAX_NODES;

/// A small generator of pseudo-random numbers: a counter with a fixed odd stride, whose bits are mixed by shifts and products
/// (stride and factors are the first bits of the golden ratio, of pi and of e).
#[derive(Clone)]
pub struct Random(u64);

impl Random {
    pub fn new(seed: u64) -> Random {
        Random(seed.wrapping_mul(0x243F_6A88_85A3_08D3))
    }

    pub fn word(&mut self) -> u64 {
        self.0 = self.0.wrapping_add(0x9E37_79B9_7F4A_7C15);
        let mut x = self.0;
        x = (x ^ (x >> 31)).wrapping_mul(0x243F_6A88_85A3_08D3);
        x = (x ^ (x >> 29)).wrapping_mul(0xB7E1_5162_8AED_2A6B);
        x ^ (x >> 32)
    }

    /// A number below n.
    pub fn below(&mut self, n: usize) -> usize {
        ((self.word() >> 11) % n as u64) as usize
    }

    pub fn byte(&mut self) -> u8 {
        self.below(256) as u8
    }

    /// True once in n times.
    pub fn once_in(&mut self, n: usize) -> bool {
        self.below(n) == 0
    }

    pub fn pick<'a, T>(&mut self, from: &'a [T]) -> &'a T {
        &from[self.below(from.len())]
    }
}

pub fn bytes_of(items: &[Item]) -> Vec<u8> {
    bytes_in(Family::Long, items)
}

/// Calls `each` on every run of exactly n nodes over labels 1 and 2: every shape, every node with every label.
pub fn every_run(n: usize, each: &mut impl FnMut(&[Item])) {
    if n == 0 {
        return each(&[]);
    }
    // The first tree has k nodes: a step, or a group that holds k - 1 of them.
    for k in 1..=n {
        let bodies = runs(k - 1);
        for rest in runs(n - k) {
            for body in &bodies {
                for label in [1, 2] {
                    let first = if k == 1 { Item::Step(label) } else { Item::Group(label, body.clone()) };
                    let mut run = vec![first];
                    run.extend_from_slice(&rest);
                    each(&run);
                }
            }
        }
    }
}

fn runs(n: usize) -> Vec<Vec<Item>> {
    let mut all = Vec::new();
    every_run(n, &mut |run| all.push(run.to_vec()));
    all
}

/// Every run of exactly n steps over labels 1 and 2.
pub fn every_word(n: usize, each: &mut impl FnMut(&[Item])) {
    for bits in 0..1u32 << n {
        let word: Vec<Item> = (0..n).map(|k| Item::Step(1 + (bits >> k & 1) as u8)).collect();
        each(&word);
    }
}

/// A random fold of about `budget` nodes when unrolled, with at most `groups` open groups and `repeats` open repeats.
pub fn random_fold(r: &mut Random, budget: usize, labels: usize, groups: usize, repeats: usize) -> Vec<Item> {
    let mut items = Vec::new();
    let mut left = budget as isize;
    while left > 0 {
        let room = left as usize;
        let kind = r.below(6);
        let item = if kind < 2 && repeats > 0 && room >= 2 {
            let count = if r.once_in(4) { 2 + r.below(room - 1) } else { 2 + r.below(3) };
            let size = 1 + r.below((room / count).max(1));
            let body = random_fold(r, size, labels, groups, repeats - 1);
            let width = siblings(&body);
            Item::Repeat(count, width, body)
        } else if kind < 4 && groups > 0 && room >= 2 {
            let size = 1 + r.below(room.min(2 + budget / 2));
            Item::Group(r.below(labels) as u8, random_fold(r, size, labels, groups - 1, repeats))
        } else {
            Item::Step(r.below(labels) as u8)
        };
        let nodes = count_nodes(std::slice::from_ref(&item));
        left -= nodes as isize;
        items.push(item);
        if r.once_in(12) {
            break;
        }
    }
    items
}

/// A fold of exactly `nodes` nodes when unrolled, of many outermost items.
pub fn wide_fold(r: &mut Random, nodes: usize, labels: usize, groups: usize, repeats: usize) -> Vec<Item> {
    let (mut items, mut left) = (Vec::new(), nodes);
    while left > 0 {
        let size = 1 + r.below(left.min(20));
        for item in random_fold(r, size, labels, groups, repeats) {
            let nodes = count_nodes(std::slice::from_ref(&item));
            if nodes <= left {
                left -= nodes;
                items.push(item);
            }
        }
    }
    items
}

/// A fold with a repeat at the border of the short family, its count or its width near 256, and others in it and beside it.
pub fn border_fold(r: &mut Random, labels: usize) -> Vec<Item> {
    let near = 254 + r.below(4);
    let (count, width) = if r.once_in(2) { (near, 1 + r.below(3)) } else { (2 + r.below(2), near) };
    // Half of the nodes that are left at most, so that there are some for what stands beside it.
    let spare = (MAX_NODES - count * width) / (2 * count);
    let mut items = vec![Item::Repeat(count, width, of_width(r, width, spare, labels, 5))];
    // A sibling that can be repeated in its turn by a small width.
    if r.once_in(2) {
        items = vec![Item::Group(r.below(labels) as u8, items)];
        let most = MAX_NODES / count_nodes(&items);
        if most > 1 && r.once_in(2) {
            items = vec![Item::Repeat(2 + r.below(most - 1), 1, items)];
        }
    }
    for _ in 0..r.below(3) {
        let size = 1 + r.below(20);
        let beside = random_fold(r, size, labels, 3, 3);
        if count_nodes(&items) + count_nodes(&beside) <= MAX_NODES {
            let at = if r.once_in(2) { 0 } else { items.len() };
            items.splice(at..at, beside);
        }
    }
    items
}

/// Items of that many siblings: steps, repeats and, for what is spare, groups that hold so many nodes more at most.
fn of_width(r: &mut Random, width: usize, mut spare: usize, labels: usize, repeats: usize) -> Vec<Item> {
    let (mut items, mut left) = (Vec::new(), width);
    while left > 0 {
        let kind = r.below(8);
        let item = if kind == 0 && left >= 2 && repeats > 0 {
            let count = if r.once_in(4) { 2 + r.below(left - 1) } else { 2 };
            let width = 1 + r.below(left / count);
            let body = of_width(r, width, spare / count, labels, repeats - 1);
            spare -= count * (count_nodes(&body) - width);
            Item::Repeat(count, width, body)
        } else if kind <= 2 && spare > 0 {
            let inside = 1 + r.below(spare.min(6));
            spare -= inside;
            Item::Group(r.below(labels) as u8, of_width(r, inside, 0, labels, repeats))
        } else {
            Item::Step(r.below(labels) as u8)
        };
        left -= siblings(std::slice::from_ref(&item));
        items.push(item);
    }
    items
}

/// The siblings that a sequence unrolls to.
pub fn siblings(items: &[Item]) -> usize {
    items
        .iter()
        .map(|item| match item {
            Item::Repeat(count, width, _) => count * width,
            _ => 1,
        })
        .sum()
}

/// A run with nested repeats inside groups down to `depth` levels, of at most `nodes` nodes, and a little noise.
pub fn structured_run(r: &mut Random, nodes: usize, labels: usize, depth: usize) -> Vec<Item> {
    let mut run = Vec::new();
    while count_nodes(&run) < nodes {
        let left = nodes - count_nodes(&run);
        let mut next = expand(&random_fold(r, left.min(8 + nodes / 2), labels, depth, 4));
        if r.once_in(2) {
            noise(r, &mut next, labels, 40);
        }
        for item in next {
            if count_nodes(&run) + count_nodes(std::slice::from_ref(&item)) <= nodes {
                run.push(item);
            } else {
                run.push(Item::Step(r.below(labels) as u8));
                if count_nodes(&run) >= nodes {
                    break;
                }
            }
        }
    }
    while count_nodes(&run) > nodes {
        run.pop();
    }
    run
}

/// A run whose groups nest exactly `depth` levels, of at most `nodes` nodes: at each level the one inside, once or more, among
/// other nodes.
pub fn deep_run(r: &mut Random, nodes: usize, labels: usize, depth: usize) -> Vec<Item> {
    let mut run = expand(&random_fold(r, 1 + nodes / 16, labels, 0, 2));
    for _ in 0..depth {
        let inner = Item::Group(r.below(labels) as u8, run);
        let mut items = expand(&random_fold(r, 1 + nodes / 40, labels, 0, 1));
        let size = count_nodes(std::slice::from_ref(&inner));
        let most = if size * 3 < nodes / 2 { 3 } else { 1 };
        let at = r.below(items.len() + 1);
        for _ in 0..1 + r.below(most) {
            items.insert(at, inner.clone());
        }
        if count_nodes(&items) > nodes {
            items = vec![inner];
        }
        run = items;
    }
    run
}

/// A run of steps that is a power, a period with a rest, or the start of the Fibonacci word, at times with a little noise.
pub fn regular_run(r: &mut Random, nodes: usize) -> Vec<Item> {
    let mut run = match r.below(3) {
        0 => families::one_label(nodes),
        1 => {
            let length = 1 + r.below(12);
            let period = families::random(r, length, 3);
            (0..nodes).map(|k| period[k % period.len()].clone()).collect()
        }
        _ => families::fibonacci(nodes),
    };
    if r.once_in(2) {
        noise(r, &mut run, 3, 30);
    }
    run
}

/// Another label at about one node in `rarity`.
pub fn noise(r: &mut Random, items: &mut [Item], labels: usize, rarity: usize) {
    for item in items {
        let changed = r.once_in(rarity);
        match item {
            Item::Step(label) if changed => *label = r.below(labels) as u8,
            Item::Group(label, body) => {
                if changed {
                    *label = r.below(labels) as u8;
                }
                noise(r, body, labels, rarity);
            }
            Item::Repeat(_, _, body) => noise(r, body, labels, rarity),
            _ => {}
        }
    }
}

/// A command that opens a repeat: its offset, the bytes that it has, and its operands.
#[derive(Clone, Copy, Debug)]
pub struct Opening {
    pub at: usize,
    pub size: usize,
    pub count: usize,
    pub width: usize,
}

/// The commands of either family that open a repeat, up to the first byte that is no command or the first that is cut off.
pub fn openings(bytes: &[u8]) -> Vec<Opening> {
    let (mut openings, mut at) = (Vec::new(), 0);
    while let Some(&command) = bytes.get(at) {
        let size = match command {
            0x10 | 0x11 => 2,
            0x12 | 0x21 => 1,
            0x20 => 5,
            0x22 => 3,
            _ => break,
        };
        let Some(operands) = bytes.get(at + 1..at + size) else { break };
        if let (0x20 | 0x22, (count, width)) = (command, operands.split_at(size / 2)) {
            let [count, width] = [count, width].map(|number| number.iter().fold(0, |n, &b| 256 * n + usize::from(b)));
            openings.push(Opening { at, size, count, width });
        }
        at += size;
    }
    openings
}

/// The bytes with each of these repeats opened by a `22` where it is to be, which has room for the low bytes of the operands
/// alone, and by a `20` elsewhere.
pub fn reopened(bytes: &[u8], short: impl Fn(&Opening) -> bool) -> Vec<u8> {
    let (mut out, mut copied) = (Vec::new(), 0);
    for opening in openings(bytes) {
        let Opening { at, size, count, width } = opening;
        out.extend(&bytes[copied..at]);
        if short(&opening) {
            out.extend([0x22, count as u8, width as u8]);
        } else {
            let [count, width] = [count, width].map(|number| (number as u16).to_be_bytes());
            out.extend([0x20, count[0], count[1], width[0], width[1]]);
        }
        copied = at + size;
    }
    out.extend(&bytes[copied..]);
    out
}

/// The bytes with their repeats opened as in the short family: of a sound fold its short form.
pub fn shortened(bytes: &[u8]) -> Vec<u8> {
    reopened(bytes, |opening| opening.count < 256 && opening.width < 256)
}

/// A short fold that is cut off in a command that opens a repeat, or opens one of them by the command that it should not, or is
/// damaged as other bytes are.
pub fn damaged_short(r: &mut Random, bytes: &[u8]) -> Vec<u8> {
    let openings = openings(bytes);
    if openings.is_empty() || r.once_in(2) {
        return damaged(r, bytes);
    }
    let Opening { at, size, .. } = *r.pick(&openings);
    match r.below(3) {
        0 => bytes[..at + 1 + r.below(size - 1)].to_vec(),
        _ => reopened(bytes, |other| (bytes[other.at] == 0x22) != (other.at == at)),
    }
}

/// The bytes with some of them changed, taken out, doubled or cut off.
pub fn damaged(r: &mut Random, bytes: &[u8]) -> Vec<u8> {
    let commands = [0x10, 0x11, 0x12, 0x20, 0x21, 0x22, 0x00, 0x01, 0x02];
    let mut out = bytes.to_vec();
    for _ in 0..1 + r.below(3) {
        if out.is_empty() {
            out.push(*r.pick(&commands));
            continue;
        }
        let at = r.below(out.len());
        match r.below(8) {
            0 => out[at] = r.byte(),
            1 => out[at] ^= 1 << r.below(8),
            2 | 3 => out[at] = *r.pick(&commands),
            4 => {
                out.remove(at);
            }
            5 => out.insert(at, *r.pick(&commands)),
            6 => out.truncate(at),
            _ => {
                let other = r.below(out.len());
                out.swap(at, other);
            }
        }
    }
    out
}

/// Bytes that are mostly commands of a family, most of them well placed.
pub fn random_commands(r: &mut Random, family: Family, commands: usize) -> Vec<u8> {
    let mut out = Vec::new();
    let mut open = Vec::new();
    for _ in 0..commands {
        match r.below(20) {
            0..=7 => out.extend([0x10, r.below(3) as u8]),
            8..=10 => {
                out.extend([0x11, r.below(3) as u8]);
                open.push(0x12);
            }
            11..=13 => {
                let [count, width] = [5, 4].map(|most| r.below(most) as u8);
                match family {
                    Family::Short if !r.once_in(8) => out.extend([0x22, count, width]),
                    _ => out.extend([0x20, 0, count, 0, width]),
                }
                open.push(0x21);
            }
            14..=17 => out.push(open.pop().unwrap_or(0x12)),
            18 => out.push(*r.pick(&[0x12, 0x21])),
            _ => out.push(r.byte()),
        }
    }
    if !r.once_in(4) {
        while let Some(close) = open.pop() {
            out.push(close);
        }
    }
    out
}

/// The marks of labels by which of them are marked.
pub fn marking(marked: impl FnMut(u8) -> bool) -> Vec<u8> {
    (0..=255).map(marked).map(u8::from).collect()
}

/// Some marks. Most inputs have labels below 4 alone, or few others among them: so none is marked, or one of the first, or all
/// but one of them, or all from 4 on, or all, or any at random.
pub fn marks(r: &mut Random) -> Vec<u8> {
    let (one, rarity) = (r.below(5) as u8, 2 + r.below(6));
    match r.below(12) {
        0..=4 => marking(|_| false),
        5 | 6 => marking(|label| label == one),
        7 => marking(|label| label != one),
        8 | 9 => marking(|label| label >= 4),
        10 => marking(|_| true),
        _ => marking(|_| r.once_in(rarity)),
    }
}

/// Marks that are refused: those of some labels are missing, or there are too many, or one is above 1.
pub fn wrong_marks(r: &mut Random, mut marks: Vec<u8>) -> Vec<u8> {
    if r.once_in(2) {
        marks.resize(*r.pick(&[0, 1, 255, 257, 300]), 0);
    } else {
        marks[r.below(256)] = *r.pick(&[2, 3, 128, 255]);
    }
    marks
}

/// Tables of 256 entries, and marks of 256 labels.
pub fn prices(r: &mut Random) -> Prices {
    let (steps, first, each): (Vec<u16>, u16, u16) = match r.below(8) {
        0 | 1 => (vec![1; 256], 1, 0),
        2 => (vec![1; 256], 0, r.below(2) as u16),
        3 => (vec![1; 256], 1, r.below(6) as u16),
        4 => ((0..256).map(|_| r.below(4) as u16).collect(), r.below(4) as u16, r.below(3) as u16),
        5 => ((0..256).map(|_| r.below(65536) as u16).collect(), r.below(65536) as u16, r.below(65536) as u16),
        6 => ((0..256).map(|_| r.below(1000) as u16).collect(), r.below(3000) as u16, r.below(100) as u16),
        _ => (vec![*r.pick(&[0, 1, 65535]); 256], *r.pick(&[0, 1, 2, 65535]), *r.pick(&[0, 1, 65535])),
    };
    // Groups cost what steps of their labels do; or each what some step does; or all the same; or anything.
    let groups = match r.below(5) {
        0 | 1 => steps.clone(),
        2 => (0..256).map(|_| *r.pick(&steps)).collect(),
        3 => vec![*r.pick(&[0, 2, 4, 65535]); 256],
        _ => (0..256).map(|_| r.below(65536) as u16).collect(),
    };
    Prices { steps, groups, marks: marks(r), first, each }
}

/// The bytes of a flat run.
pub fn flat_bytes(labels: &[u8]) -> Vec<u8> {
    labels.iter().flat_map(|&label| [0x10, label]).collect()
}

/// The labels of a flat run: at random, or of one period or several one after the other, mostly no wider than a season's
/// highest limit or little wider, and at times with another label now and then.
pub fn flat_run(r: &mut Random, steps: usize) -> Vec<u8> {
    let labels = *r.pick(&[1, 2, 2, 3, 4, 4, 8, 256]);
    let mut run: Vec<u8> = Vec::with_capacity(steps);
    match r.below(8) {
        0 => run.extend((0..steps).map(|_| r.below(labels) as u8)),
        1 => run.resize(steps, r.below(labels) as u8),
        2 | 3 => {
            let period = nested_period(r, labels);
            run.extend(period.iter().cycle().take(steps));
        }
        _ => {
            while run.len() < steps {
                let period = nested_period(r, labels);
                let copies = if r.once_in(3) { 1 + r.below(40) } else { 1 + r.below(4) };
                run.extend(period.repeat(copies));
            }
            run.truncate(steps);
        }
    }
    if r.once_in(2) {
        let rarity = *r.pick(&[10, 40, 200, 2000]);
        for label in &mut run {
            if r.once_in(rarity) {
                *label = r.below(8) as u8;
            }
        }
    }
    run
}

/// A period of 1 to about 40 labels, which mostly has periods in itself.
fn nested_period(r: &mut Random, labels: usize) -> Vec<u8> {
    let most = 1 + r.below(40);
    let mut period = vec![r.below(labels) as u8];
    while period.len() < most {
        match r.below(3) {
            0 => period = period.repeat(2 + r.below(2)),
            1 => {
                let half = period.len() / 2;
                period.extend_from_within(half..);
            }
            _ => period.push(r.below(labels) as u8),
        }
    }
    period.truncate(most.max(1));
    period
}

/// The deepest group of a run.
pub fn depth(items: &[Item]) -> usize {
    let inside = |item: &Item| if let Item::Group(_, body) = item { 1 + depth(body) } else { 0 };
    items.iter().map(inside).max().unwrap_or(0)
}

/// The first n letters of a word such as "(a^(n/2) b)^3 a^17": the letters a to z are the labels 1 to 26, and a power is a
/// number, n, or a part of n in parentheses.
pub fn word(text: &str, n: usize) -> Vec<u8> {
    let number = |digits: &str| digits.parse::<usize>().unwrap_or_else(|_| panic!("no word: {text}"));
    // What stands in each open parenthesis so far, and the letter or the parenthesis that was read last.
    let (mut open, mut last) = (vec![Vec::new()], Vec::new());
    let mut rest = text;
    while let Some(c) = rest.chars().next() {
        rest = &rest[1..];
        let times = match c {
            ' ' => 0,
            '(' => {
                open.push(Vec::new());
                0
            }
            ')' => {
                last = open.pop().expect("an open parenthesis");
                1
            }
            '^' => {
                let (power, behind) = match rest.strip_prefix('(') {
                    Some(inside) => inside.split_once(')').expect("a closed parenthesis"),
                    None => rest.split_at(rest.find([' ', ')']).unwrap_or(rest.len())),
                };
                rest = behind;
                let (top, bottom) = power.split_once('/').unwrap_or((power, "1"));
                let top = match top.strip_suffix('n') {
                    Some("") => n,
                    Some(times) => number(times) * n,
                    None => number(top),
                };
                // It stands there once.
                (top / number(bottom)).checked_sub(1).expect("a power of 1 or more")
            }
            'a'..='z' => {
                last = vec![c as u8 - b'a' + 1];
                1
            }
            _ => panic!("no word: {text}"),
        };
        let level = open.last_mut().expect("an open parenthesis");
        for _ in 0..times {
            if level.len() < n {
                level.extend(&last);
            }
        }
        level.truncate(n);
    }
    assert_eq!(open.len(), 1, "a parenthesis is open: {text}");
    open.remove(0)
}

/// A sequence of steps and repeats in that form.
pub fn notation(items: &[Item]) -> String {
    let mut text = String::new();
    for item in items {
        match item {
            Item::Repeat(count, _, body) => {
                let body = notation(body);
                let body = if body.len() == 1 { body } else { format!("({body})") };
                text += &format!(" {body}^{count} ");
            }
            Item::Step(label) => text.push((b'a' + label - 1) as char),
            Item::Group(..) => panic!("a group has no letter"),
        }
    }
    text.trim().replace("  ", " ")
}

/// The prices that everything is measured at. No label is marked: the report's method knows no marks.
pub fn price_sets() -> [(&'static str, Prices); 4] {
    let r = &mut Random::new(2008);
    let ones = vec![1; 256];
    [
        ("unit", Prices::by_label(ones.clone(), 1, 0)),
        ("first 0, each 0", Prices::by_label(ones.clone(), 0, 0)),
        ("first 0, each 1", Prices::by_label(ones, 0, 1)),
        (
            "random",
            // The groups' costs are drawn last, so that steps and repeats cost what they did without them.
            {
                let steps = (0..256).map(|_| 1 + r.below(1000) as u16).collect();
                let (first, each) = (r.below(2000) as u16, r.below(100) as u16);
                let groups = (0..256).map(|_| 1 + r.below(1000) as u16).collect();
                Prices { groups, ..Prices::by_label(steps, first, each) }
            },
        ),
    ]
}

/// The runs of the benchmark.
pub mod families {
    use super::{depth, word, Random};
    use crate::reference::{count_nodes, Item};

    /// What the runs of a family are like; the plot has a panel for each kind.
    #[derive(Clone, Copy, PartialEq, Eq)]
    pub enum Kind {
        Steps,
        Slips,
        Powers,
        Groups,
    }

    /// Runs of one make, at any number of nodes.
    pub struct Family {
        pub kind: Kind,
        /// How many runs are measured; the time is their mean.
        pub instances: u64,
        /// The deepest group of each.
        pub depth: usize,
        pub name: &'static str,
        /// What a run of n nodes is: in words, or the word whose first n steps it is.
        pub about: &'static str,
        make: Option<Make>,
    }

    impl Family {
        /// The word that its runs begin.
        pub fn word(&self) -> Option<&'static str> {
            self.make.is_none().then_some(self.about)
        }
    }

    type Make = fn(&mut Random, usize) -> Vec<Item>;

    /// A family that a function makes.
    const fn made(
        kind: Kind,
        instances: u64,
        depth: usize,
        name: &'static str,
        about: &'static str,
        make: Make,
    ) -> Family {
        Family { kind, instances, depth, name, about, make: Some(make) }
    }

    /// The first n steps of a word.
    const fn begun(kind: Kind, name: &'static str, about: &'static str) -> Family {
        Family { kind, instances: 1, depth: 0, name, about, make: None }
    }

    use Kind::{Groups, Powers, Slips, Steps};

    /// The families in the order of the page. The place in the list is part of the seed: new ones go to its end.
    const LISTED: &[Family] = &[
        made(Steps, 3, 0, "random, 2 labels", "each step at random", |r, n| random(r, n, 2)),
        made(Steps, 3, 0, "random, 4 labels", "each step at random", |r, n| random(r, n, 4)),
        made(Steps, 3, 0, "random, 256 labels", "each step at random", |r, n| random(r, n, 256)),
        begun(Steps, "one label", "a^n"),
        made(Steps, 1, 0, "Fibonacci word", "its first n letters", |_, n| fibonacci(n)),
        made(Steps, 3, 0, "nested, noise", "repeats in repeats, another label at one node in 64", nested),
        made(Groups, 3, 8, "groups, long sequences", "nine long sequences, each inside the one before", deep_groups),
        made(Groups, 3, 8, "groups, small", "many small groups, down to eight levels", small_groups),
        begun(Slips, "slip in the middle", "a^(n/2) b a^n"),
        begun(Slips, "slip at two thirds", "a^(2n/3) b a^n"),
        begun(Slips, "power, then another", "a^(n/2) b^n"),
        made(Slips, 3, 0, "power, then random", "`a^(n/2)`, then 2 labels at random", power_then_random),
        begun(Slips, "period 2, slip", "(ab)^(n/4) c (ab)^n"),
        begun(Slips, "period 2, then another", "(ab)^(n/4) (cd)^n"),
        begun(Slips, "period 8, slip", "(abbabaab)^(n/16) c (abbabaab)^n"),
        made(Slips, 3, 0, "long stretches", "a and b in turn, each 40 times on average, at random", stretches),
        begun(Powers, "three long powers", "(a^(n/3) b)^n"),
        begun(Powers, "two long powers and a part", "(a^(41n/100) b)^2 a^n"),
        begun(Powers, "three long powers, slips", "(a^(2n/9) b a^(n/9))^n"),
    ];

    /// The slowest run that the climber found at each price. To make it again: `scripts/climb.sh SECONDS`, whose last lines
    /// take the place of this constant and the next one.
    pub const FOUND: &[Family] = &[
        begun(Powers, "found, unit", "(caab)^254 a^8"),
        begun(Powers, "found, first 0, each 0", "(ba)^511 cc"),
        begun(Powers, "found, first 0, each 1", "a (a^3 b)^255 baa"),
        begun(Powers, "found, random", "(cbbc)^254 a^3 c^5"),
    ];

    /// How many seconds the climber had, and how many runs it tried.
    pub const SEARCHED: (u64, u64) = (420, 25562);

    /// All families: those listed, then those that the climber found.
    pub fn all() -> Vec<&'static Family> {
        LISTED.iter().chain(FOUND).collect()
    }

    /// A run of the family at a place in `all`.
    pub fn run(which: usize, nodes: usize, instance: u64) -> Vec<Item> {
        let family = all()[which];
        let r = &mut Random::new((which as u64 * 7919 + nodes as u64) * 3 + instance);
        let items = family.make.map_or_else(|| steps(word(family.about, nodes)), |make| make(r, nodes));
        assert_eq!(count_nodes(&items), nodes);
        assert_eq!(depth(&items), family.depth);
        items
    }

    pub fn steps(labels: impl IntoIterator<Item = u8>) -> Vec<Item> {
        labels.into_iter().map(Item::Step).collect()
    }

    /// Random labels, that many of them.
    pub fn random(r: &mut Random, nodes: usize, labels: usize) -> Vec<Item> {
        steps((0..nodes).map(|_| r.below(labels) as u8))
    }

    /// One label.
    pub fn one_label(nodes: usize) -> Vec<Item> {
        steps((0..nodes).map(|_| 1))
    }

    /// The first letters of the Fibonacci word.
    pub fn fibonacci(nodes: usize) -> Vec<Item> {
        let (mut shorter, mut word) = (vec![1u8], vec![1u8, 2]);
        while word.len() < nodes {
            let next = [&word[..], &shorter[..]].concat();
            shorter = word;
            word = next;
        }
        steps(word.into_iter().take(nodes))
    }

    /// Repeats in repeats, with another label at one node in sixty-four.
    pub fn nested(r: &mut Random, nodes: usize) -> Vec<Item> {
        let mut word: Vec<u8> = Vec::new();
        while word.len() < nodes {
            let mut block = vec![r.below(4) as u8];
            while block.len() < nodes / 4 {
                let count = 2 + r.below(3);
                block = block.repeat(count);
                block.push(r.below(4) as u8);
            }
            word.extend(block);
        }
        word.truncate(nodes);
        for label in &mut word {
            if r.once_in(64) {
                *label = r.below(4) as u8;
            }
        }
        steps(word)
    }

    /// One label, in the second half two at random.
    pub fn power_then_random(r: &mut Random, nodes: usize) -> Vec<Item> {
        let mut items = one_label(nodes / 2);
        items.extend(random(r, nodes - nodes / 2, 2));
        items
    }

    /// Two labels in turn, each in stretches of 1 to 79.
    pub fn stretches(r: &mut Random, nodes: usize) -> Vec<Item> {
        let (mut word, mut label) = (Vec::new(), 1);
        while word.len() < nodes {
            word.extend(vec![label; 1 + r.below(79)]);
            label = 3 - label;
        }
        steps(word.into_iter().take(nodes))
    }

    /// Eight groups, each in the one before: nine sequences of about equal length, of repeats and noise.
    pub fn deep_groups(r: &mut Random, nodes: usize) -> Vec<Item> {
        let mut items = nested(r, nodes / 9);
        let mut left = nodes - items.len();
        for level in (0..8).rev() {
            let outside = nested(r, left / (level + 1) - 1);
            left -= outside.len() + 1;
            let group = Item::Group(r.below(4) as u8, items);
            items = outside;
            let at = r.below(items.len() + 1);
            items.insert(at, group);
        }
        items
    }

    /// Many small groups, down to eight levels: at each level half of the nodes in one group, the rest in steps and in small
    /// groups that stand several times.
    pub fn small_groups(r: &mut Random, nodes: usize) -> Vec<Item> {
        fn sequence(r: &mut Random, nodes: usize, level: usize) -> Vec<Item> {
            if level == 0 {
                return random(r, nodes, 2);
            }
            let size = (nodes / 2).max(2 * level);
            let mut items = vec![Item::Group(r.below(2) as u8, sequence(r, size - 1, level - 1))];
            let mut left = nodes - size;
            while left > 0 {
                let body = 1 + r.below(6);
                let count = 1 + r.below(4);
                if level > 1 && count * (body + 1) <= left {
                    let group = Item::Group(r.below(2) as u8, random(r, body, 2));
                    items.extend(vec![group; count]);
                    left -= count * (body + 1);
                } else {
                    items.push(Item::Step(r.below(2) as u8));
                    left -= 1;
                }
            }
            items
        }
        sequence(r, nodes, 8)
    }
}
