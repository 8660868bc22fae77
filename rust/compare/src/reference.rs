//! An independent implementation, to compare the library with: readers, unroller, folder, index builder and finder, and the
//! short family's reader, folder and conversions, written from the rules of docs/FORMAT.md and from the report, and not from
//! the Rattle code. It is plain and slow. The folder is the report's dynamic programme over the intervals of each sequence;
//! ties are settled by the repeats of whole folds, and then by comparing their bytes. The finder writes out all nodes of the
//! run. A form of a fold is converted to the other by way of its items.

use std::cmp::Ordering;

/// What readers, unroller and folder answer: refusal number, place, nodes, length, cost, steps and depth.
#[derive(Clone, Copy, Debug, Default, PartialEq, Eq)]
pub struct Answer {
    pub refusal: u8,
    pub place: usize,
    pub nodes: usize,
    pub length: usize,
    pub cost: u64,
    pub steps: usize,
    pub depth: usize,
}

impl Answer {
    fn refuse(refusal: u8, place: usize) -> Answer {
        Answer { refusal, place, ..Answer::default() }
    }

    pub fn numbers(self) -> [u64; 7] {
        let [place, nodes, length, steps, depth] =
            [self.place, self.nodes, self.length, self.steps, self.depth].map(|number| number as u64);
        [self.refusal as u64, place, nodes, length, self.cost, steps, depth]
    }
}

/// The prices of steps and of groups by their labels, and of repeats; and the marks, 1 for a label that stands in no repeat.
#[derive(Clone, Debug, PartialEq, Eq)]
pub struct Prices {
    pub steps: Vec<u16>,
    pub groups: Vec<u16>,
    pub marks: Vec<u8>,
    pub first: u16,
    pub each: u16,
}

impl Prices {
    /// One price for each label, whether a step or a group bears it, and no mark.
    pub fn by_label(labels: Vec<u16>, first: u16, each: u16) -> Prices {
        Prices { steps: labels.clone(), groups: labels, marks: vec![0; 256], first, each }
    }

    /// The same prices without a mark.
    pub fn unmarked(&self) -> Prices {
        Prices { marks: vec![0; 256], ..self.clone() }
    }

    pub fn marked(&self, label: u8) -> bool {
        self.marks[label as usize] == 1
    }

    /// Whether a marked label stands anywhere in these items.
    pub fn mark_in(&self, items: &[Item]) -> bool {
        items.iter().any(|item| match item {
            Item::Step(label) => self.marked(*label),
            Item::Group(label, body) => self.marked(*label) || self.mark_in(body),
            Item::Repeat(_, _, body) => self.mark_in(body),
        })
    }

    /// How many siblings from each on hold no marked label before one that does: what is repeated from there is no wider.
    fn free_ahead(&self, nodes: &[Item]) -> Vec<usize> {
        let mut ahead = vec![0; nodes.len()];
        let mut free = 0;
        for (i, node) in nodes.iter().enumerate().rev() {
            free = if self.mark_in(std::slice::from_ref(node)) { 0 } else { free + 1 };
            ahead[i] = free;
        }
        ahead
    }

    pub(crate) fn step(&self, label: u8) -> u64 {
        self.steps[label as usize] as u64
    }

    fn group(&self, label: u8) -> u64 {
        self.groups[label as usize] as u64
    }

    pub(crate) fn repeat(&self, count: usize) -> u64 {
        self.first as u64 + self.each as u64 * (count as u64 - 2)
    }
}

/// An item of a sequence.
#[derive(Clone, Debug, PartialEq, Eq)]
pub enum Item {
    Step(u8),
    Group(u8, Vec<Item>),
    Repeat(usize, usize, Vec<Item>),
}

/// The command families: what a repeat opens with is `20` in the long one; in the short one it is `22` where count and width
/// are both below 256, and `20` elsewhere.
#[derive(Clone, Copy, Debug, PartialEq, Eq)]
pub enum Family {
    Long,
    Short,
}

impl Family {
    /// Whether a repeat of this count and width opens with `22`.
    fn has_22(self, count: usize, width: usize) -> bool {
        self == Family::Short && count < 256 && width < 256
    }

    pub fn other(self) -> Family {
        match self {
            Family::Long => Family::Short,
            Family::Short => Family::Long,
        }
    }
}

/// The bytes of a sequence in a family.
pub fn bytes_in(family: Family, items: &[Item]) -> Vec<u8> {
    let mut bytes = Vec::new();
    encode(items, family, &mut bytes);
    bytes
}

fn encode(items: &[Item], family: Family, out: &mut Vec<u8>) {
    for item in items {
        match item {
            Item::Step(label) => out.extend([0x10, *label]),
            Item::Group(label, body) => {
                out.extend([0x11, *label]);
                encode(body, family, out);
                out.push(0x12);
            }
            Item::Repeat(count, width, body) => {
                if family.has_22(*count, *width) {
                    out.extend([0x22, *count as u8, *width as u8]);
                } else {
                    out.push(0x20);
                    out.extend((*count as u16).to_be_bytes());
                    out.extend((*width as u16).to_be_bytes());
                }
                encode(body, family, out);
                out.push(0x21);
            }
        }
    }
}

/// The items with every repeat written out.
pub fn expand(items: &[Item]) -> Vec<Item> {
    let mut out = Vec::new();
    for item in items {
        match item {
            Item::Step(label) => out.push(Item::Step(*label)),
            Item::Group(label, body) => out.push(Item::Group(*label, expand(body))),
            Item::Repeat(count, _, body) => {
                let once = expand(body);
                for _ in 0..*count {
                    out.extend_from_slice(&once);
                }
            }
        }
    }
    out
}

pub fn count_nodes(items: &[Item]) -> usize {
    items
        .iter()
        .map(|item| match item {
            Item::Step(_) => 1,
            Item::Group(_, body) => 1 + count_nodes(body),
            Item::Repeat(count, _, body) => count * count_nodes(body),
        })
        .sum()
}

/// How many repeats stand in a sequence, each counted once: in groups and in other repeats too.
pub fn count_repeats(items: &[Item]) -> usize {
    items
        .iter()
        .map(|item| match item {
            Item::Step(_) => 0,
            Item::Group(_, body) => count_repeats(body),
            Item::Repeat(_, _, body) => 1 + count_repeats(body),
        })
        .sum()
}

/// The steps of a sequence without repeats, and the most of its groups that stand inside each other.
fn shape(items: &[Item]) -> (usize, usize) {
    let (mut steps, mut depth) = (0, 0);
    for item in items {
        match item {
            Item::Step(_) => steps += 1,
            Item::Group(_, body) => {
                let inside = shape(body);
                steps += inside.0;
                depth = depth.max(1 + inside.1);
            }
            Item::Repeat(..) => unreachable!("a repeat in what was expanded"),
        }
    }
    (steps, depth)
}

/// What is open: the close that ends it, its operands where it is a repeat, and what the level outside had when it opened.
struct Open {
    close: u8,
    count: u64,
    width: u64,
    siblings_outside: u64,
    nodes_before: u64,
    length_before: u64,
}

/// What a kind of runs and their folds are held to.
#[derive(Clone, Copy)]
pub(crate) struct Limits {
    pub nodes: usize,
    /// The highest width limit.
    pub width: usize,
    /// Whether there may be groups.
    pub groups: bool,
}

const ANY: Limits = Limits { nodes: 1024, width: 1024, groups: true };

/// What an input is read by.
#[derive(Clone, Copy)]
pub(crate) struct Rules<'a> {
    pub limits: Limits,
    /// That of a fold; a run has none, for it has no repeats.
    pub family: Option<Family>,
    pub limit: usize,
    pub prices: Option<&'a Prices>,
}

const RUN: Rules = Rules { limits: ANY, family: None, limit: 0, prices: None };

/// Those of a fold for who takes neither limit nor prices: this is the highest width operand that there is.
fn alone<'a>(family: Family) -> Rules<'a> {
    Rules { limits: ANY, family: Some(family), limit: 65_535, prices: None }
}

/// An input that is read from left to right: the offset of the next command, and what the commands before it came to.
struct Reader<'a> {
    bytes: &'a [u8],
    rules: Rules<'a>,
    at: usize,
    open: Vec<Open>,
    siblings: u64,
    nodes: u64,
    length: u64,
    cost: u64,
    just_opened: bool,
}

/// Reads commands from left to right by the table of numbered refusals.
pub(crate) fn read(bytes: &[u8], rules: Rules) -> Result<Answer, Answer> {
    let open = Vec::new();
    let mut reader =
        Reader { bytes, rules, at: 0, open, siblings: 0, nodes: 0, length: 0, cost: 0, just_opened: false };
    while reader.at < bytes.len() {
        reader.command()?;
    }
    if !reader.open.is_empty() {
        return Err(Answer::refuse(3, bytes.len()));
    }
    let Reader { nodes, length, cost, .. } = reader;
    // Steps and depth are those of the items themselves, all repeats written out.
    let (steps, depth) = shape(&expand(&decode(bytes)));
    Ok(Answer { refusal: 0, place: 0, nodes: nodes as usize, length: length as usize, cost, steps, depth })
}

/// Each of these answers the first refusal that applies at the command, or takes the command in.
impl Reader<'_> {
    fn refuse<T>(&self, number: u8) -> Result<T, Answer> {
        Err(Answer::refuse(number, self.at))
    }

    fn operand(&self, k: usize) -> u64 {
        self.bytes[self.at + 1 + k] as u64
    }

    fn price(&self, of: impl Fn(&Prices) -> u64) -> u64 {
        self.rules.prices.map_or(0, of)
    }

    /// How many things are open that this close ends.
    fn count_open(&self, close: u8) -> usize {
        self.open.iter().filter(|open| open.close == close).count()
    }

    fn command(&mut self) -> Result<(), Answer> {
        let command = self.bytes[self.at];
        let operands = match command {
            0x10 | 0x11 => 1,
            0x20 => 4,
            0x12 | 0x21 => 0,
            0x22 if self.rules.family == Some(Family::Short) => 2,
            _ => return self.refuse(1),
        };
        if self.rules.family.is_none() && (command == 0x20 || command == 0x21) {
            return self.refuse(2);
        }
        if command == 0x11 && !self.rules.limits.groups {
            return self.refuse(21);
        }
        if self.bytes.len() - self.at - 1 < operands {
            return Err(Answer::refuse(3, self.bytes.len()));
        }
        match command {
            0x10 | 0x11 => self.node(command, self.bytes[self.at + 1])?,
            0x20 => {
                let [count, width] = [0, 2].map(|k| self.operand(k) * 256 + self.operand(k + 1));
                self.repeat(command, count, width)?
            }
            0x22 => self.repeat(command, self.operand(0), self.operand(1))?,
            _ => self.close(command)?,
        }
        self.at += 1 + operands;
        Ok(())
    }

    fn node(&mut self, command: u8, label: u8) -> Result<(), Answer> {
        if command == 0x11 && self.count_open(0x12) == 8 {
            return self.refuse(8);
        }
        if self.count_open(0x21) > 0 && self.rules.prices.is_some_and(|p| p.marked(label)) {
            return self.refuse(19);
        }
        if self.nodes + 1 > self.rules.limits.nodes as u64 {
            return self.refuse(10);
        }
        self.nodes += 1;
        if command == 0x10 {
            self.cost += self.price(|p| p.step(label));
            self.siblings += 1;
            self.just_opened = false;
        } else {
            self.cost += self.price(|p| p.group(label));
            self.enter(0x12, 1, 0);
        }
        self.length += 2;
        Ok(())
    }

    fn repeat(&mut self, command: u8, count: u64, width: u64) -> Result<(), Answer> {
        if count < 2 {
            return self.refuse(6);
        }
        if width > self.rules.limit as u64 {
            return self.refuse(7);
        }
        if command == 0x20 && self.rules.family.is_some_and(|f| f.has_22(count as usize, width as usize)) {
            return self.refuse(20);
        }
        if self.count_open(0x21) == 10 {
            return self.refuse(8);
        }
        self.cost += self.price(|p| p.repeat(count as usize));
        self.enter(0x21, count, width);
        Ok(())
    }

    /// Opens what this close ends.
    fn enter(&mut self, close: u8, count: u64, width: u64) {
        let Reader { siblings, nodes, length, .. } = *self;
        let outside =
            Open { close, count, width, siblings_outside: siblings, nodes_before: nodes, length_before: length };
        self.open.push(outside);
        self.siblings = 0;
        self.just_opened = true;
    }

    fn close(&mut self, command: u8) -> Result<(), Answer> {
        if self.open.last().is_none_or(|innermost| innermost.close != command) {
            return self.refuse(4);
        }
        if self.just_opened {
            return self.refuse(5);
        }
        let ended = self.open.pop().unwrap();
        if command == 0x12 {
            self.siblings = ended.siblings_outside + 1;
            self.length += 1;
            return Ok(());
        }
        let more = ended.count - 1;
        if self.nodes + more * (self.nodes - ended.nodes_before) > self.rules.limits.nodes as u64 {
            return self.refuse(10);
        }
        if self.siblings != ended.width {
            return self.refuse(9);
        }
        self.nodes += more * (self.nodes - ended.nodes_before);
        self.length += more * (self.length - ended.length_before);
        self.siblings = ended.siblings_outside + ended.count * self.siblings;
        Ok(())
    }
}

pub(crate) fn either(read: Result<Answer, Answer>) -> Answer {
    read.unwrap_or_else(|refused| refused)
}

/// The run reader.
pub fn read_run(run: &[u8]) -> Answer {
    either(read(run, RUN).map(|a| Answer { length: 0, ..a }))
}

/// Refusals 11, 15, 12 and 18, for those who take tables, a limit and marks.
pub(crate) fn terms(limits: Limits, limit: usize, prices: Option<&Prices>) -> Result<(), Answer> {
    if prices.is_some_and(|p| p.steps.len() != 256) {
        return Err(Answer::refuse(11, 0));
    }
    if prices.is_some_and(|p| p.groups.len() != 256) {
        return Err(Answer::refuse(15, 0));
    }
    if limit > limits.width {
        return Err(Answer::refuse(12, 0));
    }
    if prices.is_some_and(|p| p.marks.len() != 256 || p.marks.iter().any(|mark| ![0, 1].contains(mark))) {
        return Err(Answer::refuse(18, 0));
    }
    Ok(())
}

/// The fold reader.
pub fn read_fold(fold: &[u8], limit: usize, prices: &Prices) -> Answer {
    read_in(Family::Long, fold, limit, prices)
}

/// The fold reader or, in the short family, the short reader.
pub fn read_in(family: Family, fold: &[u8], limit: usize, prices: &Prices) -> Answer {
    let rules = Rules { limits: ANY, family: Some(family), limit, prices: Some(prices) };
    either(terms(ANY, limit, rules.prices).and_then(|()| read(fold, rules)))
}

/// The items of accepted bytes, of either family.
pub fn decode(bytes: &[u8]) -> Vec<Item> {
    let mut at = 0;
    let items = decode_from(bytes, &mut at);
    assert_eq!(at, bytes.len());
    items
}

fn decode_from(bytes: &[u8], at: &mut usize) -> Vec<Item> {
    let mut items = Vec::new();
    while *at < bytes.len() {
        let here = *at;
        match bytes[here] {
            0x10 => {
                *at += 2;
                items.push(Item::Step(bytes[here + 1]));
            }
            0x11 => {
                *at += 2;
                let body = decode_from(bytes, at);
                *at += 1;
                items.push(Item::Group(bytes[here + 1], body));
            }
            0x20 => {
                *at += 5;
                let body = decode_from(bytes, at);
                *at += 1;
                let two = |k: usize| u16::from_be_bytes([bytes[here + k], bytes[here + k + 1]]) as usize;
                items.push(Item::Repeat(two(1), two(3), body));
            }
            0x22 => {
                *at += 3;
                let body = decode_from(bytes, at);
                *at += 1;
                items.push(Item::Repeat(bytes[here + 1] as usize, bytes[here + 2] as usize, body));
            }
            _ => break,
        }
    }
    items
}

/// The run that accepted bytes of a fold unroll to, of either family.
pub fn run_of(fold: &[u8]) -> Vec<u8> {
    bytes_in(Family::Long, &expand(&decode(fold)))
}

/// The form that accepted bytes of a fold have in a family, whichever of the two they are of.
pub fn form_in(family: Family, fold: &[u8]) -> Vec<u8> {
    bytes_in(family, &decode(fold))
}

/// The conversion to a family's form, of a fold in the other one.
pub fn convert(to: Family, fold: &[u8]) -> Result<Vec<u8>, Answer> {
    read(fold, alone(to.other()))?;
    Ok(form_in(to, fold))
}

/// The answer of unroller and conversions where the output has room for `room` bytes, and the bytes that are written.
pub fn written(bytes: Result<Vec<u8>, Answer>, room: usize) -> (Answer, Vec<u8>) {
    match bytes {
        Err(refused) => (refused, Vec::new()),
        Ok(bytes) if bytes.len() > room => (Answer::refuse(14, 0), Vec::new()),
        Ok(bytes) => (Answer { length: bytes.len(), ..Answer::default() }, bytes),
    }
}

/// The unroller: its answer where the output has room for `room` bytes, and the bytes it writes.
pub fn unroll(fold: &[u8], limit: usize, room: usize) -> (Answer, Vec<u8>) {
    let rules = Rules { limit, ..alone(Family::Long) };
    written(terms(ANY, limit, None).and_then(|()| read(fold, rules)).map(|_| run_of(fold)), room)
}

/// A node of the run that a fold unrolls to, and where the command that it comes from stands in the fold.
#[derive(Clone, Copy, Debug, PartialEq, Eq)]
pub struct Node {
    pub command: u8,
    pub label: u8,
    pub offset: usize,
}

/// All nodes of the run that a fold unrolls to, in the run's order, and the fold's index: for each outermost item its offset and
/// the nodes before it.
#[derive(Clone, Debug, Default, PartialEq, Eq)]
pub struct Listed {
    pub nodes: Vec<Node>,
    pub offsets: Vec<u32>,
    pub before: Vec<u32>,
}

/// Lists a fold, for index builder and finder.
pub fn list(fold: &[u8]) -> Result<Listed, Answer> {
    read(fold, alone(Family::Long))?;
    let mut listed = Listed::default();
    let mut at = 0;
    for item in decode(fold) {
        listed.offsets.push(at as u32);
        listed.before.push(listed.nodes.len() as u32);
        at = list_items(&[item], at, &mut listed.nodes);
    }
    Ok(listed)
}

/// Appends the nodes of items that begin at an offset, every repeat written out, and answers the offset behind them.
fn list_items(items: &[Item], mut at: usize, nodes: &mut Vec<Node>) -> usize {
    for item in items {
        at = match item {
            Item::Step(label) => {
                nodes.push(Node { command: 0x10, label: *label, offset: at });
                at + 2
            }
            Item::Group(label, body) => {
                nodes.push(Node { command: 0x11, label: *label, offset: at });
                list_items(body, at + 2, nodes) + 1
            }
            Item::Repeat(count, _, body) => {
                let mut once = Vec::new();
                let end = list_items(body, at + 5, &mut once);
                for _ in 0..*count {
                    nodes.extend(&once);
                }
                end + 1
            }
        };
    }
    at
}

impl Listed {
    /// The index builder's answer where the slices have so many entries.
    pub fn indexed(&self, offsets: usize, before: usize) -> [u64; 7] {
        let entries = self.offsets.len();
        if offsets < entries || before < entries {
            return Answer::refuse(14, 0).numbers();
        }
        [0, 0, entries as u64, 0, 0, 0, 0]
    }

    /// The finder's answer by any index.
    pub fn found(&self, offsets: &[u32], before: &[u32], position: u64) -> [u64; 7] {
        if offsets != self.offsets || before != self.before {
            return Answer::refuse(17, 0).numbers();
        }
        if position >= self.nodes.len() as u64 {
            return Answer::refuse(16, 0).numbers();
        }
        let Node { command, label, offset } = self.nodes[position as usize];
        [0, 0, label as u64, command as u64, offset as u64, 0, 0]
    }
}

/// The part of a run that is the node at an offset, as bytes; empty where the run is refused or no node starts there.
pub fn part(run: &[u8], at: usize) -> &[u8] {
    if read_run(run).refusal != 0 {
        return &[];
    }
    // The offsets of all commands, with how many groups are open behind each.
    let mut commands = Vec::new();
    let (mut here, mut depth) = (0, 0usize);
    while here < run.len() {
        depth = match run[here] {
            0x11 => depth + 1,
            0x12 => depth - 1,
            _ => depth,
        };
        commands.push((here, depth));
        here += if run[here] == 0x12 { 1 } else { 2 };
    }
    let Some(first) = commands.iter().position(|&(offset, _)| offset == at) else {
        return &[];
    };
    match run[at] {
        0x10 => &run[at..at + 2],
        0x11 => {
            let outside = commands[first].1 - 1;
            let close = commands[first..].iter().find(|&&(_, depth)| depth == outside).unwrap().0;
            &run[at..close + 1]
        }
        _ => &[],
    }
}

/// A fold and what it is chosen by. The order of the fields is the order of choice: the lower cost, then fewer repeats, then the
/// bytes that come first.
#[derive(Clone, Debug, PartialEq, Eq, PartialOrd, Ord)]
pub struct Ranked {
    pub cost: u64,
    pub repeats: usize,
    pub bytes: Vec<u8>,
}

/// The cheapest fold of a sequence of nodes: the report's dynamic programme. A stretch of siblings is the one node, or one
/// repetition of a shorter stretch that holds no marked label (case 1), or two stretches one after the other (case 2).
pub fn cheapest(nodes: &[Item], limit: usize, prices: &Prices) -> Ranked {
    let n = nodes.len();
    if n == 0 {
        return Ranked { cost: 0, repeats: 0, bytes: Vec::new() };
    }
    // best[i][d - 1] is the cheapest fold of d siblings from i on.
    let mut best: Vec<Vec<Ranked>> = nodes
        .iter()
        .map(|node| {
            vec![match node {
                Item::Step(label) => Ranked { cost: prices.step(*label), repeats: 0, bytes: vec![0x10, *label] },
                Item::Group(label, body) => {
                    let inside = cheapest(body, limit, prices);
                    Ranked {
                        cost: prices.group(*label) + inside.cost,
                        repeats: inside.repeats,
                        bytes: [&[0x11, *label], &inside.bytes[..], &[0x12]].concat(),
                    }
                }
                Item::Repeat(..) => unreachable!("a run has no repeats"),
            }]
        })
        .collect();
    let free = prices.free_ahead(nodes);
    for d in 2..=n {
        for i in 0..=n - d {
            let found = cheapest_stretch(nodes, &best, i, d, limit.min(free[i]), prices);
            best[i].push(found);
        }
    }
    best[0].pop().unwrap()
}

/// The cost of the cheapest fold and its repeats alone, by the same programme: for runs too long to keep the bytes of every
/// stretch.
pub fn lowest(nodes: &[Item], limit: usize, prices: &Prices) -> (u64, usize) {
    let n = nodes.len();
    if n == 0 {
        return (0, 0);
    }
    // Equal siblings have equal classes.
    let class: Vec<usize> = nodes.iter().map(|node| nodes.iter().position(|other| other == node).unwrap()).collect();
    let mut best = vec![vec![(u64::MAX, 0); n + 1]; n];
    for (i, node) in nodes.iter().enumerate() {
        best[i][1] = match node {
            Item::Step(label) => (prices.step(*label), 0),
            Item::Group(label, body) => {
                let (cost, repeats) = lowest(body, limit, prices);
                (prices.group(*label) + cost, repeats)
            }
            Item::Repeat(..) => unreachable!("a run has no repeats"),
        };
    }
    let free = prices.free_ahead(nodes);
    for d in 1..=n {
        for i in 0..=n - d {
            let two = |e: usize| (best[i][e].0 + best[i + e][d - e].0, best[i][e].1 + best[i + e][d - e].1);
            let split = (1..d).map(two).min();
            best[i][d] = best[i][d].min(split.unwrap_or((u64::MAX, 0)));
            // This stretch repeated, as far as its copies go.
            let mut count = 2;
            let repeated = d <= limit && d <= free[i];
            while repeated && i + count * d <= n && class[i..i + d] == class[i + (count - 1) * d..i + count * d] {
                let (cost, repeats) = best[i][d];
                best[i][count * d] = best[i][count * d].min((cost + prices.repeat(count), repeats + 1));
                count += 1;
            }
        }
    }
    best[0][n]
}

/// The cheapest fold of d siblings from i on, by those of all shorter stretches; as one repeat it is at most `limit` wide.
fn cheapest_stretch(nodes: &[Item], best: &[Vec<Ranked>], i: usize, d: usize, limit: usize, prices: &Prices) -> Ranked {
    let two = |e: usize| (&best[i][e - 1], &best[i + e][d - e - 1]);
    let both = |e: usize| (two(e).0.cost + two(e).1.cost, two(e).0.repeats + two(e).1.repeats);
    let lowest = (1..d).map(both).min().unwrap();
    let mut split: Option<(&[u8], &[u8])> = None;
    for e in 1..d {
        if both(e) == lowest {
            let (left, right) = two(e);
            let pair = (&left.bytes[..], &right.bytes[..]);
            if split.is_none_or(|other| compare_pairs(pair, other) == Ordering::Less) {
                split = Some(pair);
            }
        }
    }
    let (left, right) = split.unwrap();
    let mut found = Ranked { cost: lowest.0, repeats: lowest.1, bytes: [left, right].concat() };
    for width in 1..=limit.min(d / 2) {
        if d.is_multiple_of(width) && (width..d).all(|k| nodes[i + k] == nodes[i + k - width]) {
            let count = d / width;
            let body = &best[i][width - 1];
            let mut bytes = vec![0x20];
            bytes.extend((count as u16).to_be_bytes());
            bytes.extend((width as u16).to_be_bytes());
            bytes.extend(&body.bytes);
            bytes.push(0x21);
            found = found.min(Ranked { cost: body.cost + prices.repeat(count), repeats: body.repeats + 1, bytes });
        }
    }
    found
}

/// The order of two byte strings, each given in two parts.
fn compare_pairs(a: (&[u8], &[u8]), b: (&[u8], &[u8])) -> Ordering {
    if a.0.len() > b.0.len() {
        return compare_pairs(b, a).reverse();
    }
    // a's first part is the shorter: then b's continues against a's second part.
    let cut = a.0.len();
    let rest = b.0.len() - cut;
    a.0.cmp(&b.0[..cut]).then_with(|| a.1[..rest.min(a.1.len())].cmp(&b.0[cut..])).then_with(|| a.1[rest..].cmp(b.1))
}

/// What follows from run, limit and prices alone: the nodes, the cheapest fold and its cost.
#[derive(Clone, Debug)]
pub struct Solved {
    pub nodes: usize,
    pub cost: u64,
    pub bytes: Vec<u8>,
}

impl Solved {
    /// The same for the folder of a family: that fold in its form there.
    pub fn form_in(&self, family: Family) -> Solved {
        Solved { bytes: form_in(family, &self.bytes), ..*self }
    }
}

pub fn solve(run: &[u8], limit: usize, prices: &Prices) -> Result<Solved, Answer> {
    terms(ANY, limit, Some(prices))?;
    let nodes = read(run, RUN)?.nodes;
    let Ranked { cost, bytes, .. } = cheapest(&decode(run), limit, prices);
    Ok(Solved { nodes, cost, bytes })
}

/// The answer for the lent slices' sizes: 13, then 14.
pub fn lend(solved: &Solved, costs: usize, choices: usize, room: usize) -> (Answer, Vec<u8>) {
    let needed = solved.nodes * (solved.nodes + 1) / 2;
    lend_work(solved, costs >= needed && choices >= needed, room)
}

/// The same by whether the work is enough.
pub(crate) fn lend_work(solved: &Solved, enough: bool, room: usize) -> (Answer, Vec<u8>) {
    if !enough {
        return (Answer::refuse(13, 0), Vec::new());
    }
    if room < solved.bytes.len() {
        return (Answer::refuse(14, 0), Vec::new());
    }
    (Answer { length: solved.bytes.len(), cost: solved.cost, ..Answer::default() }, solved.bytes.clone())
}

/// Every fold of a sequence of nodes whose widths are within a limit, by its bytes: a first item, which is the first node or a
/// repeat, and then every fold of what is left. Marks are not looked at: folds that they bar are among them.
pub fn every_fold(nodes: &[Item], limit: usize) -> Vec<Vec<u8>> {
    if nodes.is_empty() {
        return vec![Vec::new()];
    }
    let mut folds = Vec::new();
    let mut join = |heads: Vec<Vec<u8>>, rest: &[Item]| {
        let tails = every_fold(rest, limit);
        for head in &heads {
            for tail in &tails {
                folds.push([&head[..], &tail[..]].concat());
            }
        }
    };
    let plain = match &nodes[0] {
        Item::Step(label) => vec![vec![0x10, *label]],
        Item::Group(label, body) => {
            every_fold(body, limit).into_iter().map(|b| [&[0x11, *label], &b[..], &[0x12]].concat()).collect()
        }
        Item::Repeat(..) => unreachable!("a run has no repeats"),
    };
    join(plain, &nodes[1..]);
    for width in 1..=limit.min(nodes.len() / 2) {
        let mut count = 1;
        while (count + 1) * width <= nodes.len() && nodes[..width] == nodes[count * width..(count + 1) * width] {
            count += 1;
            let [c, w] = [count, width].map(|x| (x as u16).to_be_bytes());
            let bodies = every_fold(&nodes[..width], limit);
            let heads = bodies.into_iter().map(|b| [&[0x20], &c[..], &w[..], &b[..], &[0x21]].concat()).collect();
            join(heads, &nodes[count * width..]);
        }
    }
    folds
}
