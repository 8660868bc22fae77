//! Looks for runs of 1,024 steps on which the folder is slow: a hill climber over words of a few blocks, at each price of the
//! benchmark. It maximises the folder's part of the time of *blocked*, the fastest form of the report's method on steps, each
//! the lowest of a few rounds in processor time. What is tried follows from the seed and from the times. Every cost is compared, and every
//! fold is read back and unrolled. The last lines it prints are those of the list in rust/compare/src/inputs.rs.
//!
//! Usage: `climb SECONDS [SEED]`

use compare::figure1::Method;
use compare::inputs::families::steps;
use compare::inputs::{bytes_of, notation, price_sets, word, Random};
use compare::reference::{decode, Prices};
use compare::timing::Bench;
use runfold::MAX_NODES;
use std::time::Instant;

/// No word has more blocks, so that it can be read.
const BLOCKS: usize = 16;
/// The rounds of a run that is tried, and of one that is reported.
const ROUNDS: usize = 3;
const ROUNDS_AT_END: usize = 9;

/// A short word and how often it stands.
#[derive(Clone, PartialEq, Eq)]
struct Block {
    word: Vec<u8>,
    count: usize,
}

impl Block {
    fn letters(&self) -> usize {
        self.word.len() * self.count
    }
}

type Blocks = Vec<Block>;

fn letters(blocks: &[Block]) -> Vec<u8> {
    blocks.iter().flat_map(|block| block.word.repeat(block.count)).collect()
}

/// A slip, or the power of a short word of about `room` letters at most.
fn random_block(r: &mut Random, labels: usize, room: usize) -> Block {
    let length = if r.once_in(2) { 1 } else { 1 + r.below(4) };
    let word = (0..length).map(|_| 1 + r.below(labels) as u8).collect();
    let count = if r.once_in(3) { 1 } else { 1 + r.below(room.div_ceil(length)) };
    Block { word, count }
}

/// A word to begin with: a few blocks, all of them once or several times.
fn random_start(r: &mut Random) -> Blocks {
    let labels = 2 + r.below(2);
    let times = 1 + r.below(4);
    let room = MAX_NODES / times;
    let few: Blocks = (0..1 + r.below(4)).map(|_| random_block(r, labels, room)).collect();
    let mut blocks = vec![few; times].concat();
    fit(r, &mut blocks);
    blocks
}

/// One change of a word.
fn changed(r: &mut Random, blocks: &[Block]) -> Blocks {
    let mut new = blocks.to_vec();
    let at = r.below(new.len());
    match r.below(10) {
        // Another label in a short word, or in one place of a power.
        0 => {
            let place = r.below(new[at].word.len());
            new[at].word[place] = 1 + r.below(3) as u8;
        }
        1 => {
            let Block { word, count } = new[at].clone();
            let before = r.below(count);
            let mut slip = word.clone();
            slip[r.below(word.len())] = 1 + r.below(3) as u8;
            let parts = [(word.clone(), before), (slip, 1), (word, count - before - 1)];
            new.splice(at..=at, parts.map(|(word, count)| Block { word, count }));
        }
        2 => new.insert(at, random_block(r, 3, MAX_NODES / 2)),
        3 => {
            new.remove(at);
        }
        4 => {
            let block = new.remove(at);
            new.insert(r.below(new.len() + 1), block);
        }
        // Some blocks once more, somewhere.
        5 => {
            let some = new[at..at + 1 + r.below(new.len() - at)].to_vec();
            let to = r.below(new.len() + 1);
            new.splice(to..to, some);
        }
        // Another count, a little or much, of one block or of all that are equal.
        _ => {
            let old = new[at].clone();
            let count = match r.below(3) {
                0 => (old.count + 1 + r.below(8)).saturating_sub(r.below(9)),
                1 => 1 + r.below(2 * old.count),
                _ => r.pick(blocks).count,
            };
            let all = r.once_in(2);
            for (k, block) in new.iter_mut().enumerate() {
                if k == at || all && *block == old {
                    block.count = count;
                }
            }
        }
    }
    fit(r, &mut new);
    new
}

/// Makes a word one of 1,024 letters, by the counts of random blocks, and neighbours of one word one block.
fn fit(r: &mut Random, blocks: &mut Blocks) {
    loop {
        for block in blocks.iter_mut() {
            let Block { word, count } = block;
            let root = (1..=word.len()).find(|&w| word.len() % w == 0 && word[w..] == word[..word.len() - w]);
            let root = root.expect("the word itself");
            *count *= word.len() / root;
            word.truncate(root);
        }
        blocks.retain(|block| block.count > 0);
        blocks.dedup_by(|next, block| {
            let same = next.word == block.word;
            block.count += if same { next.count } else { 0 };
            same
        });
        let sum: usize = blocks.iter().map(Block::letters).sum();
        if sum == MAX_NODES {
            return;
        }
        if blocks.is_empty() {
            blocks.push(Block { word: vec![1], count: MAX_NODES });
            continue;
        }
        let at = r.below(blocks.len());
        let length = blocks[at].word.len();
        if sum > MAX_NODES {
            let fewer = (sum - MAX_NODES).div_ceil(length).min(blocks[at].count);
            blocks[at].count -= fewer;
        } else if MAX_NODES - sum >= length {
            blocks[at].count += (MAX_NODES - sum) / length;
        } else {
            let word = blocks[at].word[..MAX_NODES - sum].to_vec();
            blocks.insert(at + 1, Block { word, count: 1 });
        }
    }
}

/// A word, and how slow the folder is on it: its time, and that as a part of *blocked*'s.
struct Tried {
    blocks: Blocks,
    seconds: f64,
    part: f64,
}

struct Climber {
    bench: Bench,
    tried: usize,
}

impl Climber {
    /// Times a word, the lowest of some rounds. The first round is the last where it is far from what is hoped for.
    fn time(&mut self, blocks: Blocks, prices: &Prices, rounds: usize, hope: f64) -> Tried {
        let run = bytes_of(&steps(letters(&blocks)));
        let (mut seconds, mut blocked) = (f64::INFINITY, f64::INFINITY);
        for round in 0..rounds {
            let (time, ours) = self.bench.ours(&run, prices);
            seconds = seconds.min(time);
            if round == 0 {
                self.bench.check("climb", &run, prices, ours, ours);
            }
            let (time, theirs) = self.bench.theirs(Method::Blocked, &run, prices);
            blocked = blocked.min(time);
            if round == 0 {
                self.bench.check("climb", &run, prices, theirs, ours);
            }
            if seconds / blocked < 0.9 * hope {
                break;
            }
        }
        Tried { blocks, seconds, part: seconds / blocked }
    }

    /// The slowest words at one price, slowest first: of many random ones six are kept; then the best six, three and one are
    /// changed, in turn.
    fn climb(&mut self, r: &mut Random, prices: &Prices, seconds: f64) -> Vec<Tried> {
        let began = Instant::now();
        let sort = |best: &mut Vec<Tried>| best.sort_by(|a, b| b.part.total_cmp(&a.part));
        let mut best: Vec<Tried> = Vec::new();
        while best.len() < 6 || began.elapsed().as_secs_f64() < 0.2 * seconds {
            let hope = best.get(5).map_or(0.0, |tried| tried.part);
            self.tried += 1;
            best.push(self.time(random_start(r), prices, ROUNDS, hope));
            sort(&mut best);
            best.truncate(6);
        }
        for (kept, until) in [(6, 0.5), (3, 0.75), (1, 1.0)] {
            sort(&mut best);
            for turn in 0.. {
                if began.elapsed().as_secs_f64() > until * seconds {
                    break;
                }
                let now = &mut best[turn % kept];
                let blocks = changed(r, &now.blocks);
                if blocks.len() > BLOCKS || blocks == now.blocks {
                    continue;
                }
                self.tried += 1;
                let new = self.time(blocks, prices, ROUNDS, now.part);
                if new.part > now.part {
                    *now = new;
                }
            }
        }
        // The best were lucky too: those that are reported are timed again.
        sort(&mut best);
        best.truncate(3);
        let mut best: Vec<Tried> =
            best.into_iter().map(|tried| self.time(tried.blocks, prices, ROUNDS_AT_END, 0.0)).collect();
        sort(&mut best);
        best
    }

    /// A word in letters and powers, by its cheapest fold at unit prices.
    fn written(&mut self, blocks: &[Block]) -> String {
        let letters = letters(blocks);
        let (run, unit) = (bytes_of(&steps(letters.clone())), &price_sets()[0].1);
        let (_, cost) = self.bench.ours(&run, unit);
        let text = notation(&decode(self.bench.check("climb", &run, unit, cost, cost)));
        assert!(word(&text, MAX_NODES) == letters, "{text} is another word");
        text
    }
}

fn main() {
    let args: Vec<u64> = std::env::args().skip(1).map(|arg| arg.parse().expect("a number")).collect();
    let (seconds, seed) = match args[..] {
        [seconds] => (seconds, 1),
        [seconds, seed] => (seconds, seed),
        _ => panic!("usage: climb SECONDS [SEED]"),
    };
    let mut climber = Climber { bench: Bench::default(), tried: 0 };
    let sets = price_sets();
    let mut list = String::new();
    for (k, (name, prices)) in sets.iter().enumerate() {
        let r = &mut Random::new(seed * sets.len() as u64 + k as u64);
        println!("slow at prices {name}, time and part of blocked:");
        for (place, tried) in climber.climb(r, prices, seconds as f64 / sets.len() as f64).iter().enumerate() {
            let text = climber.written(&tried.blocks);
            println!("  {:.2} ms, {:.2}: {text}", tried.seconds * 1e3, tried.part);
            if place == 0 {
                list += &format!("        begun(Powers, \"found, {name}\", \"{text}\"),\n");
            }
        }
    }
    let Climber { bench, tried } = climber;
    println!("{} folds read back, all costs agree; for rust/compare/src/inputs.rs:\n", bench.checked);
    print!("    pub const FOUND: &[Family] = &[\n{list}    ];\n\n");
    println!("    /// How many seconds the climber had, and how many runs it tried.");
    println!("    pub const SEARCHED: (u64, u64) = ({seconds}, {tried});");
}
