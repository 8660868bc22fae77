//! Whole seasons: readers, unroller and folder of flat runs of up to 65,535 steps, what they are given beside the inputs of the
//! others, and what has to come up. The folder is also held to a trial of every fold, and its bytes to those of the first folder.

use crate::Entry::{self, SeasonFold, SeasonFolder, SeasonRun, SeasonUnroll};
use crate::{cut_off, false_width, open_at, open_behind, shown, stamped_words, unit, Compare};
use compare::inputs::{self, families, flat_bytes, Opening};
use compare::reference::{self, count_repeats, decode, Answer, Item, Prices, Ranked, Solved};
use compare::season;
use runfold::{fold_room, raw, season_work_entries, MAX_NODES, SEASON_NODES, SEASON_WIDTH};
use std::cmp::Ordering;

/// The limits that the edges are read at, those that are refused among them.
const LIMITS: [usize; 8] = [32, 0, 1, 2, 31, 33, 1024, usize::MAX];

/// What was written and held to more than one thing.
#[derive(Default)]
pub struct Seasons {
    pub written: u64,
    pub as_first: u64,
    pub against_trial: u64,
    pub longest: usize,
}

/// Each gives the refusal where the lent answer is long enough.
impl Compare {
    pub fn season_run_reader(&mut self, run: &[u8]) -> Option<u8> {
        let mut answer = self.answer_slice();
        let status = raw::read_season_run(run, &mut answer);
        let expected = season::read_season_run(run);
        let enough = self.check_answer(SeasonRun, run, &String::new, status, &answer, expected.numbers());
        if enough && expected.nodes == SEASON_NODES {
            self.reached_by(SeasonRun, "65,535 steps");
        }
        enough.then_some(expected.refusal)
    }

    pub fn season_reader(&mut self, fold: &[u8], limit: usize, prices: &Prices) -> Option<u8> {
        let call = || format!("limit {limit}, {}", shown(prices));
        let mut answer = self.answer_slice();
        let Prices { steps, groups, marks, first, each } = prices;
        let status = raw::read_season(fold, limit, steps, groups, marks, *first, *each, &mut answer);
        let expected = season::read_season(fold, limit, prices);
        if !self.check_answer(SeasonFold, fold, &call, status, &answer, expected.numbers()) {
            return None;
        }
        let refused = || season::read_season(fold, limit, &unit()).refusal != 0;
        self.wrong_marks(SeasonFold, expected.refusal, marks, &refused);
        self.at_limit(SeasonFold, limit, expected.refusal);
        self.marks_in_season(fold, limit, prices, expected);
        if expected.refusal == 0 {
            self.sound_season(SeasonFold, fold, expected.nodes);
        }
        Some(expected.refusal)
    }

    /// The season unroller with an output that is mostly long enough.
    pub fn season_unroller(&mut self, fold: &[u8], limit: usize) -> Option<u8> {
        let run = season::unrolled(fold, limit);
        let room = self.lent(run.as_ref().map_or(9, Vec::len));
        self.unroll_season_to(fold, limit, &run, room)
    }

    /// The same with an output of so many bytes, held to the run that there is.
    fn unroll_season_to(
        &mut self,
        fold: &[u8],
        limit: usize,
        run: &Result<Vec<u8>, Answer>,
        room: usize,
    ) -> Option<u8> {
        let expected = reference::written(run.clone(), room);
        let call = || format!("limit {limit}, output of {room} bytes");
        let write = &mut |out: &mut [u8], answer: &mut [u64]| raw::unroll_season(fold, limit, out, answer);
        let refusal = self.writer(SeasonUnroll, fold, &call, room, &expected, write)?;
        self.at_limit(SeasonUnroll, limit, refusal);
        if let Ok(run) = run {
            self.room(SeasonUnroll, room, run.len());
            if refusal == 0 {
                self.sound_season(SeasonUnroll, fold, run.len() / 2);
            }
        }
        Some(refusal)
    }

    /// The season folder with slices that are mostly long enough, held to a solution.
    pub fn season_folder(
        &mut self,
        run: &[u8],
        limit: usize,
        prices: &Prices,
        solved: &Result<Solved, Answer>,
    ) -> Option<u8> {
        let (nodes, length) = solved.as_ref().map_or((2, 9), |s| (s.nodes, s.bytes.len()));
        let (work, room) = (self.lent(season::needed(nodes)), self.lent(length));
        self.fold_season_to(run, limit, prices, solved, work, room)
    }

    /// The same with so many entries of work and bytes of output.
    fn fold_season_to(
        &mut self,
        run: &[u8],
        limit: usize,
        prices: &Prices,
        solved: &Result<Solved, Answer>,
        lent: usize,
        room: usize,
    ) -> Option<u8> {
        let expected = match solved {
            Ok(solved) => season::lend(solved, lent, room),
            Err(refused) => (*refused, Vec::new()),
        };
        let call = || format!("limit {limit}, {}, work of {lent} entries, output of {room} bytes", shown(prices));
        let mut work = stamped_words(lent);
        let Prices { steps, groups, marks, first, each } = prices;
        let write = &mut |out: &mut [u8], answer: &mut [u64]| {
            raw::fold_season(run, limit, steps, groups, marks, *first, *each, &mut work, out, answer)
        };
        let refusal = self.writer(SeasonFolder, run, &call, room, &expected, write);
        let mut after = stamped_words(lent);
        if let (Some(0 | 14), Ok(solved)) = (refusal, solved) {
            after[..season::needed(solved.nodes)].fill(0);
        }
        self.check_slice(SeasonFolder, run, &call, "work", &work, &after);
        let refusal = refusal?;
        self.wrong_marks(SeasonFolder, refusal, marks, &|| season::read_season_run(run).refusal != 0);
        self.at_limit(SeasonFolder, limit, refusal);
        if let Ok(solved) = solved {
            self.lent_to_season(solved, refusal, lent, room);
            if refusal == 0 {
                self.season_written(run, prices, solved);
            }
        }
        Some(refusal)
    }

    /// What the sizes of the lent slices decide.
    fn lent_to_season(&mut self, solved: &Solved, refusal: u8, lent: usize, room: usize) {
        let (needed, length) = (season::needed(solved.nodes), solved.bytes.len());
        if refusal == 13 {
            if lent + 1 == needed {
                self.reached("13 by one entry of a season's work");
            }
            if room < length {
                self.reached("13 where 14 applies too in a season");
            }
            if solved.nodes == 0 {
                self.reached("13 for the empty season run");
            }
            return;
        }
        self.room(SeasonFolder, room, length);
        match (lent == needed, refusal) {
            (true, 0) => self.reached("a season folded in work just long enough"),
            (false, 0) => self.reached("a season folded in longer work"),
            (false, 14) => self.reached("14 in a season with longer work"),
            _ => {}
        }
    }

    /// An output of so many bytes for so many.
    fn room(&mut self, entry: Entry, room: usize, length: usize) {
        match room.cmp(&length) {
            Ordering::Equal => self.reached_by(entry, "an output just long enough"),
            Ordering::Greater => self.reached_by(entry, "a longer output"),
            _ if room + 1 == length => self.reached_by(entry, "14 by one byte"),
            _ => {}
        }
    }

    fn at_limit(&mut self, entry: Entry, limit: usize, refusal: u8) {
        match (limit, refusal) {
            (0, 0) => self.reached_by(entry, "limit 0"),
            (32, 0) => self.reached_by(entry, "limit 32"),
            (33, 12) => self.reached_by(entry, "12 at limit 33"),
            (34..=1024, 12) => self.reached_by(entry, "12 at a limit of other folds"),
            _ => {}
        }
    }

    /// A season fold that was read or unrolled.
    fn sound_season(&mut self, entry: Entry, fold: &[u8], nodes: usize) {
        if nodes == SEASON_NODES {
            self.reached_by(entry, "65,535 steps");
        }
        if inputs::openings(fold).iter().any(|opening| opening.width == 32) {
            self.reached_by(entry, "a width of 32");
        }
    }

    /// What decides where a command of a season is refused.
    pub fn refused_in_season(&mut self, entry: Entry, input: &[u8], refusal: u8, place: usize) {
        let in_fold = [SeasonFold, SeasonUnroll].contains(&entry);
        match refusal {
            3 if input.len() == 2 * SEASON_NODES + 1 && cut_off(input) == [0x10] => {
                self.reached_by(entry, "3 where a label of a 65,536th step is missing");
            }
            7 if input[place + 1..place + 5] == [0, 2, 0, 33] => self.reached_by(entry, "7 at width 33"),
            10 if input[place] == 0x10 => self.reached_by(entry, "10 at a step"),
            10 if !false_width(input, place) => self.reached_by(entry, "10 at a close"),
            21 => {
                if place + 1 == input.len() {
                    self.reached_by(entry, "21 where 3 applies too");
                }
                if place == 2 * SEASON_NODES {
                    self.reached_by(entry, "21 behind 65,535 steps");
                }
                if in_fold && open_at(input, place, &[0x20]) {
                    self.reached_by(entry, "21 in a repeat");
                }
            }
            _ => {}
        }
    }

    /// What marks decide in a season fold.
    fn marks_in_season(&mut self, fold: &[u8], limit: usize, prices: &Prices, Answer { refusal, place, .. }: Answer) {
        match refusal {
            0 if count_repeats(&decode(fold)) > 0 && prices.mark_in(&decode(fold)) => {
                self.reached("a season fold with repeats and a marked label outside them");
            }
            3 if prices.marks == [1; 256] && cut_off(fold) == [0x10] && open_at(fold, fold.len() - 1, &[0x20]) => {
                self.reached("3 for a missing label in a season's repeat, every label marked");
            }
            19 => {
                if fold[place - 1] == 0x21 && open_behind(&fold[..place - 1]).1 == place - 1 {
                    self.reached("19 right behind a repeat in a season's repeat");
                }
                let unmarked = season::read_season(fold, limit, &prices.unmarked());
                if (unmarked.refusal, unmarked.place) == (10, place) {
                    self.reached("19 in a season where 10 applies too");
                }
            }
            _ => {}
        }
    }

    /// A season's fold that was written.
    fn season_written(&mut self, run: &[u8], prices: &Prices, solved: &Solved) {
        self.seasons.written += 1;
        self.seasons.longest = self.seasons.longest.max(solved.nodes);
        for (steps, case) in [(0, "0 steps"), (1, "1 step"), (1024, "1,024 steps"), (SEASON_NODES, "65,535 steps")] {
            if solved.nodes == steps {
                self.reached_by(SeasonFolder, case);
            }
        }
        let openings = inputs::openings(&solved.bytes);
        let any = |so: &dyn Fn(&Opening) -> bool| openings.iter().any(so);
        let cases = [
            ("a width of 32", any(&|opening| opening.width == 32)),
            ("a count above 1,024", any(&|opening| opening.count > 1024)),
            ("a count of 65,535", any(&|opening| opening.count == 65_535)),
            ("a repeat in a repeat", any(&|opening| open_at(&solved.bytes, opening.at, &[0x20]))),
            ("a marked label beside repeats", !openings.is_empty() && prices.mark_in(&decode(run))),
            ("a cost of all 32 bits", solved.cost == 65_535 * 65_535),
        ];
        for (case, _) in cases.iter().filter(|(_, so)| *so) {
            self.reached_by(SeasonFolder, case);
        }
    }
}

/// The inputs of these.
impl Compare {
    fn season_limit(&mut self) -> usize {
        match self.random.below(16) {
            0 => 0,
            1..=3 => 1 + self.random.below(8),
            4..=7 => self.random.below(33),
            8 => 31,
            9 => *self.random.pick(&[33, 34, 64, 1024, 65536, usize::MAX]),
            _ => 32,
        }
    }

    /// Bytes of any kind, through all four.
    pub fn season_bytes(&mut self, bytes: &[u8]) {
        let (limit, prices) = (self.season_limit(), self.prices());
        self.season_run_reader(bytes);
        self.season_reader(bytes, limit, &prices);
        self.season_unroller(bytes, limit);
        let solved = season::solve(bytes, limit, &prices);
        self.season_folder(bytes, limit, &prices, &solved);
    }

    /// An edge of the rules through all four, at every limit, each until the lent answer is long enough.
    pub fn season_edge(&mut self, bytes: &[u8]) {
        while self.season_run_reader(bytes).is_none() {}
        for limit in LIMITS {
            for _ in 0..2 {
                let prices = self.prices();
                while self.season_reader(bytes, limit, &prices).is_none() {}
            }
            let unit = unit();
            while self.season_reader(bytes, limit, &unit).is_none() {}
            let run = season::unrolled(bytes, limit);
            let length = run.as_ref().map_or(1, Vec::len);
            for room in [length, length + 5, length.saturating_sub(1), 0] {
                while self.unroll_season_to(bytes, limit, &run, room).is_none() {}
            }
            self.season_sizes(bytes, limit, &unit, &season::solve(bytes, limit, &unit));
        }
        // One label marked, and every one; marks and tables that are not in order.
        let one = inputs::marking(|label| label == 7);
        for marks in [one, vec![1; 256], vec![0; 255], vec![0; 257], vec![2; 256]] {
            for (steps, groups, limit) in [(256, 256, 32), (256, 256, 33), (256, 257, 33), (255, 255, 33)] {
                let prices = Prices { steps: vec![1; steps], groups: vec![1; groups], marks: marks.clone(), ..unit() };
                while self.season_reader(bytes, limit, &prices).is_none() {}
                let solved = season::solve(bytes, limit, &prices);
                while self.season_folder(bytes, limit, &prices, &solved).is_none() {}
            }
        }
    }

    /// The season folder with slices just long enough, longer, and an entry or a byte too short, each until the lent answer is
    /// long enough.
    fn season_sizes(&mut self, run: &[u8], limit: usize, prices: &Prices, solved: &Result<Solved, Answer>) {
        let (nodes, length) = solved.as_ref().map_or((1, 2), |s| (s.nodes, s.bytes.len()));
        let (needed, less) = (season::needed(nodes), length.saturating_sub(1));
        for (lent, room) in [
            (needed, length),
            (needed + 7, length + 5),
            (needed - 1, length),
            (needed, less),
            (needed + 3, less),
            (needed - 1, less),
            (0, 0),
        ] {
            while self.fold_season_to(run, limit, prices, solved, lent, room).is_none() {}
        }
    }

    /// A flat run at one limit and prices through all four; where the first folder takes it, with the bytes that it writes.
    pub fn season(&mut self, labels: &[u8], limit: usize, prices: &Prices) {
        let run = flat_bytes(labels);
        self.season_run_reader(&run);
        let solved = season::solve(&run, limit, prices);
        self.season_folder(&run, limit, prices, &solved);
        let Ok(solved) = solved else { return };
        assert!(solved.bytes.len() <= fold_room(solved.nodes), "a fold of more than four bytes a node");
        self.season_reader(&solved.bytes, limit, prices);
        self.season_unroller(&solved.bytes, limit);
        if labels.len() <= MAX_NODES {
            self.as_first(&run, limit, prices);
        }
        if labels.len() <= 60 {
            let unmarked = season::solve(&run, limit, &prices.unmarked()).expect("a sound run");
            if unmarked.bytes != solved.bytes {
                self.reached("a season fold that marks change");
            }
        }
    }

    /// The bytes and the cost that both folders of the library give.
    fn as_first(&mut self, run: &[u8], limit: usize, prices: &Prices) {
        let Prices { steps, groups, marks, first, each } = prices;
        let lent = runfold::Prices { steps, groups, marks, first: *first, each: *each };
        let first = runfold::folded(run, limit, lent).expect("the run is sound");
        let mut work = vec![0; season_work_entries(run.len() / 2)];
        let mut out = vec![0; fold_room(run.len() / 2)];
        let folding = runfold::fold_season(run, limit, lent, &mut work, &mut out).expect("the run is sound");
        out.truncate(folding.length);
        if (&out, folding.cost) != (&first.0, first.1) {
            let call = || format!("limit {limit}, {}", shown(prices));
            let [given, expected] = [(out, folding.cost), first].map(|fold| format!("{fold:02X?}"));
            self.differ(SeasonFolder, run, &call, "fold and cost, as the folder's", &given, &expected);
        }
        self.seasons.as_first += 1;
    }

    /// Every fold of a short flat run, tried.
    pub fn season_trial(&mut self, items: &[Item], limit: usize, prices: &Prices) {
        let run = inputs::bytes_of(items);
        let allowed = reference::every_fold(items, limit).into_iter().filter_map(|bytes| {
            let read = season::read_season(&bytes, limit, prices);
            assert!([0, 19].contains(&read.refusal), "no fold: {bytes:02X?}");
            let fold = Ranked { cost: read.cost, repeats: count_repeats(&decode(&bytes)), bytes };
            (read.refusal == 0).then_some(fold)
        });
        let Ranked { cost, bytes, .. } = allowed.min().expect("the run itself");
        let solved = Solved { nodes: items.len(), cost, bytes };
        self.season_sizes(&run, limit, prices, &Ok(solved));
        self.seasons.against_trial += 1;
    }

    /// A long run, with slices of several sizes.
    fn long_season(&mut self, labels: &[u8], limit: usize, prices: &Prices) {
        let run = flat_bytes(labels);
        while self.season_run_reader(&run).is_none() {}
        let solved = season::solve(&run, limit, prices);
        self.season_sizes(&run, limit, prices, &solved);
        let Ok(solved) = solved else { return };
        while self.season_reader(&solved.bytes, limit, prices).is_none() {}
        let run = season::unrolled(&solved.bytes, limit);
        for room in [2 * labels.len(), 2 * labels.len() - 1] {
            while self.unroll_season_to(&solved.bytes, limit, &run, room).is_none() {}
        }
    }

    /// Long runs: known ones of the highest number of steps, and others of several lengths.
    pub fn long_seasons(&mut self, scale: usize) {
        let dear = Prices::by_label(vec![65_535; 256], 65_535, 65_535);
        let one = [1].repeat(SEASON_NODES);
        self.long_season(&one, SEASON_WIDTH, &unit());
        self.long_season(&one, 0, &dear);
        let marked = Prices { marks: inputs::marking(|label| label == 7), ..unit() };
        let word = inputs::word("(a^40 g (abcc)^9 b^1999)^n", SEASON_NODES);
        self.long_season(&word, SEASON_WIDTH, &marked);
        // 32 different labels again and again.
        let wide: Vec<u8> = (0..SEASON_NODES).map(|k| (k % 32) as u8).collect();
        self.long_season(&wide, SEASON_WIDTH, &unit());
        for k in 0..3 + scale / 4 {
            let steps = match k % 5 {
                0 => SEASON_NODES,
                1 => MAX_NODES,
                2 => MAX_NODES + 1,
                3 => 1 + self.random.below(SEASON_NODES),
                _ => 1 + self.random.below(8192),
            };
            let labels = inputs::flat_run(&mut self.random, steps);
            let (limit, prices) = (self.season_limit().min(SEASON_WIDTH), self.sound_prices());
            self.long_season(&labels, limit, &prices);
        }
    }

    /// A flat run of up to 1,024 steps, mostly short.
    pub fn season_run(&mut self, k: usize) {
        let steps = match k {
            _ if k.is_multiple_of(200) => 1024,
            _ if k.is_multiple_of(20) => self.random.below(1025),
            _ => self.random.below(90),
        };
        let labels = inputs::flat_run(&mut self.random, steps);
        let (limit, prices) = (self.season_limit(), self.prices());
        self.season(&labels, limit, &prices);
    }

    /// A season fold or a season run, sound or damaged.
    pub fn damaged_season(&mut self, k: usize) {
        let r = &mut self.random;
        let (size, labels) = (1 + r.below(60), 1 + r.below(4));
        let sound = match k % 3 {
            0 => flat_bytes(&inputs::flat_run(r, size)),
            // Few groups, so that most that is refused is refused by something else.
            1 => inputs::bytes_of(&inputs::random_fold(r, size, labels, 0, 6)),
            _ => {
                let times = [&[0x20][..], &(2 + r.below(400) as u16).to_be_bytes()].concat();
                let body = inputs::random_fold(r, size, labels, usize::from(k % 9 == 2), 4);
                let width = inputs::siblings(&body) as u16;
                [&times[..], &width.to_be_bytes(), &inputs::bytes_of(&body), &[0x21]].concat()
            }
        };
        let bytes = if r.once_in(4) { sound } else { inputs::damaged(r, &sound) };
        self.season_bytes(&bytes);
    }
}

/// A repeat of a count and a width over a body.
fn repeat(count: u16, width: u16, body: &[u8]) -> Vec<u8> {
    [&[0x20][..], &count.to_be_bytes(), &width.to_be_bytes(), body, &[0x21]].concat()
}

/// The short inputs that stand at the edges of what a season may be, sound and refused.
pub fn edges() -> Vec<Vec<u8>> {
    let a = |steps: usize| [0x10, 7].repeat(steps);
    let open = [0x20, 0, 2, 0, 1];
    let powers = |depth: u32| (0..depth).fold(a(1), |body, k| repeat(2, 1 << k, &body));
    let mut edges = vec![
        vec![],
        a(1),
        // A group: its label missing, alone, with all that it holds, behind steps and in a repeat.
        vec![0x11],
        vec![0x11, 5],
        vec![0x11, 5, 0x12],
        inputs::bytes_of(&[Item::Group(5, families::steps([7]))]),
        [a(2), vec![0x11]].concat(),
        [&open[..], &[0x11]].concat(),
        [&open[..], &[0x11, 5]].concat(),
        repeat(2, 1, &[0x11, 5, 0x10, 7, 0x12]),
        // What 21 comes after: an unknown command, and a repeat in a run.
        vec![0x13, 0x11],
        vec![0x20, 0x11],
        vec![0x21, 0x11],
        vec![0x22, 2, 1, 0x10, 7, 0x21],
        vec![0x12],
        [a(1), vec![0x12]].concat(),
        [&open[..], &[0x12]].concat(),
        [&open[..], &[0x21]].concat(),
        [&open[..], &[0x10]].concat(),
        [&open[..], &a(1)].concat(),
        vec![0x10],
        vec![0x20, 0, 2],
        repeat(0, 1, &a(1)),
        repeat(1, 1, &a(1)),
        repeat(2, 0, &a(1)),
        repeat(2, 2, &a(1)),
        // A step right behind a repeat in a repeat.
        repeat(2, 3, &[repeat(2, 1, &a(1)), vec![0x10, 8]].concat()),
        [a(1), repeat(2, 1, &[0x10, 8]), a(1)].concat(),
        // Ten open repeats, and an eleventh.
        [open.repeat(10), a(1)].concat(),
        [open.repeat(11), a(1)].concat(),
    ];
    edges.extend((5..8).map(powers));
    edges.extend((31..34).map(|width| repeat(2, width, &a(width.into()))));
    edges
}

/// The long ones, or those of long runs.
pub fn long_edges() -> Vec<Vec<u8>> {
    let a = |steps: usize| [0x10, 7].repeat(steps);
    let mut edges = vec![
        a(1024),
        a(1025),
        a(SEASON_NODES),
        a(SEASON_NODES + 1),
        // The highest number of steps by repeats, and one more, at a close and at a step; with a false width too.
        repeat(65_535, 1, &a(1)),
        repeat(65_535, 2, &a(1)),
        [a(1), repeat(65_534, 1, &a(1))].concat(),
        [a(1), repeat(65_535, 1, &a(1))].concat(),
        [a(1), repeat(65_535, 2, &a(1))].concat(),
        [repeat(65_535, 1, &a(1)), a(1)].concat(),
        [repeat(32_767, 2, &a(2)), a(1)].concat(),
        [repeat(32_767, 2, &a(2)), a(2)].concat(),
        repeat(32_768, 2, &a(2)),
        repeat(2047, 32, &a(32)),
        repeat(2048, 32, &a(32)),
        repeat(255, 257, &repeat(257, 1, &a(1))),
        repeat(65_535, 30, &repeat(15, 2, &a(2))),
    ];
    // One more step in a repeat, so that it may be marked.
    edges.push([&[0x20, 0, 2, 0, 1][..], &[0x10, 8].repeat(SEASON_NODES), &a(1)].concat());
    for end in [&[0x10][..], &[0x11], &[0x11, 5], &[0x12]] {
        edges.push([&a(SEASON_NODES), end].concat());
    }
    edges
}
