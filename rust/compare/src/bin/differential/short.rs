//! The short family: what its reader and both conversions are given beside the inputs of the others, and what has to come up.

use crate::Entry::{self, ToLong, ToShort};
use crate::{by_the_library, cut_off, hex, open_at, open_behind, unit, Compare, Convert};
use compare::inputs::{self, families, Opening};
use compare::reference::{self, Answer, Family, Item};
use runfold::{raw, MAX_WIDTH};
use std::cmp::Ordering;

impl Compare {
    /// What the short family is given of any bytes: mostly with their repeats opened as there, now and then as they are.
    pub fn for_short(&mut self, bytes: &[u8]) -> Vec<u8> {
        if self.random.once_in(4) {
            bytes.to_vec()
        } else {
            inputs::shortened(bytes)
        }
    }

    /// Both conversions, each of what it takes.
    pub fn conversions(&mut self, bytes: &[u8]) {
        self.convert(Family::Short, bytes);
        let short = self.for_short(bytes);
        self.convert(Family::Long, &short);
    }

    /// A conversion to an output that is mostly long enough; says whether it was written.
    pub fn convert(&mut self, to: Family, fold: &[u8]) -> bool {
        let form = reference::convert(to, fold);
        let room = self.lent(form.as_ref().map_or(9, Vec::len));
        self.conversion(to, fold, form, room) == Some(0)
    }

    /// A conversion to an output of so many bytes, held to the form that there is; gives the refusal where the lent answer is
    /// long enough.
    fn conversion(&mut self, to: Family, fold: &[u8], form: Result<Vec<u8>, Answer>, room: usize) -> Option<u8> {
        let (entry, convert): (_, Convert) = match to {
            Family::Short => (ToShort, raw::to_short),
            Family::Long => (ToLong, raw::to_long),
        };
        let call = || format!("output of {room} bytes");
        let write = &mut |out: &mut [u8], answer: &mut [u64]| convert(fold, out, answer);
        let refusal = self.writer(entry, fold, &call, room, &reference::written(form.clone(), room), write);
        if let (Some(0 | 14), Ok(form)) = (refusal, form) {
            match room.cmp(&form.len()) {
                Ordering::Equal => self.reached_by(entry, "an output just long enough"),
                Ordering::Greater => self.reached_by(entry, "a longer output"),
                _ if room + 1 == form.len() => self.reached_by(entry, "14 by one byte"),
                _ => {}
            }
            match (refusal, to) {
                (Some(0), Family::Short) => self.short_form_written(entry, &form, room),
                (Some(0), Family::Long) => self.short_fold(entry, fold),
                _ => {}
            }
        }
        refusal
    }

    /// A short form that was written to so much room.
    pub fn short_form_written(&mut self, entry: Entry, form: &[u8], room: usize) {
        self.short_fold(entry, form);
        if reference::form_in(Family::Long, form).len() > room {
            self.reached_by(entry, "an output that the long form has no room in");
        }
    }

    /// A short fold that was read or written.
    pub fn short_fold(&mut self, entry: Entry, fold: &[u8]) {
        let openings = inputs::openings(fold);
        for Opening { count, width, .. } in &openings {
            for (what, operand) in [("count", count), ("width", width)] {
                if [255, 256].contains(operand) {
                    self.reached_by(entry, &format!("a short fold with {what} {operand}"));
                }
            }
        }
        let opens = |command| openings.iter().any(|opening| fold[opening.at] == command);
        if !opens(0x20) || !opens(0x22) {
            return;
        }
        for Opening { at, .. } in openings {
            let (case, outside) = if fold[at] == 0x22 { ("a 22 in a 20", 0x20) } else { ("a 20 in a 22", 0x22) };
            if open_at(fold, at, &[outside]) {
                self.reached_by(entry, case);
            }
        }
    }

    /// What the short family decides where a command of it is refused.
    pub fn refused_in_short(&mut self, entry: Entry, input: &[u8], refusal: u8, place: usize) {
        let opening = |command| input[place] == command;
        let small = || opening(0x20) && input[place + 1] == 0 && input[place + 3] == 0;
        let open = || open_behind(&input[..place]).0.into_iter().map(|at| input[at]).collect::<Vec<_>>();
        let case = match refusal {
            3 => match cut_off(input) {
                [0x22] => "3 at a 22 without operands".to_string(),
                [0x22, _] => "3 at a 22 without its width".to_string(),
                [0x20, ..] => "3 at a 20 in the short family".to_string(),
                _ => return,
            },
            5 | 9 | 10 if opening(0x21) && open().last() == Some(&0x22) => format!("{refusal} at the close of a 22"),
            6..=8 if opening(0x22) => format!("{refusal} at a 22"),
            6 | 7 if small() => format!("{refusal} at a 20 where 20 applies too"),
            19 if open().contains(&0x22) => "19 in a 22".to_string(),
            20 if open().iter().filter(|&&command| command != 0x11).count() == 10 => {
                "20 where 8 applies too".to_string()
            }
            _ => return,
        };
        self.reached_by(entry, &case);
    }

    /// A sound fold to its short form and back, with outputs of several sizes; and by what the library itself wrote.
    pub fn there_and_back(&mut self, fold: &[u8]) {
        let Ok(short) = reference::convert(Family::Short, fold) else { return self.conversions(fold) };
        assert_eq!(short, inputs::shortened(fold), "another short form");
        for (to, from, form) in [(Family::Short, fold, &short[..]), (Family::Long, &short, fold)] {
            let (length, more) = (form.len(), 1 + self.random.below(40));
            for room in [length, length + more, length.saturating_sub(1), 0] {
                self.conversion(to, from, Ok(form.to_vec()), room);
            }
        }
        let (mut there, mut back, mut again) = (vec![0; short.len()], vec![0; fold.len()], vec![0; short.len()]);
        let lengths = [
            runfold::to_short(fold, &mut there),
            runfold::to_long(&there, &mut back),
            runfold::to_short(&back, &mut again),
        ];
        if lengths != [Ok(short.len()), Ok(fold.len()), Ok(short.len())] || back != fold || again != there {
            let given = format!("{lengths:?}, {}, {}, {}", hex(&there), hex(&back), hex(&again));
            let expected = format!("{}, then the fold, then the first again", hex(&short));
            self.differ(ToLong, fold, &String::new, "there and back and there again", &given, &expected);
        }
        for entry in [ToShort, ToLong] {
            self.reached_by(entry, "there and back");
        }
    }

    /// Bytes as they are, through what takes a short fold: several times, since a lent answer is too short now and then.
    pub fn as_short(&mut self, bytes: &[u8]) {
        for limit in [1024, 0, 1, 2, 1023, 1025].repeat(4) {
            let prices = self.sound_prices();
            self.fold_reader(Family::Short, bytes, limit, &prices);
            self.convert(Family::Long, bytes);
        }
    }

    /// Runs whose cheapest folds have counts and widths on both sides of the border of the short family.
    pub fn border_runs(&mut self) {
        for near in 254..=257 {
            let power = |count| families::steps(vec![1; count]);
            let node = |k| if k < 256 { Item::Step(k as u8) } else { Item::Group(0, families::steps([0])) };
            let ended = [power(near - 1), families::steps([2])].concat();
            let once: [Vec<Item>; 3] = [(0..near).map(node).collect(), ended, vec![Item::Group(5, power(near))]];
            let twice = once.map(|items| [&items[..], &items].concat());
            for items in twice.into_iter().chain([power(near)]) {
                self.cost_and_repeats(&items, MAX_WIDTH, &unit());
                // Until the slices that are lent to the short folder are long enough.
                let solved = Ok(by_the_library(&items, MAX_WIDTH, &unit()).form_in(Family::Short));
                while !self.folder(Family::Short, &inputs::bytes_of(&items), MAX_WIDTH, &unit(), &solved) {}
            }
        }
    }

    /// A short fold, sound or damaged, through what takes one and now and then through every entry point.
    pub fn short_folds(&mut self, k: usize) {
        let r = &mut self.random;
        let (size, labels, groups) = (1 + r.below(40), 1 + r.below(4), r.below(9));
        let at_border = k.is_multiple_of(10);
        let items = match at_border {
            true => inputs::border_fold(r, labels),
            false => inputs::random_fold(r, size, labels, groups, 5),
        };
        let fold = inputs::bytes_of(&items);
        let mut short = inputs::shortened(&fold);
        if !r.once_in(5) {
            short = inputs::damaged_short(r, &short);
        }
        let (limit, prices) = (self.limit(), self.prices());
        self.fold_reader(Family::Short, &short, limit, &prices);
        self.convert(Family::Long, &short);
        if at_border {
            self.there_and_back(&fold);
        }
        if self.random.once_in(8) {
            self.any_bytes(&short);
        }
    }
}

/// So many steps.
fn a(count: usize) -> Vec<u8> {
    [0x10, 1].repeat(count)
}

/// A repeat by the command that opens it, operands and all.
fn around(open: &[u8], body: &[u8]) -> Vec<u8> {
    [open, body, &[0x21]].concat()
}

/// The inputs that stand at the edges of the short family, sound and refused, for every entry point.
pub fn edges() -> Vec<Vec<u8>> {
    [edges_of_rules(), edges_of_operands()].concat()
}

fn edges_of_rules() -> Vec<Vec<u8>> {
    let behind_ten = |last: &[u8]| [&[0x22, 2, 1].repeat(10), last, &[0x10, 7]].concat();
    vec![
        // A 22, cut off and whole, beside others and in what no 21 closes.
        vec![0x22],
        vec![0x22, 3],
        vec![0x22, 3, 1],
        vec![0x10, 7, 0x22],
        vec![0x20, 1, 0, 0],
        around(&[0x22, 3, 1], &a(1)),
        [a(1), around(&[0x22, 2, 2], &a(2)), a(1)].concat(),
        vec![0x22, 2, 1, 0x12],
        vec![0x22, 2, 1, 0x21],
        // Its count and its width.
        around(&[0x22, 0, 1], &a(1)),
        around(&[0x22, 1, 1], &a(1)),
        around(&[0x22, 2, 0], &a(1)),
        around(&[0x22, 2, 2], &a(1)),
        around(&[0x22, 255, 5], &a(5)),
        around(&[0x22, 255, 4], &a(5)),
        around(&[0x22, 255, 4], &a(4)),
        // A 20 that should be a 22, where 6, 7 and 8 apply too; and 8 at a 22, and at a 20 that is one.
        around(&[0x20, 0, 2, 0, 1], &a(1)),
        around(&[0x20, 0, 1, 0, 1], &a(1)),
        around(&[0x20, 0, 2, 0, 2], &a(2)),
        behind_ten(&[0x20, 0, 2, 0, 1]),
        behind_ten(&[0x20, 0, 1, 0, 1]),
        behind_ten(&[0x22, 2, 1]),
        behind_ten(&[0x20, 1, 0, 0, 1]),
        // A width over every limit.
        around(&[0x20, 0, 2, 4, 1], &a(1)),
    ]
}

/// Counts and widths at the border, opened by either command, and each command in the other as far as the nodes allow.
fn edges_of_operands() -> Vec<Vec<u8>> {
    let mut edges = vec![
        around(&[0x20, 1, 0, 0, 2], &around(&[0x22, 2, 1], &a(1))),
        around(&[0x22, 2, 1], &[&[0x11, 5], &around(&[0x20, 1, 0, 0, 1], &a(1))[..], &[0x12]].concat()),
    ];
    for near in [255u16, 256] {
        let [high, low] = near.to_be_bytes();
        let wide = a(near.into());
        edges.extend([around(&[0x20, high, low, 0, 1], &a(1)), around(&[0x22, low, 1], &a(1))]);
        edges.extend([around(&[0x20, 0, 2, high, low], &wide), around(&[0x22, 2, low], &wide)]);
    }
    edges
}
