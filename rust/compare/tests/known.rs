//! The known folds of docs/FORMAT.md and the examples of docs/REFUSALS.md, on the library through its safe interface and on the
//! independent implementation.

mod common;

use common::{bytes, owned, prices, word, FREE, UNIT};
use compare::inputs::marking;
use compare::reference::{self, Family};
use runfold::Refusal::*;
use runfold::{find, fold, folded, index, part, read_fold, read_run, unroll, work_entries};
use runfold::{fold_short, read_short, to_long, to_short};
use runfold::{FoldReading, Folding, Found, Kind, Prices, Refusal, RunReading};

fn check(run: &[u8], limit: usize, prices: Prices, expected: &[u8], cost: u64) {
    assert_eq!(folded(run, limit, prices), Ok((expected.to_vec(), cost)));
    let read = read_fold(expected, limit, prices).unwrap();
    assert_eq!((read.length, read.cost), (run.len(), cost));
    let mut back = vec![0; run.len()];
    assert_eq!(unroll(expected, limit, &mut back), Ok(run.len()));
    assert_eq!(back, run);
    let solved = reference::solve(run, limit, &owned(prices)).unwrap();
    assert_eq!((solved.bytes, solved.cost), (expected.to_vec(), cost));
}

#[test]
fn known_folds() {
    let unit = prices(1, 0);
    check(&[], 1024, unit, &[], 0);
    check(&word("a"), 1024, unit, &word("a"), 1);
    check(&word("a"), 0, unit, &word("a"), 1);
    check(&word("aa"), 1024, unit, &word("aa"), 2);
    check(&word("aaa"), 1024, unit, &bytes("20 0003 0001 1001 21"), 2);
    check(&word("aaa"), 0, unit, &word("aaa"), 3);
    check(&word("aaaa"), 1024, prices(0, 0), &bytes("20 0004 0001 1001 21"), 1);
    check(&word("aaaa"), 1024, prices(1, 5), &bytes("20 0002 0002 1001 1001 21"), 3);
    check(&word("aaaabab"), 1024, unit, &[bytes("20 0004 0001 1001 21"), word("bab")].concat(), 5);
    let group = bytes("1105 1001 1001 1001 12");
    let twice = bytes("20 0002 0001 1105 20 0003 0001 1001 21 12 21");
    check(&group.repeat(2), 1024, unit, &twice, 4);
    check(&group.repeat(2), 1, unit, &twice, 4);
}

#[test]
fn groups_priced_apart() {
    // Every group costs 4, all else is at unit costs.
    let dear = |first| Prices { groups: &[4; 256], ..prices(first, 0) };
    let group = bytes("1105 1001 1001 1001 12");
    check(&group.repeat(2), 1024, dear(1), &bytes("20 0002 0001 1105 20 0003 0001 1001 21 12 21"), 7);
    // Two groups are repeated where a group is dear, and are not where it is cheap.
    let small = bytes("1105 1001 12");
    check(&small.repeat(2), 1024, dear(3), &bytes("20 0002 0001 1105 1001 12 21"), 8);
    check(&small.repeat(2), 1024, prices(3, 0), &small.repeat(2), 4);
    // Steps by their table and groups by theirs, whatever the label: 9 + 2 + 5 + 3 + 1 + 2.
    let (mut steps, mut groups) = (UNIT, UNIT);
    (steps[1], steps[2]) = (2, 3);
    (groups[1], groups[2], groups[5]) = (5, 1, 9);
    let run = bytes("1105 1001 1101 1002 12 12 1102 1001 12");
    check(&run, 1024, Prices { steps: &steps, groups: &groups, ..prices(1, 0) }, &run, 22);
}

#[test]
fn marked_labels() {
    let check = |run: &[u8], labels: &[u8], expected: &[u8], cost| {
        let marks = marking(|label| labels.contains(&label));
        check(run, 1024, Prices { marks: &marks, ..prices(1, 0) }, expected, cost);
    };
    // A marked step is not repeated; a mark of another label changes nothing.
    let aaa = bytes("20 0003 0001 1001 21");
    check(&word("aaa"), &[], &aaa, 2);
    check(&word("aaa"), &[1], &word("aaa"), 3);
    check(&word("aaa"), &[2], &aaa, 2);
    // Nor is what holds one: the steps before it still are.
    let once = [aaa, word("b")].concat();
    check(&word("aaabaaab"), &[], &[&bytes("20 0002 0004")[..], &once, &[0x21]].concat(), 4);
    check(&word("aaabaaab"), &[2], &once.repeat(2), 6);
    check(&word("aaabaaab"), &[1], &word("aaabaaab"), 8);
    // Two groups are repeated where neither they nor what they hold is marked, however deep.
    let small = bytes("1105 1001 12");
    check(&small.repeat(2), &[2], &bytes("20 0002 0001 1105 1001 12 21"), 3);
    check(&small.repeat(2), &[1], &small.repeat(2), 4);
    check(&small.repeat(2), &[5], &small.repeat(2), 4);
    let deep = bytes("1105 1106 1001 12 12");
    check(&deep.repeat(2), &[], &[bytes("20 0002 0001"), deep.clone(), vec![0x21]].concat(), 4);
    check(&deep.repeat(2), &[1], &deep.repeat(2), 6);
    // A marked group may hold a repeat.
    let group = bytes("1105 20 0003 0001 1001 21 12");
    check(&bytes("1105 1001 1001 1001 12"), &[5], &group, 3);
    check(&bytes("1105 1001 1001 1001 12").repeat(2), &[5], &group.repeat(2), 6);
    // Every label marked: the run itself, at a cost of 1 for each node.
    let all: Vec<u8> = (0..=255).collect();
    for (run, nodes) in [(vec![], 0), (word("aaabbb"), 6), (word("ab").repeat(20), 40), (small.repeat(20), 40)] {
        check(&run, &all, &run, nodes);
    }
}

/// A node of a label three times: the repeat is refused where that label is marked, and is the cheapest fold where it is not.
fn check_mark(node: &[u8], marked: bool, lent: Prices) {
    let (run, fold) = (node.repeat(3), [&bytes("20 0003 0001")[..], node, &[0x21]].concat());
    let refused = marked.then_some(MarkedInRepeat { place: 5 });
    assert_eq!(read_fold(&fold, 1024, lent).err(), refused, "{node:02X?}");
    let cheapest = if marked { &run } else { &fold };
    assert_eq!(&folded(&run, 1024, lent).unwrap().0, cheapest, "{node:02X?}");
}

/// The mark of each label bars its own repeats and those of no other, of steps and of groups.
#[test]
fn every_label_has_its_own_mark() {
    for marked in 0..=u8::MAX {
        let marks = marking(|label| label == marked);
        let lent = Prices { marks: &marks, ..prices(1, 0) };
        for label in 0..=u8::MAX {
            check_mark(&[0x10, label], label == marked, lent);
            // What the group holds is free.
            check_mark(&[0x11, label, 0x10, marked.wrapping_add(1), 0x12], label == marked, lent);
        }
    }
}

/// The fold that wins a tie, and the others of its cost: how many repeats each has, in the order in which they lose.
fn check_tie(run: &[u8], prices: Prices, cost: u64, folds: &[(usize, &str)]) {
    let same = owned(prices);
    let mut tied: Vec<_> = reference::every_fold(&reference::decode(run), 1024)
        .into_iter()
        .filter(|fold| reference::read_fold(fold, 1024, &same).cost == cost)
        .map(|fold| (reference::count_repeats(&reference::decode(&fold)), fold))
        .collect();
    tied.sort();
    let expected: Vec<_> = folds.iter().map(|&(repeats, hex)| (repeats, bytes(hex))).collect();
    assert_eq!(tied, expected);
    check(run, 1024, prices, &expected[0].1, cost);
}

#[test]
fn ties() {
    // One repeat goes before two, although the two begin with a smaller count: one inside the other, side by side, in a group.
    let (one, nested) = ("20 0004 0001 1001 21", "20 0002 0002 20 0002 0001 1001 21 21");
    check_tie(&word("aaaa"), prices(0, 0), 1, &[(1, one), (2, nested)]);
    let side_by_side = "20 0003 0001 1001 21 20 0002 0002 1001 1002 21";
    check_tie(&word("aaaabab"), prices(1, 0), 5, &[(1, "20 0004 0001 1001 21 1002 1001 1002"), (2, side_by_side)]);
    let [one, nested] = [one, nested].map(|fold| format!("1105 {fold} 12"));
    check_tie(&bytes("1105 1001 1001 1001 1001 12"), prices(0, 0), 2, &[(1, &one), (2, &nested)]);
    // What a repeat holds counts once and not for each pass: two inside each other are as many as two side by side.
    let twice = "20 0002 0002 1001 1002 21";
    let [second, third, fourth] = ["1002 20 0002 0001 1002 21", "20 0002 0001 1002 21 1002", "20 0003 0001 1002 21"]
        .map(|rest| format!("{twice} {rest}"));
    let nested = "1001 1002 1001 20 0002 0002 20 0002 0001 1002 21 21";
    check_tie(&word("ababbbb"), prices(0, 1), 4, &[(2, nested), (2, &second), (2, &third), (2, &fourth)]);
    // What a group holds counts too: a repeat of the groups holds it once, a group beside a repeat makes it stand there twice.
    let group = "1105 20 0002 0001 1001 21 12";
    let thrice = format!("20 0003 0001 {group} 21");
    let [left, right] = [format!("{group} 20 0002 0001 {group} 21"), format!("20 0002 0001 {group} 21 {group}")];
    let run = bytes("1105 1001 1001 12").repeat(3);
    check_tie(&run, prices(0, 2), 4, &[(2, &thrice), (3, &left), (3, &right)]);
    // As many repeats: a plain node first, though that fold is the longer one; then the smaller count; then the smaller width.
    let folds = ["1001 20 0002 0001 1001 21", "20 0002 0001 1001 21 1001", "20 0003 0001 1001 21"];
    check_tie(&word("aaa"), prices(0, 1), 2, &folds.map(|fold| (1, fold)));
    let two = Prices { steps: &[2; 256], ..prices(2, 1) };
    let nested = "20 0002 0002 20 0002 0001 1001 21 21";
    check_tie(&word("aaaa"), two, 6, &[(1, "20 0002 0002 1001 1001 21"), (1, "20 0004 0001 1001 21"), (2, nested)]);
    let aa = "20 0002 0001 1001 21";
    let [narrow, wide] = [format!("{aa} 20 0002 0003 1002 {aa} 21"), format!("20 0002 0003 {aa} 1002 21 {aa}")];
    check_tie(&word("aabaabaa"), prices(0, 0), 3, &[(3, &narrow), (3, &wide)]);
}

/// What is lent is refused before the first command, by the readers of folds and the folders, and by the independent ones.
fn check_head(input: &[u8], limit: usize, lent: Prices, refusal: Refusal) {
    assert_eq!(read_fold(input, limit, lent), Err(refusal), "{lent:?}");
    assert_eq!(read_short(input, limit, lent), Err(refusal), "{lent:?}");
    assert_eq!(folded(input, limit, lent), Err(refusal), "{lent:?}");
    assert_eq!(fold_short(input, limit, lent, &mut [], &mut [], &mut []), Err(refusal), "{lent:?}");
    let expected = [refusal.number() as u64, 0, 0, 0, 0, 0, 0];
    for family in [Family::Long, Family::Short] {
        assert_eq!(reference::read_in(family, input, limit, &owned(lent)).numbers(), expected);
    }
    assert_eq!(reference::solve(input, limit, &owned(lent)).unwrap_err().numbers(), expected);
}

#[test]
fn tables_of_other_sizes() {
    let ones = [1; 300];
    for steps in [0, 255, 256, 257] {
        for groups in [0, 255, 256, 257] {
            // 11 before 15, 15 before 12, and 12 before 18 and the commands.
            let refusal = match (steps, groups) {
                (256, 256) => LimitSize,
                (256, _) => GroupTableSize,
                _ => StepTableSize,
            };
            for marks in [&FREE[..], &FREE[..255], &[2; 256]] {
                let lent = Prices { steps: &ones[..steps], groups: &ones[..groups], marks, first: 1, each: 0 };
                check_head(&[0x13], 1025, lent, refusal);
            }
        }
    }
    // 15 before every command.
    let lent = Prices { groups: &ones[..255], ..prices(1, 0) };
    for command in 0..=u8::MAX {
        check_head(&[command], 1024, lent, GroupTableSize);
    }
}

#[test]
fn marks_of_other_sizes_and_entries() {
    let mark = |at: usize, mark: u8| {
        let mut marks = FREE;
        marks[at] = mark;
        marks
    };
    let wrong = [&[][..], &[0], &FREE[..255], &[0; 257], &mark(0, 2), &mark(255, 2), &mark(7, 3), &mark(7, 255)];
    for marks in wrong {
        let lent = Prices { marks, ..prices(1, 0) };
        check_head(&[], 1024, lent, WrongMarks);
        // 18 after 12, and before every command.
        check_head(&[], 1025, lent, LimitSize);
        for command in 0..=u8::MAX {
            check_head(&[command], 1024, lent, WrongMarks);
        }
    }
    // 0 and 1 at any label are in order.
    for marks in [FREE, [1; 256], mark(0, 1), mark(255, 1)] {
        check(&word("ab"), 1024, Prices { marks: &marks, ..prices(1, 0) }, &word("ab"), 2);
    }
}

/// A fold with these labels marked is refused by the fold reader, and by the independent one.
fn check_marked(fold: &[u8], labels: &[u8], refusal: Refusal) {
    let marks = marking(|label| labels.contains(&label));
    let lent = Prices { marks: &marks, ..prices(1, 0) };
    assert_eq!(read_fold(fold, 1024, lent), Err(refusal));
    let numbers = reference::read_fold(fold, 1024, &owned(lent)).numbers();
    assert_eq!(numbers, [refusal.number() as u64, refusal.place() as u64, 0, 0, 0, 0, 0]);
}

#[test]
fn marked_labels_in_repeats() {
    let refused = |fold: &str, labels: &[u8], place| check_marked(&bytes(fold), labels, MarkedInRepeat { place });
    // A step; a group or the step in it; one deeper; one behind a repeat in another.
    refused("20 0003 0001 1001 21", &[1], 5);
    refused("20 0002 0001 1007 21", &[7], 5);
    refused("20 0002 0001 1105 1001 12 21", &[5], 5);
    refused("20 0002 0001 1105 1001 12 21", &[1], 7);
    refused("20 0002 0001 1105 1001 12 21", &[1, 5], 5);
    refused("20 0002 0001 1105 1106 1001 12 12 21", &[1], 9);
    refused("20 0002 0003 20 0002 0001 1002 21 1001 21", &[1], 13);
    refused("1105 20 0002 0001 1001 21 12", &[1], 7);
    // A later command does not matter, here a false width and a byte that is none.
    refused("20 0002 0002 1001 21", &[1], 5);
    refused("20 0002 0001 1001 13", &[1], 5);
    // Outside repeats it may stand: before, between and behind them, and as a group that holds one.
    check_accepted("1001 20 0002 0001 1002 21 1001", 1, &word("abba"));
    check_accepted("20 0002 0001 1002 21 1001 20 0002 0001 1002 21", 1, &word("bbabb"));
    check_accepted("1105 20 0003 0001 1001 21 12", 5, &bytes("1105 1001 1001 1001 12"));
    // Unroller, index builder and finder know no marks.
    let fold = bytes("20 0003 0001 1001 21");
    let mut out = [0; 6];
    assert_eq!((unroll(&fold, 1024, &mut out), out.to_vec()), (Ok(6), word("aaa")));
    check_found(&fold, &[0], &[0], &[(0x10, 1, 5); 3]);
}

/// The fold reader takes a fold of this run with one label marked, and so does the independent one.
fn check_accepted(fold: &str, label: u8, run: &[u8]) {
    let (fold, marks) = (&bytes(fold), marking(|other| other == label));
    let lent = Prices { marks: &marks, ..prices(1, 0) };
    assert_eq!(read_fold(fold, 1024, lent).map(|read| read.length), Ok(run.len()));
    let read = reference::read_fold(fold, 1024, &owned(lent));
    assert_eq!((read.refusal, read.length), (0, run.len()));
    assert_eq!(reference::run_of(fold), run);
}

#[test]
fn marks_among_the_other_refusals() {
    let all: Vec<u8> = (0..=255).collect();
    // 3 goes first, where there is no label, and what is refused at the 20.
    check_marked(&bytes("20 0002 0001 10"), &all, Unfinished { place: 6 });
    check_marked(&bytes("20 0002 0001 11"), &all, Unfinished { place: 6 });
    check_marked(&bytes("20 0001 0001 1001 21"), &all, SmallCount { place: 0 });
    check_marked(&bytes("20 0002 0401 1001 21"), &all, Wide { place: 0 });
    // 8 goes before 19.
    let repeat = bytes("20 0002 0001");
    let ninth = [repeat.clone(), bytes("1102").repeat(8), bytes("1101")].concat();
    check_marked(&ninth, &[], Deep { place: 21 });
    check_marked(&ninth, &[1], Deep { place: 21 });
    check_marked(&ninth, &[2], MarkedInRepeat { place: 5 });
    // 19 goes before 10.
    for last in ["1001", "1101"] {
        let over = [repeat.clone(), bytes("1002").repeat(1024), bytes(last)].concat();
        check_marked(&over, &[], ManyNodes { place: 2053 });
        check_marked(&over, &[1], MarkedInRepeat { place: 2053 });
    }
}

/// A run and one of its folds have these nodes, steps and depth; the fold has this cost at unit costs.
fn check_shape(run: &[u8], fold: &[u8], [nodes, steps, depth]: [usize; 3], cost: u64) {
    assert_eq!(read_run(run), Ok(RunReading { nodes, steps, depth }));
    let length = run.len();
    assert_eq!(read_fold(fold, 1024, prices(1, 0)), Ok(FoldReading { nodes, length, cost, steps, depth }));
    let read = reference::read_run(run);
    assert_eq!([read.nodes, read.steps, read.depth], [nodes, steps, depth]);
    let mut back = vec![0; length];
    assert_eq!(unroll(fold, 1024, &mut back), Ok(length));
    assert_eq!(back, run);
}

#[test]
fn steps_and_depth() {
    // Two groups 05 holding aaa, plain and folded.
    let group = bytes("1105 1001 1001 1001 12");
    check_shape(&group.repeat(2), &group.repeat(2), [8, 6, 1], 8);
    check_shape(&group.repeat(2), &bytes("20 0002 0001 1105 20 0003 0001 1001 21 12 21"), [8, 6, 1], 4);
    // Flat runs.
    check_shape(&[], &[], [0, 0, 0], 0);
    check_shape(&word("aaa"), &bytes("20 0003 0001 1001 21"), [3, 3, 0], 2);
    // Eight groups inside each other.
    let deep = [bytes("1105").repeat(8), word("a"), bytes("12").repeat(8)].concat();
    check_shape(&deep, &deep, [9, 1, 8], 9);
    // A repeat of a group multiplies its steps and not its depth.
    let inner = bytes("1105 1007 1105 1007 12 12");
    check_shape(&inner.repeat(5), &[bytes("20 0005 0001"), inner, vec![0x21]].concat(), [20, 10, 2], 5);
    // Nothing of what was counted stays after a refusal.
    let refused = bytes("1105 1007 12 13");
    assert_eq!(reference::read_run(&refused).numbers(), [1, 5, 0, 0, 0, 0, 0]);
    let mut answer = [9; 7];
    assert_eq!(runfold::raw::read_run(&refused, &mut answer), 1);
    assert_eq!(answer, [1, 5, 0, 0, 0, 0, 0]);
}

#[test]
fn folds_that_a_habit_misses() {
    let unit = prices(1, 0);
    let half = [bytes("20 0002 0005"), word("abbca"), vec![0x21]].concat();
    check(&word("abbcaabbca"), 1024, unit, &half, 6);
    check(&word("abbcaabbca"), 4, unit, &word("abbcaabbca"), 10);
    let half = [bytes("20 0002 0005"), word("abaab"), vec![0x21]].concat();
    check(&word("abaababaab"), 1024, unit, &half, 6);
    let [first, second] = [("20 0002 0003", "aba"), ("20 0002 0004", "baab")]
        .map(|(open, body)| [bytes(open), word(body), vec![0x21]].concat());
    check(&word("abaababaabbaab"), 1024, unit, &[first, second].concat(), 9);
}

#[test]
fn longest_runs() {
    let unit = prices(1, 0);
    let run = word("a").repeat(1024);
    assert_eq!(read_run(&run), Ok(RunReading { nodes: 1024, steps: 1024, depth: 0 }));
    assert_eq!(folded(&run, 1024, unit), Ok((bytes("20 0400 0001 1001 21"), 2)));
    assert_eq!(folded(&run, 1024, Prices { marks: &[1; 256], ..unit }), Ok((run, 1024)));
    // 20 marked steps with 50 free ones before each, and four behind: 20 times 2 + 1, and 2.
    let run = [[word("a").repeat(50), word("d")].concat().repeat(20), word("aaaa")].concat();
    let fold = [bytes("20 0032 0001 1001 21 1004").repeat(20), bytes("20 0004 0001 1001 21")].concat();
    let far = marking(|label| label == 4);
    assert_eq!(folded(&run, 1024, Prices { marks: &far, ..unit }), Ok((fold, 62)));
    let over = word("a").repeat(1025);
    let refused = ManyNodes { place: 2048 };
    assert_eq!(read_run(&over), Err(refused));
    assert_eq!(folded(&over, 1024, unit), Err(refused));
}

#[test]
fn numbered_refusals() {
    let unit = prices(1, 0);
    for (run, refusal) in [
        (bytes("13"), UnknownCommand { place: 0 }),
        (bytes("1007 21"), RepeatInRun { place: 2 }),
        (bytes("1105"), Unfinished { place: 2 }),
        (bytes("12"), WrongClose { place: 0 }),
        (bytes("1105 12"), EmptyBody { place: 2 }),
        (bytes("1101").repeat(9), Deep { place: 16 }),
    ] {
        assert_eq!(read_run(&run), Err(refusal));
        assert_eq!(reference::read_run(&run).numbers()[..2], [refusal.number() as u64, refusal.place() as u64]);
        assert_eq!(folded(&run, 1024, unit), Err(refusal));
        assert_eq!(part(&run, 0), []);
    }
    for (fold, limit, refusal) in [
        (bytes("20 0001 0001 1007 21"), 1024, SmallCount { place: 0 }),
        (bytes("20 0002 0002 1007 1007 21"), 1, Wide { place: 0 }),
        (bytes("20 0002 0002 1007 21"), 1024, FalseWidth { place: 7 }),
        (bytes("20 0401 0001 1007 21"), 1024, ManyNodes { place: 7 }),
        (bytes("20 0401 0002 1007 21"), 1024, ManyNodes { place: 7 }),
        (bytes("1007"), 1025, LimitSize),
    ] {
        assert_eq!(read_fold(&fold, limit, unit), Err(refusal));
        assert_eq!(unroll(&fold, limit, &mut [0; 64]), Err(refusal));
    }
    let short = Prices { steps: &UNIT[..255], ..unit };
    assert_eq!(read_fold(&[], 1025, short), Err(StepTableSize));
    assert_eq!(folded(&[], 1025, short), Err(StepTableSize));
    let short = Prices { groups: &UNIT[..255], ..unit };
    assert_eq!(read_fold(&[], 1025, short), Err(GroupTableSize));
    assert_eq!(folded(&[], 1025, short), Err(GroupTableSize));
    assert_eq!(folded(&[], 1025, unit), Err(LimitSize));
    let run = word("aa");
    let mut out = [0; 8];
    assert_eq!(fold(&run, 1024, unit, &mut [0; 2], &mut [0; 3], &mut out), Err(WorkSize));
    assert_eq!(fold(&run, 1024, unit, &mut [0; 3], &mut [0; 2], &mut out), Err(WorkSize));
    let one = word("a");
    assert_eq!(fold(&one, 1024, unit, &mut [0; 1], &mut [0; 1], &mut [0; 1]), Err(OutputSize));
    assert_eq!(work_entries(2), 3);
}

#[test]
fn parts() {
    let run = bytes("1001 1102 1003 1104 1005 12 12 1001");
    assert_eq!(part(&run, 0), bytes("1001"));
    assert_eq!(part(&run, 2), bytes("1102 1003 1104 1005 12 12"));
    assert_eq!(part(&run, 6), bytes("1104 1005 12"));
    assert_eq!(part(&run, 1), []);
    assert_eq!(part(&run, 10), []);
    assert_eq!(part(&run, 12), bytes("1001"));
    assert_eq!(part(&run, 14), []);
    assert_eq!(part(&run, usize::MAX), []);
}

/// A fold has this index and these nodes: command, label and offset of each.
fn check_found(fold: &[u8], offsets: &[u32], before: &[u32], nodes: &[(u8, u8, usize)]) {
    let (mut lent_offsets, mut lent_before) = (vec![9; offsets.len() + 1], vec![9; before.len() + 2]);
    assert_eq!(index(fold, &mut lent_offsets, &mut lent_before), Ok(offsets.len()));
    assert_eq!((&lent_offsets[..], &lent_before[..]), (&[offsets, &[9]].concat()[..], &[before, &[9, 9]].concat()[..]));
    let listed = reference::list(fold).unwrap();
    assert_eq!((&listed.offsets[..], &listed.before[..]), (offsets, before));
    assert_eq!(listed.nodes.len(), nodes.len());
    for (position, &(command, label, offset)) in nodes.iter().enumerate() {
        let kind = if command == 0x10 { Kind::Step } else { Kind::Group };
        assert_eq!(find(fold, offsets, before, position as u64), Ok(Found { kind, label, offset }));
        assert_eq!(listed.nodes[position], reference::Node { command, label, offset });
    }
    for past in [nodes.len() as u64, 1 << 32, u64::MAX] {
        assert_eq!(find(fold, offsets, before, past), Err(PastEnd));
        assert_eq!(listed.found(offsets, before, past), [16, 0, 0, 0, 0, 0, 0]);
    }
}

#[test]
fn nodes_by_their_positions() {
    check_found(&[], &[], &[], &[]);
    // The worked run: a step 01, a step 02, and twice a group 05 with three steps 03.
    let (group, step) = ((0x11, 5, 9), (0x10, 3, 16));
    let twice = [group, step, step, step, group, step, step, step];
    let worked = bytes("1001 1002 20 0002 0001 1105 20 0003 0001 1003 21 12 21");
    check_found(&worked, &[0, 2, 4], &[0, 1, 2], &[&[(0x10, 1, 0), (0x10, 2, 2)], &twice[..]].concat());
    // Groups in a group between repeats, with labels that look like commands.
    let fold = bytes("20 0002 0001 1021 21 1112 1110 1011 12 20 0003 0001 1020 21 12 1012");
    let (first, inner) = ((0x10, 0x21, 5), (0x10, 0x20, 20));
    let group = [(0x11, 0x12, 8), (0x11, 0x10, 10), (0x10, 0x11, 12), inner, inner, inner];
    check_found(&fold, &[0, 8, 24], &[0, 2, 8], &[&[first, first], &group[..], &[(0x10, 0x12, 24)]].concat());
    // Ten repeats of count 2 inside each other: 1,024 times the step at offset 50.
    let powers: Vec<u8> = (0..10).rev().flat_map(|k| [0x20, 0, 2, (1u16 << k >> 8) as u8, (1u16 << k) as u8]).collect();
    check_found(&[powers, word("a"), vec![0x21; 10]].concat(), &[0], &[0], &[(0x10, 1, 50); 1024]);
}

/// Index builder and finder refuse a fold, whatever slices and position they are given.
fn check_refused(fold: &[u8], refusal: Refusal) {
    assert_eq!(index(fold, &mut [], &mut [7]), Err(refusal));
    assert_eq!(find(fold, &[7], &[], u64::MAX), Err(refusal));
    let numbers = reference::list(fold).unwrap_err().numbers();
    assert_eq!(numbers, [refusal.number() as u64, refusal.place() as u64, 0, 0, 0, 0, 0]);
}

#[test]
fn refusals_of_index_and_position() {
    check_refused(&bytes("13"), UnknownCommand { place: 0 });
    check_refused(&bytes("1105"), Unfinished { place: 2 });
    check_refused(&bytes("21"), WrongClose { place: 0 });
    check_refused(&bytes("1105 12"), EmptyBody { place: 2 });
    check_refused(&bytes("20 0001 0001 1007 21"), SmallCount { place: 0 });
    check_refused(&bytes("1101").repeat(9), Deep { place: 16 });
    check_refused(&bytes("20 0002 0002 1007 21"), FalseWidth { place: 7 });
    check_refused(&bytes("20 0401 0001 1007 21"), ManyNodes { place: 7 });
    check_refused(&bytes("20 0401 0002 1007 21"), ManyNodes { place: 7 });
    // No width limit stops the reading at the 20.
    let wide = bytes("20 0002 0401 1007 21");
    check_refused(&wide, FalseWidth { place: 7 });
    assert_eq!(read_fold(&wide, 1024, prices(1, 0)), Err(Wide { place: 0 }));

    let fold = bytes("1001 20 0003 0001 1002 21");
    let listed = reference::list(&fold).unwrap();
    for (a, b) in [(0, 2), (1, 2), (2, 1), (1, 9), (9, 1), (0, 0)] {
        let (mut offsets, mut before) = (vec![9; a], vec![9; b]);
        assert_eq!(index(&fold, &mut offsets, &mut before), Err(OutputSize));
        assert_eq!((offsets, before), (vec![9; a], vec![9; b]));
        assert_eq!(listed.indexed(a, b), [14, 0, 0, 0, 0, 0, 0]);
    }
    // The index is [0, 2] and [0, 1]. 17 goes before 16.
    for (offsets, before) in [
        (&[0][..], &[0, 1][..]),
        (&[0, 2], &[0]),
        (&[0, 2, 10], &[0, 1]),
        (&[0, 2], &[0, 1, 4]),
        (&[1, 2], &[0, 1]),
        (&[0, 3], &[0, 1]),
        (&[0, 2], &[1, 1]),
        (&[0, 2], &[0, 0]),
        (&[0, 1], &[0, 2]),
        (&[], &[]),
    ] {
        for position in [0, 3, 4, u64::MAX] {
            assert_eq!(find(&fold, offsets, before, position), Err(FalseIndex));
            assert_eq!(listed.found(offsets, before, position), [17, 0, 0, 0, 0, 0, 0]);
        }
    }
}

/// Folds and their short forms, written by hand.
fn forms() -> Vec<[Vec<u8>; 2]> {
    let around = |open: &str, body: &[u8]| [&bytes(open)[..], body, &[0x21]].concat();
    let pair = |fold: &str, short: &str| [bytes(fold), bytes(short)];
    let both = |open: &str, short: &str, body: &[u8]| [around(open, body), around(short, body)];
    let a = |steps: usize| word("a").repeat(steps);
    vec![
        // Without a repeat it is the fold itself, also where labels look like commands.
        pair("", ""),
        pair("1001 1105 1002 12", "1001 1105 1002 12"),
        pair("1020 1122 1021 12 1022", "1020 1122 1021 12 1022"),
        pair("20 0003 0001 1001 21", "22 03 01 1001 21"),
        pair("20 0022 0001 1022 21", "22 22 01 1022 21"),
        pair("20 0002 0001 1105 20 0003 0001 1001 21 12 21", "22 02 01 1105 22 03 01 1001 21 12 21"),
        // A count and a width of 255, the last that fit in a byte, and of 256.
        both("20 00FF 0001", "22 FF 01", &a(1)),
        both("20 00FF 0004", "22 FF 04", &a(4)),
        both("20 0100 0001", "20 0100 0001", &a(1)),
        both("20 0100 0004", "20 0100 0004", &a(4)),
        both("20 0400 0001", "20 0400 0001", &a(1)),
        both("20 0002 00FF", "22 02 FF", &a(255)),
        both("20 0004 00FF", "22 04 FF", &a(255)),
        both("20 0002 0100", "20 0002 0100", &a(256)),
        both("20 0004 0100", "20 0004 0100", &a(256)),
        both("20 0002 0200", "20 0002 0200", &a(512)),
        // In, round and beside each other: a repeat right round a 20 is at least 256 wide, one round a group of it is not.
        pair("20 0100 0002 20 0002 0001 1001 21 21", "20 0100 0002 22 02 01 1001 21 21"),
        pair("20 0002 0100 20 0080 0002 1001 1002 21 21", "20 0002 0100 22 80 02 1001 1002 21 21"),
        pair("20 0002 0101 20 0100 0001 1001 21 1002 21", "20 0002 0101 20 0100 0001 1001 21 1002 21"),
        pair("20 0002 0001 1105 20 0100 0001 1001 21 12 21", "22 02 01 1105 20 0100 0001 1001 21 12 21"),
        pair(
            "20 0003 0001 1001 21 20 0100 0001 1002 21 20 0002 0002 1001 1002 21",
            "22 03 01 1001 21 20 0100 0001 1002 21 22 02 02 1001 1002 21",
        ),
    ]
}

#[test]
fn short_forms_of_the_independent_implementation() {
    let unit = owned(prices(1, 0));
    for [fold, short] in forms() {
        assert_eq!(reference::convert(Family::Short, &fold), Ok(short.clone()));
        assert_eq!(reference::convert(Family::Long, &short), Ok(fold.clone()));
        let read = reference::read_in(Family::Short, &short, 1024, &unit);
        assert_eq!((read, read.refusal), (reference::read_fold(&fold, 1024, &unit), 0));
        assert_eq!(reference::run_of(&short), reference::run_of(&fold));
    }
}

/// A conversion writes these bytes and leaves what is behind them; where there is no room for the last it writes nothing.
fn check_written(convert: impl Fn(&mut [u8]) -> Result<usize, Refusal>, form: &[u8]) {
    for more in [0, 3] {
        let mut out = vec![9; form.len() + more];
        assert_eq!(convert(&mut out), Ok(form.len()));
        assert_eq!(out, [form, &vec![9; more]].concat());
    }
    if let Some(room) = form.len().checked_sub(1) {
        let mut out = vec![9; room];
        assert_eq!(convert(&mut out), Err(OutputSize));
        assert_eq!(out, vec![9; room]);
    }
}

#[test]
fn short_forms() {
    for [fold, short] in forms() {
        check_written(|out| to_short(&fold, out), &short);
        check_written(|out| to_long(&short, out), &fold);
        // At any prices the two cost the same.
        for unit in [prices(1, 0), prices(5, 2)] {
            let read = read_short(&short, 1024, unit);
            assert!(read.is_ok());
            assert_eq!(read, read_fold(&fold, 1024, unit));
        }
    }
}

/// Short folds with what is read of them at two repeat prices: nodes, bytes, cost, steps and depth.
#[test]
fn short_folds_read() {
    let a_group = "22 02 01 1105 22 03 01 1001 21 12 21";
    for (short, (first, each), [nodes, length, cost, steps, depth]) in [
        ("", (1, 0), [0, 0, 0, 0, 0]),
        ("22 03 01 1001 21", (1, 0), [3, 6, 2, 3, 0]),
        ("22 04 01 1001 21", (5, 2), [4, 8, 10, 4, 0]),
        // 5 and 2 for each of 253 counts more, 1 for the step; of 254 more.
        ("22 FF 01 1001 21", (5, 2), [255, 510, 512, 255, 0]),
        ("20 0100 0001 1001 21", (5, 2), [256, 512, 514, 256, 0]),
        (a_group, (1, 0), [8, 18, 4, 6, 1]),
        // The outer 5, the group 1, the inner 5 + 2, the step 1.
        (a_group, (5, 2), [8, 18, 14, 6, 1]),
    ] {
        let expected = FoldReading { nodes, length, cost: cost as u64, steps, depth };
        assert_eq!(read_short(&bytes(short), 1024, prices(first, each)), Ok(expected));
        let read = reference::read_in(Family::Short, &bytes(short), 1024, &owned(prices(first, each)));
        assert_eq!(read.numbers(), [0, 0, nodes, length, cost, steps, depth].map(|number| number as u64));
    }
}

/// The short folder writes the short form of the cheapest fold, in just that room and at the same cost, and clears its work;
/// in one byte less it clears it and writes nothing.
fn check_folded_short(run: &[u8], prices: Prices, expected: &[u8], cost: u64) {
    let nodes = read_run(run).unwrap().nodes;
    let entries = work_entries(nodes);
    for (room, answer) in
        [(expected.len(), Ok(Folding { length: expected.len(), cost })), (expected.len() - 1, Err(OutputSize))]
    {
        let (mut costs, mut choices, mut out) = (vec![9; entries + 1], vec![9; entries + 2], vec![9; room]);
        assert_eq!(fold_short(run, 1024, prices, &mut costs, &mut choices, &mut out), answer);
        assert_eq!(out, if answer.is_ok() { expected.to_vec() } else { vec![9; room] });
        assert_eq!(costs, [vec![0; entries], vec![9; 1]].concat());
        assert_eq!(choices, [vec![0; entries], vec![9; 2]].concat());
    }
    let (fold, folded_cost) = folded(run, 1024, prices).unwrap();
    assert_eq!((reference::form_in(Family::Short, &fold), folded_cost), (expected.to_vec(), cost));
    // The independent folder is slow.
    if nodes <= 256 {
        let solved = reference::solve(run, 1024, &owned(prices)).unwrap().form_in(Family::Short);
        assert_eq!((solved.bytes, solved.cost), (expected.to_vec(), cost));
    }
}

#[test]
fn short_folder() {
    let unit = prices(1, 0);
    let a = |steps: usize| word("a").repeat(steps);
    check_folded_short(&a(1), unit, &a(1), 1);
    check_folded_short(&a(3), unit, &bytes("22 03 01 1001 21"), 2);
    let group = bytes("1105 1001 1001 1001 12");
    check_folded_short(&group.repeat(2), unit, &bytes("22 02 01 1105 22 03 01 1001 21 12 21"), 4);
    check_folded_short(&a(255), unit, &bytes("22 FF 01 1001 21"), 2);
    check_folded_short(&a(256), unit, &bytes("20 0100 0001 1001 21"), 2);
    check_folded_short(&a(1024), unit, &bytes("20 0400 0001 1001 21"), 2);
    // The outer repeat is 256 wide, the inner one has a count of 255.
    let run = [a(255), word("b")].concat().repeat(2);
    check_folded_short(&run, unit, &bytes("20 0002 0100 22 FF 01 1001 21 1002 21"), 4);
    // What is marked is no more repeated than in the long form.
    let marks = marking(|label| label == 1);
    check_folded_short(&a(3), Prices { marks: &marks, ..unit }, &a(3), 3);
    // 13 goes before 14, and leaves the work as it was.
    for (a, b) in [(5, 6), (6, 5)] {
        let (mut costs, mut choices) = (vec![9; a], vec![9; b]);
        assert_eq!(fold_short(&word("aaa"), 1024, unit, &mut costs, &mut choices, &mut []), Err(WorkSize));
        assert_eq!((costs, choices), (vec![9; a], vec![9; b]));
    }
}

/// Of folds that cost the same and have as many repeats the one that comes first in the long form is chosen, and neither the
/// shortest nor the one whose short form comes first.
#[test]
fn shortness_does_not_decide() {
    // 22 03 01 1001 21 is shorter.
    check_folded_short(&word("aaa"), prices(0, 1), &bytes("1001 22 02 01 1001 21"), 2);
    // Twice aa and 254 times b, then aa: aa stands before a repeat of what follows it, or behind one of what it follows, which
    // is 256 wide. So the former begins with 20 0002 0001 and the latter with 20 0002 0100, in short 22 02 01 and the same.
    let aa = "22 02 01 1001 21";
    let run = [word("aa"), word("b").repeat(254)].concat().repeat(2);
    let fold = format!("{aa} 20 0002 0100 22 FE 01 1002 21 {aa} 21");
    check_folded_short(&[run, word("aa")].concat(), prices(0, 0), &bytes(&fold), 3);
}

/// Short folds that are refused, by hand: those that both short reader and conversion refuse, whatever the limit.
fn refused_short_folds() -> Vec<(Vec<u8>, Refusal)> {
    let ten = |last: &str| [bytes("22 02 01").repeat(10), bytes(last)].concat();
    let five = |open: &str| [bytes(open), bytes("1007").repeat(5), vec![0x21]].concat();
    vec![
        (bytes("13"), UnknownCommand { place: 0 }),
        (bytes("22 02 01 1007 21 23"), UnknownCommand { place: 6 }),
        // Operands missing, or a repeat that nothing closes.
        (bytes("22"), Unfinished { place: 1 }),
        (bytes("22 03"), Unfinished { place: 2 }),
        (bytes("1007 22 03"), Unfinished { place: 4 }),
        (bytes("22 03 01"), Unfinished { place: 3 }),
        (bytes("22 03 01 1007"), Unfinished { place: 5 }),
        (bytes("20 0002 00"), Unfinished { place: 4 }),
        (bytes("22 02 01 12"), WrongClose { place: 3 }),
        (bytes("22 02 01 21"), EmptyBody { place: 3 }),
        (bytes("22 01 01 1007 21"), SmallCount { place: 0 }),
        (bytes("1007 22 00 01 1007 21"), SmallCount { place: 2 }),
        // A 20 where a 22 would do, by itself and inside; a 256 in either operand needs it.
        (bytes("20 0002 0001 1007 21"), LongInShort { place: 0 }),
        (bytes("1007 20 00FF 0001 1007 21"), LongInShort { place: 2 }),
        (bytes("20 0002 00FF 1007 21"), LongInShort { place: 0 }),
        (bytes("22 02 03 1007 20 0002 0001 1007 21 21"), LongInShort { place: 5 }),
        (bytes("20 0100 0000 1007 21"), FalseWidth { place: 7 }),
        (bytes("20 0002 0100 1007 21"), FalseWidth { place: 7 }),
        // 3 and 6 go before 20, and 20 before 8 and what comes later.
        (bytes("20 0001 0001 1007 21"), SmallCount { place: 0 }),
        (bytes("20 0000 0000 21"), SmallCount { place: 0 }),
        (ten("20 0001 0001 1007"), SmallCount { place: 30 }),
        (ten("20 0002 0001 1007"), LongInShort { place: 30 }),
        (ten("22 02 01 1007"), Deep { place: 30 }),
        (ten("20 0100 0001 1007"), Deep { place: 30 }),
        (bytes("20 0002 0001 13"), LongInShort { place: 0 }),
        // At the close: 10, and after it 9.
        (five("22 FF 05"), ManyNodes { place: 13 }),
        (five("22 FF 04"), ManyNodes { place: 13 }),
        (five("22 CC 04"), FalseWidth { place: 13 }),
        (bytes("22 02 02 1007 21"), FalseWidth { place: 5 }),
        (bytes("22 02 00 1007 21"), FalseWidth { place: 5 }),
    ]
}

/// Those that the limit refuses, with the refusal where there is none.
fn too_wide_short_folds() -> Vec<(Vec<u8>, usize, Option<Refusal>)> {
    let wide = [bytes("22 02 FF"), word("a").repeat(255), vec![0x21]].concat();
    vec![
        (bytes("22 02 02 1007 1007 21"), 1, None),
        (bytes("22 02 01 1007 21"), 0, None),
        (wide, 254, None),
        // 7 goes before 20.
        (bytes("20 0002 0002 1007 1007 21"), 1, Some(LongInShort { place: 0 })),
        (bytes("20 0002 0401 1007 21"), 1024, Some(FalseWidth { place: 7 })),
    ]
}

/// The answer of a refusal.
fn numbers(refusal: Refusal) -> [u64; 7] {
    [refusal.number() as u64, refusal.place() as u64, 0, 0, 0, 0, 0]
}

#[test]
fn refusals_of_the_independent_short_reader() {
    let unit = owned(prices(1, 0));
    let read = |short: &[u8], limit| reference::read_in(Family::Short, short, limit, &unit).numbers();
    let convert = |short: &[u8]| reference::convert(Family::Long, short).map_err(|refused| refused.numbers());
    for (short, refusal) in refused_short_folds() {
        assert_eq!(read(&short, 1024), numbers(refusal), "{short:02X?}");
        assert_eq!(convert(&short), Err(numbers(refusal)), "{short:02X?}");
    }
    for (short, limit, without) in too_wide_short_folds() {
        assert_eq!(read(&short, limit), numbers(Wide { place: 0 }), "{short:02X?}");
        assert_eq!(convert(&short).err(), without.map(numbers), "{short:02X?}");
    }
}

#[test]
fn refusals_of_short_reader_and_conversion() {
    let unit = prices(1, 0);
    for (short, refusal) in refused_short_folds() {
        assert_eq!(read_short(&short, 1024, unit), Err(refusal), "{short:02X?}");
        assert_eq!(to_long(&short, &mut []), Err(refusal), "{short:02X?}");
    }
    for (short, limit, without) in too_wide_short_folds() {
        assert_eq!(read_short(&short, limit, unit), Err(Wide { place: 0 }), "{short:02X?}");
        assert_eq!(to_long(&short, &mut [0; 4096]).err(), without, "{short:02X?}");
    }
    // A marked label in a repeat that a 22 opens. The conversion knows no marks.
    let (marks, short) = (marking(|label| label == 7), bytes("22 02 01 1105 1007 12 21"));
    assert_eq!(read_short(&short, 1024, Prices { marks: &marks, ..unit }), Err(MarkedInRepeat { place: 5 }));
    check_written(|out| to_long(&short, out), &bytes("20 0002 0001 1105 1007 12 21"));
}

/// What is no short fold knows no 22, whole or cut off: in a run and in a fold it is an unknown command.
#[test]
fn unknown_outside_the_short_family() {
    let unit = prices(1, 0);
    for (input, place) in [("22", 0), ("22 03", 0), ("22 03 01 1001 21", 0), ("1001 22 03 01 1001 21", 2)] {
        let (input, refusal) = (bytes(input), UnknownCommand { place });
        assert_eq!(read_run(&input), Err(refusal));
        assert_eq!(reference::read_run(&input).numbers(), numbers(refusal));
        assert_eq!(part(&input, 0), []);
        assert_eq!(folded(&input, 1024, unit), Err(refusal));
        assert_eq!(fold_short(&input, 1024, unit, &mut [], &mut [], &mut []), Err(refusal));
        check_unknown(&input, refusal);
    }
    check_unknown(&bytes("20 0002 0001 22 03 01 1001 21 21"), UnknownCommand { place: 5 });
}

/// The functions for folds refuse it.
fn check_unknown(fold: &[u8], refusal: Refusal) {
    assert_eq!(read_fold(fold, 1024, prices(1, 0)), Err(refusal));
    assert_eq!(reference::read_fold(fold, 1024, &owned(prices(1, 0))).numbers(), numbers(refusal));
    assert_eq!(unroll(fold, 1024, &mut []), Err(refusal));
    assert_eq!(to_short(fold, &mut []), Err(refusal));
    assert_eq!(reference::convert(Family::Short, fold), Err(reference::read_fold(fold, 1024, &owned(prices(1, 0)))));
    check_refused(fold, refusal);
}

/// The conversion of a fold refuses what index builder and finder refuse.
#[test]
fn refusals_of_the_conversion_to_the_short_form() {
    let ten = |last: &str| [bytes("20 0002 0001").repeat(10), bytes(last)].concat();
    for (fold, refusal) in [
        (bytes("13"), UnknownCommand { place: 0 }),
        (bytes("20 0002 00"), Unfinished { place: 4 }),
        (bytes("1105"), Unfinished { place: 2 }),
        (bytes("21"), WrongClose { place: 0 }),
        (bytes("1105 12"), EmptyBody { place: 2 }),
        (bytes("20 0001 0001 1007 21"), SmallCount { place: 0 }),
        (ten("20 0002 0001"), Deep { place: 50 }),
        (bytes("20 0401 0002 1007 21"), ManyNodes { place: 7 }),
        (bytes("20 0002 0002 1007 21"), FalseWidth { place: 7 }),
        (bytes("20 0002 0401 1007 21"), FalseWidth { place: 7 }),
    ] {
        assert_eq!(to_short(&fold, &mut []), Err(refusal));
        assert_eq!(
            reference::convert(Family::Short, &fold).map_err(|refused| refused.numbers()),
            Err(numbers(refusal))
        );
        check_refused(&fold, refusal);
    }
}
