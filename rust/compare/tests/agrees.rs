//! The wrapper has the functions, refusals and limits of the C header, under the same names, and says a refusal's condition in
//! the words of docs/REFUSALS.md.

use runfold::{fold_room, raw, season_work_entries, work_entries, Refusal};

const HEADER: &str = include_str!("../../../include/runfold.h");
const DECLARED: &str = include_str!("../../runfold/src/declared.rs");
const REFUSALS: &str = include_str!("../../../docs/REFUSALS.md");

/// What the header gives a name, in an enum or by `#define`, where it is a number.
fn in_header(name: &str) -> Option<u64> {
    HEADER.lines().find_map(|line| {
        let mut words = line.split([' ', '=', ',']).filter(|word| !word.is_empty() && *word != "#define");
        (words.next() == Some(name)).then(|| words.next()?.parse().ok())?
    })
}

/// The header's name of a variant: `UnknownCommand` is `RUNFOLD_UNKNOWN_COMMAND`.
fn header_name(refusal: Refusal) -> String {
    let shown = format!("{refusal:?}");
    let variant = shown.split(' ').next().expect("a name");
    variant.chars().fold("RUNFOLD".to_string(), |mut name, c| {
        if c.is_uppercase() {
            name.push('_');
        }
        name.push(c.to_ascii_uppercase());
        name
    })
}

/// The refusals that there are.
fn refusals() -> impl Iterator<Item = Refusal> {
    (0..=u8::MAX).filter_map(|number| Refusal::numbered(number, 7))
}

#[test]
fn refusals_are_named_as_in_the_header() {
    for refusal in refusals() {
        assert_eq!(in_header(&header_name(refusal)), Some(refusal.number() as u64), "{}", header_name(refusal));
    }
    assert_eq!(in_header("RUNFOLD_SHORT"), Some(raw::SHORT as u64));
}

/// A parameter of C as Rust declares it: `const uint8_t *run` is `run: *const u8`.
fn as_declared(parameter: &str) -> String {
    let parameter = parameter.trim();
    let (kind, name) = parameter.split_at(parameter.rfind([' ', '*']).expect("a name") + 1);
    let kind = kind.trim_end().replace("size_t", "usize").replace("uint", "u").replace("_t", "");
    match (kind.strip_suffix(" *"), kind.strip_prefix("const ")) {
        (Some(_), Some(to)) => format!("{name}: *const {}", to.trim_end_matches(" *")),
        (Some(to), None) => format!("{name}: *mut {to}"),
        _ => format!("{name}: {kind}"),
    }
}

#[test]
fn functions_are_declared_as_in_the_header() {
    let mut declared = 0;
    for declaration in DECLARED.split("pub fn ").skip(1) {
        let (name, behind) = declaration.split_once('(').expect("a function");
        let (_, prototype) = HEADER.split_once(&format!("_t {name}(")).expect("a function of the header");
        let [ours, theirs] = [behind, prototype].map(|text| text.split_once(')').expect("an end").0.trim_end());
        // Where each has a line of its own there is a comma behind the last.
        let ours: Vec<&str> = ours.trim_end_matches(',').split(',').map(str::trim).collect();
        let theirs: Vec<String> = theirs.split(',').map(as_declared).collect();
        assert_eq!(ours, theirs, "{name}");
        declared += 1;
    }
    assert_eq!(declared, HEADER.matches("_t runfold_").count());
}

#[test]
fn limits_and_entries_are_as_in_the_header() {
    for (name, value) in [
        ("RUNFOLD_MAX_NODES", runfold::MAX_NODES),
        ("RUNFOLD_MAX_GROUPS", runfold::MAX_GROUPS),
        ("RUNFOLD_MAX_REPEATS", runfold::MAX_REPEATS),
        ("RUNFOLD_MAX_WIDTH", runfold::MAX_WIDTH),
        ("RUNFOLD_MAX_RUN", runfold::RUN_ROOM),
        ("RUNFOLD_SEASON_NODES", runfold::SEASON_NODES),
        ("RUNFOLD_SEASON_WIDTH", runfold::SEASON_WIDTH),
        ("RUNFOLD_SEASON_RUN", runfold::SEASON_RUN_ROOM),
        ("RUNFOLD_STACK", runfold::STACK),
        ("RUNFOLD_ENTRIES", raw::ENTRIES),
        ("RUNFOLD_REFUSAL", raw::REFUSAL),
        ("RUNFOLD_PLACE", raw::PLACE),
        ("RUNFOLD_NODES", raw::NODES),
        ("RUNFOLD_LENGTH", raw::LENGTH),
        ("RUNFOLD_COST", raw::COST),
        ("RUNFOLD_STEPS", raw::STEPS),
        ("RUNFOLD_DEPTH", raw::DEPTH),
        ("RUNFOLD_INDEXED", raw::INDEXED),
        ("RUNFOLD_LABEL", raw::LABEL),
        ("RUNFOLD_COMMAND", raw::COMMAND),
        ("RUNFOLD_OFFSET", raw::OFFSET),
    ] {
        assert_eq!(in_header(name), Some(value as u64), "{name}");
    }
    assert_eq!((work_entries(1024), fold_room(1024)), (524_800, 4096));
    assert_eq!([0, 1, 65_535].map(season_work_entries), [256, 512, 16_777_216]);
    // Far beyond the longest run they stay at the highest number.
    assert_eq!((work_entries(usize::MAX), fold_room(usize::MAX)), (usize::MAX / 2, usize::MAX));
    assert_eq!(season_work_entries(usize::MAX), usize::MAX);
}

#[test]
fn refusals_are_worded_as_in_the_table() {
    let mut listed = 0;
    for line in REFUSALS.lines() {
        let cells: Vec<&str> = line.split('|').map(str::trim).collect();
        let Some(number) = cells.get(1).and_then(|cell| cell.parse().ok()) else { continue };
        let refusal = Refusal::numbered(number, 7).expect("a refusal of the table");
        // Only a command has a place.
        let place = if cells[3] == "0" { 0 } else { 7 };
        assert_eq!(refusal.to_string(), format!("refused {number} at {place}: {}", cells[2].replace('`', "")));
        listed += 1;
    }
    assert_eq!(listed, refusals().count());
}
