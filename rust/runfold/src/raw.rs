//! The library's functions as they are, over slices: each leaves seven numbers in `answer` and returns the refusal number, 0
//! for success. They are for callers who want these numbers themselves; the functions of the crate's root say the same in types.
//!
//! `answer` has at least [`ENTRIES`] entries. The first seven are then written, and the others stay as they are. The first two
//! are always [`REFUSAL`] and [`PLACE`]. What the other five are depends on the function, so an entry can have several names;
//! they are 0 where the function has no such value, and after a refusal. Where `answer` has fewer entries the function returns
//! [`SHORT`], and nothing is written anywhere.

use crate::declared;

/// The entries of an answer.
pub const ENTRIES: usize = 7;
/// Where the refusal number stands in an answer, 0 for success.
pub const REFUSAL: usize = 0;
/// Where the place of a refusal stands: an offset in the input, 0 for refusals 11 to 18 and on success.
pub const PLACE: usize = 1;
/// Where the nodes of the run stand (the readers).
pub const NODES: usize = 2;
/// Where a length stands: of the run that a fold unrolls to (the readers of folds), or of what was written (unrollers, folders,
/// conversions).
pub const LENGTH: usize = 3;
/// Where the cost of a fold stands (the readers of folds, folders).
pub const COST: usize = 4;
/// Where the number of the run's nodes that are steps stands (the readers).
pub const STEPS: usize = 5;
/// Where the most groups of the run that are open together stand, 0 for a run without groups (the readers).
pub const DEPTH: usize = 6;
/// Where the number of an index's entries stands (index builder).
pub const INDEXED: usize = 2;
/// Where the label of a node stands (finder).
pub const LABEL: usize = 2;
/// Where the command of a node stands, 0x10 for a step or 0x11 for a group (finder).
pub const COMMAND: usize = 3;
/// Where the offset of that command in the fold stands (finder).
pub const OFFSET: usize = 4;

/// What a function returns where `answer` has fewer than [`ENTRIES`] entries. No refusal has this number.
pub const SHORT: u8 = 255;

// SAFETY, of every call below: it is one of the library's functions, each pointer and length is that of a slice, and a slice
// that is written is borrowed mutably, so it overlaps no other. The library asks for nothing else.

/// The run reader: as [`read_run`](crate::read_run), with [`NODES`], [`STEPS`] and [`DEPTH`] in the answer.
pub fn read_run(run: &[u8], answer: &mut [u64]) -> u8 {
    // SAFETY: see above.
    unsafe { declared::runfold_read_run(run.as_ptr(), run.len(), answer.as_mut_ptr(), answer.len()) }
}

/// The length of the part of a node: as [`part`](crate::part), which gives its bytes. 0 where the run is refused or no node
/// starts at `at`.
pub fn part(run: &[u8], at: usize) -> usize {
    // SAFETY: see above.
    unsafe { declared::runfold_part(run.as_ptr(), run.len(), at) }
}

/// The fold reader: as [`read_fold`](crate::read_fold), with [`NODES`], [`LENGTH`], [`COST`], [`STEPS`] and [`DEPTH`] in the
/// answer. `steps` and `groups` have the costs of the labels and `marks` their marks, as [`Prices`](crate::Prices) says.
#[allow(clippy::too_many_arguments)] // The C function has them.
pub fn read_fold(
    fold: &[u8],
    limit: usize,
    steps: &[u16],
    groups: &[u16],
    marks: &[u8],
    first: u16,
    each: u16,
    answer: &mut [u64],
) -> u8 {
    read_by(declared::runfold_read_fold, fold, limit, steps, groups, marks, first, each, answer)
}

/// The short reader: as [`read_short`](crate::read_short), with the arguments and the answer of [`read_fold`].
#[allow(clippy::too_many_arguments)] // The C function has them.
pub fn read_short(
    fold: &[u8],
    limit: usize,
    steps: &[u16],
    groups: &[u16],
    marks: &[u8],
    first: u16,
    each: u16,
    answer: &mut [u64],
) -> u8 {
    read_by(declared::runfold_read_short, fold, limit, steps, groups, marks, first, each, answer)
}

/// Fold reader, short reader and season reader, by the library's function.
#[allow(clippy::too_many_arguments)] // The C functions have them.
fn read_by(
    read: declared::ReadFold,
    fold: &[u8],
    limit: usize,
    steps: &[u16],
    groups: &[u16],
    marks: &[u8],
    first: u16,
    each: u16,
    answer: &mut [u64],
) -> u8 {
    // SAFETY: see above.
    unsafe {
        read(
            fold.as_ptr(),
            fold.len(),
            limit,
            steps.as_ptr(),
            steps.len(),
            groups.as_ptr(),
            groups.len(),
            marks.as_ptr(),
            marks.len(),
            first,
            each,
            answer.as_mut_ptr(),
            answer.len(),
        )
    }
}

/// The unroller: as [`unroll`](crate::unroll), with [`LENGTH`] in the answer.
pub fn unroll(fold: &[u8], limit: usize, out: &mut [u8], answer: &mut [u64]) -> u8 {
    unroll_by(declared::runfold_unroll, fold, limit, out, answer)
}

/// Unroller and season unroller, by the library's function.
fn unroll_by(unroll: declared::Unroll, fold: &[u8], limit: usize, out: &mut [u8], answer: &mut [u64]) -> u8 {
    // SAFETY: see above.
    unsafe { unroll(fold.as_ptr(), fold.len(), limit, out.as_mut_ptr(), out.len(), answer.as_mut_ptr(), answer.len()) }
}

/// The folder: as [`fold`](crate::fold), with [`LENGTH`] and [`COST`] in the answer. `steps` and `groups` have the costs of
/// the labels and `marks` their marks, as [`Prices`](crate::Prices) says.
#[allow(clippy::too_many_arguments)] // The C function has them.
pub fn fold(
    run: &[u8],
    limit: usize,
    steps: &[u16],
    groups: &[u16],
    marks: &[u8],
    first: u16,
    each: u16,
    costs: &mut [u32],
    choices: &mut [u32],
    out: &mut [u8],
    answer: &mut [u64],
) -> u8 {
    let by = declared::runfold_fold;
    fold_by(by, run, limit, steps, groups, marks, first, each, costs, choices, out, answer)
}

/// The short folder: as [`fold_short`](crate::fold_short), with the arguments and the answer of [`fold`].
#[allow(clippy::too_many_arguments)] // The C function has them.
pub fn fold_short(
    run: &[u8],
    limit: usize,
    steps: &[u16],
    groups: &[u16],
    marks: &[u8],
    first: u16,
    each: u16,
    costs: &mut [u32],
    choices: &mut [u32],
    out: &mut [u8],
    answer: &mut [u64],
) -> u8 {
    let by = declared::runfold_fold_short;
    fold_by(by, run, limit, steps, groups, marks, first, each, costs, choices, out, answer)
}

/// Folder and short folder, by the library's function.
#[allow(clippy::too_many_arguments)] // The C functions have them.
fn fold_by(
    fold: declared::Fold,
    run: &[u8],
    limit: usize,
    steps: &[u16],
    groups: &[u16],
    marks: &[u8],
    first: u16,
    each: u16,
    costs: &mut [u32],
    choices: &mut [u32],
    out: &mut [u8],
    answer: &mut [u64],
) -> u8 {
    // SAFETY: see above.
    unsafe {
        fold(
            run.as_ptr(),
            run.len(),
            limit,
            steps.as_ptr(),
            steps.len(),
            groups.as_ptr(),
            groups.len(),
            marks.as_ptr(),
            marks.len(),
            first,
            each,
            costs.as_mut_ptr(),
            costs.len(),
            choices.as_mut_ptr(),
            choices.len(),
            out.as_mut_ptr(),
            out.len(),
            answer.as_mut_ptr(),
            answer.len(),
        )
    }
}

/// The index builder: as [`index`](crate::index), with [`INDEXED`] in the answer.
pub fn index(fold: &[u8], offsets: &mut [u32], before: &mut [u32], answer: &mut [u64]) -> u8 {
    // SAFETY: see above.
    unsafe {
        declared::runfold_index(
            fold.as_ptr(),
            fold.len(),
            offsets.as_mut_ptr(),
            offsets.len(),
            before.as_mut_ptr(),
            before.len(),
            answer.as_mut_ptr(),
            answer.len(),
        )
    }
}

/// The finder: as [`find`](crate::find), with [`LABEL`], [`COMMAND`] and [`OFFSET`] in the answer.
pub fn find(fold: &[u8], offsets: &[u32], before: &[u32], position: u64, answer: &mut [u64]) -> u8 {
    // SAFETY: see above.
    unsafe {
        declared::runfold_find(
            fold.as_ptr(),
            fold.len(),
            offsets.as_ptr(),
            offsets.len(),
            before.as_ptr(),
            before.len(),
            position,
            answer.as_mut_ptr(),
            answer.len(),
        )
    }
}

/// The conversion of a fold to its short form: as [`to_short`](crate::to_short), with [`LENGTH`] in the answer.
pub fn to_short(fold: &[u8], out: &mut [u8], answer: &mut [u64]) -> u8 {
    convert_by(declared::runfold_to_short, fold, out, answer)
}

/// The conversion of a short fold to the fold: as [`to_long`](crate::to_long), with [`LENGTH`] in the answer.
pub fn to_long(fold: &[u8], out: &mut [u8], answer: &mut [u64]) -> u8 {
    convert_by(declared::runfold_to_long, fold, out, answer)
}

/// Either conversion, by the library's function.
fn convert_by(convert: declared::Convert, fold: &[u8], out: &mut [u8], answer: &mut [u64]) -> u8 {
    // SAFETY: see above.
    unsafe { convert(fold.as_ptr(), fold.len(), out.as_mut_ptr(), out.len(), answer.as_mut_ptr(), answer.len()) }
}

/// The season run reader: as [`read_season_run`](crate::read_season_run), with the answer of [`read_run`].
pub fn read_season_run(run: &[u8], answer: &mut [u64]) -> u8 {
    // SAFETY: see above.
    unsafe { declared::runfold_read_season_run(run.as_ptr(), run.len(), answer.as_mut_ptr(), answer.len()) }
}

/// The season reader: as [`read_season`](crate::read_season), with the arguments and the answer of [`read_fold`].
#[allow(clippy::too_many_arguments)] // The C function has them.
pub fn read_season(
    fold: &[u8],
    limit: usize,
    steps: &[u16],
    groups: &[u16],
    marks: &[u8],
    first: u16,
    each: u16,
    answer: &mut [u64],
) -> u8 {
    read_by(declared::runfold_read_season, fold, limit, steps, groups, marks, first, each, answer)
}

/// The season unroller: as [`unroll_season`](crate::unroll_season), with [`LENGTH`] in the answer.
pub fn unroll_season(fold: &[u8], limit: usize, out: &mut [u8], answer: &mut [u64]) -> u8 {
    unroll_by(declared::runfold_unroll_season, fold, limit, out, answer)
}

/// The season folder: as [`fold_season`](crate::fold_season), with the answer of [`fold`] and one slice of work.
#[allow(clippy::too_many_arguments)] // The C function has them.
pub fn fold_season(
    run: &[u8],
    limit: usize,
    steps: &[u16],
    groups: &[u16],
    marks: &[u8],
    first: u16,
    each: u16,
    work: &mut [u32],
    out: &mut [u8],
    answer: &mut [u64],
) -> u8 {
    // SAFETY: see above.
    unsafe {
        declared::runfold_fold_season(
            run.as_ptr(),
            run.len(),
            limit,
            steps.as_ptr(),
            steps.len(),
            groups.as_ptr(),
            groups.len(),
            marks.as_ptr(),
            marks.len(),
            first,
            each,
            work.as_mut_ptr(),
            work.len(),
            out.as_mut_ptr(),
            out.len(),
            answer.as_mut_ptr(),
            answer.len(),
        )
    }
}
