//! The functions of the static library. Nothing checks these declarations against the proved source (`crates/embed`), so they
//! stand in one place; `include/runfold.h` says the same in C, and a test compares the two.

// A slice passes as a pointer and its length.
extern "C" {
    pub fn runfold_read_run(run: *const u8, run_len: usize, answer: *mut u64, answer_len: usize) -> u8;
    pub fn runfold_part(run: *const u8, run_len: usize, at: usize) -> usize;
    pub fn runfold_read_fold(
        fold: *const u8,
        fold_len: usize,
        limit: usize,
        steps: *const u16,
        steps_len: usize,
        groups: *const u16,
        groups_len: usize,
        marks: *const u8,
        marks_len: usize,
        first: u16,
        each: u16,
        answer: *mut u64,
        answer_len: usize,
    ) -> u8;
    pub fn runfold_unroll(
        fold: *const u8,
        fold_len: usize,
        limit: usize,
        out: *mut u8,
        out_len: usize,
        answer: *mut u64,
        answer_len: usize,
    ) -> u8;
    pub fn runfold_fold(
        run: *const u8,
        run_len: usize,
        limit: usize,
        steps: *const u16,
        steps_len: usize,
        groups: *const u16,
        groups_len: usize,
        marks: *const u8,
        marks_len: usize,
        first: u16,
        each: u16,
        costs: *mut u32,
        costs_len: usize,
        choices: *mut u32,
        choices_len: usize,
        out: *mut u8,
        out_len: usize,
        answer: *mut u64,
        answer_len: usize,
    ) -> u8;
    pub fn runfold_index(
        fold: *const u8,
        fold_len: usize,
        offsets: *mut u32,
        offsets_len: usize,
        before: *mut u32,
        before_len: usize,
        answer: *mut u64,
        answer_len: usize,
    ) -> u8;
    pub fn runfold_find(
        fold: *const u8,
        fold_len: usize,
        offsets: *const u32,
        offsets_len: usize,
        before: *const u32,
        before_len: usize,
        position: u64,
        answer: *mut u64,
        answer_len: usize,
    ) -> u8;
    pub fn runfold_read_short(
        fold: *const u8,
        fold_len: usize,
        limit: usize,
        steps: *const u16,
        steps_len: usize,
        groups: *const u16,
        groups_len: usize,
        marks: *const u8,
        marks_len: usize,
        first: u16,
        each: u16,
        answer: *mut u64,
        answer_len: usize,
    ) -> u8;
    pub fn runfold_fold_short(
        run: *const u8,
        run_len: usize,
        limit: usize,
        steps: *const u16,
        steps_len: usize,
        groups: *const u16,
        groups_len: usize,
        marks: *const u8,
        marks_len: usize,
        first: u16,
        each: u16,
        costs: *mut u32,
        costs_len: usize,
        choices: *mut u32,
        choices_len: usize,
        out: *mut u8,
        out_len: usize,
        answer: *mut u64,
        answer_len: usize,
    ) -> u8;
    pub fn runfold_to_short(
        fold: *const u8,
        fold_len: usize,
        out: *mut u8,
        out_len: usize,
        answer: *mut u64,
        answer_len: usize,
    ) -> u8;
    pub fn runfold_to_long(
        fold: *const u8,
        fold_len: usize,
        out: *mut u8,
        out_len: usize,
        answer: *mut u64,
        answer_len: usize,
    ) -> u8;
    pub fn runfold_read_season_run(run: *const u8, run_len: usize, answer: *mut u64, answer_len: usize) -> u8;
    pub fn runfold_read_season(
        fold: *const u8,
        fold_len: usize,
        limit: usize,
        steps: *const u16,
        steps_len: usize,
        groups: *const u16,
        groups_len: usize,
        marks: *const u8,
        marks_len: usize,
        first: u16,
        each: u16,
        answer: *mut u64,
        answer_len: usize,
    ) -> u8;
    pub fn runfold_unroll_season(
        fold: *const u8,
        fold_len: usize,
        limit: usize,
        out: *mut u8,
        out_len: usize,
        answer: *mut u64,
        answer_len: usize,
    ) -> u8;
    pub fn runfold_fold_season(
        run: *const u8,
        run_len: usize,
        limit: usize,
        steps: *const u16,
        steps_len: usize,
        groups: *const u16,
        groups_len: usize,
        marks: *const u8,
        marks_len: usize,
        first: u16,
        each: u16,
        work: *mut u32,
        work_len: usize,
        out: *mut u8,
        out_len: usize,
        answer: *mut u64,
        answer_len: usize,
    ) -> u8;
}

/// What `runfold_read_fold`, `runfold_read_short` and `runfold_read_season` are.
pub type ReadFold = unsafe extern "C" fn(
    fold: *const u8,
    fold_len: usize,
    limit: usize,
    steps: *const u16,
    steps_len: usize,
    groups: *const u16,
    groups_len: usize,
    marks: *const u8,
    marks_len: usize,
    first: u16,
    each: u16,
    answer: *mut u64,
    answer_len: usize,
) -> u8;

/// What `runfold_unroll` and `runfold_unroll_season` are.
pub type Unroll = unsafe extern "C" fn(
    fold: *const u8,
    fold_len: usize,
    limit: usize,
    out: *mut u8,
    out_len: usize,
    answer: *mut u64,
    answer_len: usize,
) -> u8;

/// What `runfold_fold` and `runfold_fold_short` are.
pub type Fold = unsafe extern "C" fn(
    run: *const u8,
    run_len: usize,
    limit: usize,
    steps: *const u16,
    steps_len: usize,
    groups: *const u16,
    groups_len: usize,
    marks: *const u8,
    marks_len: usize,
    first: u16,
    each: u16,
    costs: *mut u32,
    costs_len: usize,
    choices: *mut u32,
    choices_len: usize,
    out: *mut u8,
    out_len: usize,
    answer: *mut u64,
    answer_len: usize,
) -> u8;

/// What `runfold_to_short` and `runfold_to_long` are.
pub type Convert = unsafe extern "C" fn(
    fold: *const u8,
    fold_len: usize,
    out: *mut u8,
    out_len: usize,
    answer: *mut u64,
    answer_len: usize,
) -> u8;
