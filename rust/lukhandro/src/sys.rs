//! The calls as the archive exports them. A slice is a pointer and a length.

use crate::lent::{Session, Totals};
use crate::{BoardRefused, Refused};

/// What build, trial, keep, taking back and write give.
#[repr(C)]
#[derive(Clone, Copy, Debug, PartialEq, Eq)]
pub struct Outcome {
    /// 0 if accepted.
    pub number: u32,
    /// The smallest offending index.
    pub place: u32,
    /// 0 if refused, and of write.
    pub evaluations: u32,
}

/// What read gives.
#[repr(C)]
#[derive(Clone, Copy, Debug, PartialEq, Eq)]
pub struct ReadOutcome {
    /// 0 if accepted.
    pub number: u32,
    /// The smallest offending index.
    pub place: u32,
    /// Variables, 0 if refused.
    pub n: u32,
    /// Rows, 0 if refused.
    pub m: u32,
    /// Entries, 0 if refused.
    pub e: u32,
}

/// What salvage gives.
#[repr(C)]
#[derive(Clone, Copy, Debug, PartialEq, Eq)]
pub struct SalvageOutcome {
    /// 0 if accepted.
    pub number: u32,
    /// The smallest offending index.
    pub place: u32,
    /// Bytes of the saved file, 0 if refused.
    pub length: usize,
    /// Rows of the list, 0 if refused.
    pub rows: usize,
    /// Start values of the list, which stand behind the rows, 0 if refused.
    pub values: usize,
}

/// What a move of a file from one version to the other gives.
#[repr(C)]
#[derive(Clone, Copy, Debug, PartialEq, Eq)]
pub struct MoveOutcome {
    /// 0 if accepted.
    pub number: u32,
    /// The smallest offending index.
    pub place: u32,
    /// Bytes of the new file, 0 if refused.
    pub length: usize,
}

/// What a batch in figures gives.
#[repr(C)]
#[derive(Clone, Copy, Debug, PartialEq, Eq)]
pub struct FiguresOutcome {
    /// 0 if accepted.
    pub number: u32,
    /// 0.
    pub place: u32,
    /// Blank results, 0 if refused.
    pub blank: u32,
    /// The least result that is a value, blank if none is or the batch is refused.
    pub least: i32,
    /// The greatest result that is a value, blank if none is or the batch is refused.
    pub greatest: i32,
    /// The sum of the results that are values, 0 if refused.
    pub sum: i64,
    /// Evaluations by route 1, 0 if refused.
    pub first: u32,
    /// Evaluations by route 2, 0 if refused.
    pub second: u32,
    /// Evaluations by route 3, 0 if refused.
    pub third: u32,
}

/// What a departure board gives, and both calls on frequencies.txt.
#[repr(C)]
#[derive(Clone, Copy, Debug, PartialEq, Eq)]
pub struct ListOutcome {
    /// 0 if accepted.
    pub number: u32,
    /// The smallest offending window, or line of a file that is read.
    pub place: u32,
    /// The length of the list, the windows that were read, or the bytes that were written; 0 if refused.
    pub length: usize,
}

/// A part of the lent entries.
#[repr(C)]
#[derive(Clone, Copy, Debug, PartialEq, Eq)]
pub struct Part {
    /// Where it starts among the entries.
    pub first: usize,
    /// How many entries it has.
    pub count: usize,
}

impl FiguresOutcome {
    /// The figures, or the refusal.
    ///
    /// # Errors
    /// The refusal, if the batch was refused.
    pub fn judged(self) -> Result<Totals, Refused> {
        let FiguresOutcome { number, place, blank, least, greatest, sum, first, second, third } = self;
        match number {
            0 => Ok(Totals { blank, least, greatest, sum, first, second, third }),
            _ => Err(Refused::new(number, place)),
        }
    }
}

impl ListOutcome {
    /// The length of a board's list, or its refusal.
    ///
    /// # Errors
    /// The refusal, if the board was refused.
    pub fn judged(self) -> Result<usize, BoardRefused> {
        match self {
            ListOutcome { number: 0, length, .. } => Ok(length),
            ListOutcome { number, place, .. } => Err(BoardRefused { number, place }),
        }
    }
}

impl MoveOutcome {
    /// The length of the new file, or the refusal.
    ///
    /// # Errors
    /// The refusal, if the call was refused.
    pub fn judged(self) -> Result<usize, Refused> {
        match self {
            MoveOutcome { number: 0, length, .. } => Ok(length),
            MoveOutcome { number, place, .. } => Err(Refused::new(number, place)),
        }
    }
}

impl Outcome {
    /// The evaluations, or the refusal.
    ///
    /// # Errors
    /// The refusal, if the call was refused.
    pub fn judged(self) -> Result<u32, Refused> {
        match self {
            Outcome { number: 0, evaluations, .. } => Ok(evaluations),
            Outcome { number, place, .. } => Err(Refused::new(number, place)),
        }
    }
}

impl ReadOutcome {
    /// n, m and e, or the refusal.
    ///
    /// # Errors
    /// The refusal, if the call was refused.
    pub fn judged(self) -> Result<(usize, usize, usize), Refused> {
        match self {
            ReadOutcome { number: 0, n, m, e, .. } => Ok((n as usize, m as usize, e as usize)),
            ReadOutcome { number, place, .. } => Err(Refused::new(number, place)),
        }
    }
}

impl SalvageOutcome {
    /// The length of the saved file and how many rows and start values the list names, or the refusal.
    ///
    /// # Errors
    /// The refusal, if the call was refused.
    pub fn judged(self) -> Result<(usize, usize, usize), Refused> {
        match self {
            SalvageOutcome { number: 0, length, rows, values, .. } => Ok((length, rows, values)),
            SalvageOutcome { number, place, .. } => Err(Refused::new(number, place)),
        }
    }
}

/// Refers to the function that only an archive of the same interface has: with another one no program that makes a call
/// links. It costs the loading of an address.
#[inline(always)]
pub(crate) fn same_interface() {
    std::hint::black_box(lukhandro_interface_1 as unsafe extern "C" fn() -> u32);
}

#[rustfmt::skip]
unsafe extern "C" {
    /// The number of the archive's interface.
    pub fn lukhandro_interface() -> u32;

    /// The same of an archive with interface 1; another has no function of this name.
    pub fn lukhandro_interface_1() -> u32;

    /// Numbers, order, values, readers and reasons from tables and start values, and an empty log.
    pub fn lukhandro_build(
        session: *mut Session, n: usize, m: usize, e: usize,
        kinds: *const u16, kinds_length: usize, makes: *const u16, makes_length: usize,
        params: *const i32, params_length: usize, firsts: *const u16, firsts_length: usize,
        counts: *const u16, counts_length: usize, vars: *const u16, vars_length: usize,
        coefs: *const i16, coefs_length: usize, lows: *const i32, lows_length: usize,
        highs: *const i32, highs_length: usize, starts: *const i32, starts_length: usize,
        numbers: *mut u16, numbers_length: usize, order: *mut u16, order_length: usize,
        stored: *mut i32, stored_length: usize, reader_starts: *mut u16, reader_starts_length: usize,
        reader_places: *mut u16, reader_places_length: usize, reasons: *mut u8, reasons_length: usize,
        log_sizes: *mut u16, log_sizes_length: usize,
    ) -> Outcome;

    /// A move tried by a route, with the reasons of the values asked.
    pub fn lukhandro_trial(
        session: *mut Session, n: usize, m: usize, e: usize,
        kinds: *const u16, kinds_length: usize, makes: *const u16, makes_length: usize,
        params: *const i32, params_length: usize, firsts: *const u16, firsts_length: usize,
        counts: *const u16, counts_length: usize, vars: *const u16, vars_length: usize,
        coefs: *const i16, coefs_length: usize, lows: *const i32, lows_length: usize,
        highs: *const i32, highs_length: usize, numbers: *const u16, numbers_length: usize,
        order: *const u16, order_length: usize, stored: *const i32, stored_length: usize,
        reader_starts: *const u16, reader_starts_length: usize, reader_places: *const u16, reader_places_length: usize,
        reasons: *const u8, reasons_length: usize,
        pairs: usize, move_vars: *const u16, move_vars_length: usize,
        move_values: *const i32, move_values_length: usize,
        asked: usize, asked_vars: *const u16, asked_vars_length: usize, route: u32,
        results: *mut i32, results_length: usize, trial: *mut i32, trial_length: usize,
        flags: *mut u8, flags_length: usize, why: *mut u8, why_length: usize,
    ) -> Outcome;

    /// A move kept.
    pub fn lukhandro_keep(
        session: *mut Session, n: usize, m: usize, e: usize,
        kinds: *const u16, kinds_length: usize, makes: *const u16, makes_length: usize,
        params: *const i32, params_length: usize, firsts: *const u16, firsts_length: usize,
        counts: *const u16, counts_length: usize, vars: *const u16, vars_length: usize,
        coefs: *const i16, coefs_length: usize, lows: *const i32, lows_length: usize,
        highs: *const i32, highs_length: usize, numbers: *const u16, numbers_length: usize,
        order: *const u16, order_length: usize, stored: *mut i32, stored_length: usize,
        reader_starts: *const u16, reader_starts_length: usize, reader_places: *const u16, reader_places_length: usize,
        reasons: *mut u8, reasons_length: usize,
        pairs: usize, move_vars: *const u16, move_vars_length: usize,
        move_values: *const i32, move_values_length: usize,
        flags: *mut u8, flags_length: usize, log_sizes: *mut u16, log_sizes_length: usize,
        log_vars: *mut u16, log_vars_length: usize, log_values: *mut i32, log_values_length: usize,
    ) -> Outcome;

    /// The latest kept move taken back.
    pub fn lukhandro_take_back(
        session: *mut Session, n: usize, m: usize, e: usize,
        kinds: *const u16, kinds_length: usize, makes: *const u16, makes_length: usize,
        params: *const i32, params_length: usize, firsts: *const u16, firsts_length: usize,
        counts: *const u16, counts_length: usize, vars: *const u16, vars_length: usize,
        coefs: *const i16, coefs_length: usize, lows: *const i32, lows_length: usize,
        highs: *const i32, highs_length: usize, numbers: *const u16, numbers_length: usize,
        order: *const u16, order_length: usize, stored: *mut i32, stored_length: usize,
        reader_starts: *const u16, reader_starts_length: usize, reader_places: *const u16, reader_places_length: usize,
        reasons: *mut u8, reasons_length: usize,
        flags: *mut u8, flags_length: usize, log_sizes: *mut u16, log_sizes_length: usize,
        log_vars: *const u16, log_vars_length: usize, log_values: *const i32, log_values_length: usize,
    ) -> Outcome;

    /// Tables from a file.
    pub fn lukhandro_read(
        bytes: *const u8, bytes_length: usize, starts: *mut i32, starts_length: usize,
        kinds: *mut u16, kinds_length: usize, makes: *mut u16, makes_length: usize,
        params: *mut i32, params_length: usize, firsts: *mut u16, firsts_length: usize,
        counts: *mut u16, counts_length: usize, vars: *mut u16, vars_length: usize,
        coefs: *mut i16, coefs_length: usize,
    ) -> ReadOutcome;

    /// A file from tables.
    pub fn lukhandro_write(
        n: usize, m: usize, e: usize, starts: *const i32, starts_length: usize,
        kinds: *const u16, kinds_length: usize, makes: *const u16, makes_length: usize,
        params: *const i32, params_length: usize, firsts: *const u16, firsts_length: usize,
        counts: *const u16, counts_length: usize, vars: *const u16, vars_length: usize,
        coefs: *const i16, coefs_length: usize,
        bytes: *mut u8, bytes_length: usize,
    ) -> Outcome;

    /// A file from a damaged one, and a list of what was not saved.
    pub fn lukhandro_salvage(
        bytes: *const u8, bytes_length: usize, file: *mut u8, file_length: usize,
        list: *mut u16, list_length: usize,
    ) -> SalvageOutcome;

    /// Tables and bounds from a file of version 2.
    pub fn lukhandro_read_bounded(
        bytes: *const u8, bytes_length: usize, starts: *mut i32, starts_length: usize,
        kinds: *mut u16, kinds_length: usize, makes: *mut u16, makes_length: usize,
        params: *mut i32, params_length: usize, firsts: *mut u16, firsts_length: usize,
        counts: *mut u16, counts_length: usize, vars: *mut u16, vars_length: usize,
        coefs: *mut i16, coefs_length: usize, lows: *mut i32, lows_length: usize,
        highs: *mut i32, highs_length: usize,
    ) -> ReadOutcome;

    /// A file of version 2 from tables and bounds.
    pub fn lukhandro_write_bounded(
        n: usize, m: usize, e: usize, starts: *const i32, starts_length: usize,
        kinds: *const u16, kinds_length: usize, makes: *const u16, makes_length: usize,
        params: *const i32, params_length: usize, firsts: *const u16, firsts_length: usize,
        counts: *const u16, counts_length: usize, vars: *const u16, vars_length: usize,
        coefs: *const i16, coefs_length: usize, lows: *const i32, lows_length: usize,
        highs: *const i32, highs_length: usize, bytes: *mut u8, bytes_length: usize,
    ) -> Outcome;

    /// A file of version 2 from one of version 1.
    pub fn lukhandro_to_version_2(
        bytes: *const u8, bytes_length: usize, file: *mut u8, file_length: usize,
    ) -> MoveOutcome;

    /// A file of version 1 from one of version 2.
    pub fn lukhandro_to_version_1(
        bytes: *const u8, bytes_length: usize, file: *mut u8, file_length: usize,
    ) -> MoveOutcome;

    /// A batch of moves in figures.
    pub fn lukhandro_figures(
        session: *const Session, n: usize, m: usize, e: usize,
        kinds: *const u16, kinds_length: usize, makes: *const u16, makes_length: usize,
        params: *const i32, params_length: usize, firsts: *const u16, firsts_length: usize,
        counts: *const u16, counts_length: usize, vars: *const u16, vars_length: usize,
        coefs: *const i16, coefs_length: usize, lows: *const i32, lows_length: usize,
        highs: *const i32, highs_length: usize, numbers: *const u16, numbers_length: usize,
        order: *const u16, order_length: usize, stored: *const i32, stored_length: usize,
        reader_starts: *const u16, reader_starts_length: usize, reader_places: *const u16, reader_places_length: usize,
        moves: usize, move_pairs: *const u16, move_pairs_length: usize,
        move_vars: *const u16, move_vars_length: usize, move_values: *const i32, move_values_length: usize,
        asked: u16, by_number: *mut u32, by_number_length: usize,
    ) -> FiguresOutcome;

    /// The figures of two batches merged.
    pub fn lukhandro_merge(
        first: FiguresOutcome, second: FiguresOutcome, first_by_number: *const u32, first_by_number_length: usize,
        second_by_number: *const u32, second_by_number_length: usize, by_number: *mut u32, by_number_length: usize,
    ) -> FiguresOutcome;

    /// Many moves tried by a route.
    pub fn lukhandro_trials(
        session: *const Session, n: usize, m: usize, e: usize,
        kinds: *const u16, kinds_length: usize, makes: *const u16, makes_length: usize,
        params: *const i32, params_length: usize, firsts: *const u16, firsts_length: usize,
        counts: *const u16, counts_length: usize, vars: *const u16, vars_length: usize,
        coefs: *const i16, coefs_length: usize, lows: *const i32, lows_length: usize,
        highs: *const i32, highs_length: usize, numbers: *const u16, numbers_length: usize,
        order: *const u16, order_length: usize, stored: *const i32, stored_length: usize,
        reader_starts: *const u16, reader_starts_length: usize, reader_places: *const u16, reader_places_length: usize,
        reasons: *const u8, reasons_length: usize, moves: usize, move_pairs: *const u16, move_pairs_length: usize,
        move_vars: *const u16, move_vars_length: usize, move_values: *const i32, move_values_length: usize,
        asked: usize, asked_vars: *const u16, asked_vars_length: usize, route: u32,
        move_numbers: *mut u32, move_numbers_length: usize, move_places: *mut u32, move_places_length: usize,
        move_evaluations: *mut u32, move_evaluations_length: usize, results: *mut i32, results_length: usize,
        why: *mut u8, why_length: usize,
    ) -> Outcome;

    /// The departures of one trip's windows in time order.
    pub fn lukhandro_departures(
        windows: usize, starts: *const i32, starts_length: usize, ends: *const i32, ends_length: usize,
        headways: *const i32, headways_length: usize, list: *mut i32, list_length: usize,
    ) -> ListOutcome;

    /// The inputs of a row.
    pub fn lukhandro_inputs_of_row(
        m: usize, e: usize, firsts: *const u16, firsts_length: usize, counts: *const u16, counts_length: usize,
        vars: *const u16, vars_length: usize, row: usize,
    ) -> Part;

    /// The windows of a frequencies.txt.
    pub fn lukhandro_frequencies(
        bytes: *const u8, bytes_length: usize, name_places: *mut u32, name_places_length: usize,
        name_lengths: *mut u32, name_lengths_length: usize, name_doubled: *mut u8, name_doubled_length: usize,
        starts: *mut i32, starts_length: usize, ends: *mut i32, ends_length: usize,
        headways: *mut i32, headways_length: usize, exacts: *mut u8, exacts_length: usize,
        lines: *mut u32, lines_length: usize,
    ) -> ListOutcome;

    /// A frequencies.txt from windows and the names of their trips.
    pub fn lukhandro_write_frequencies(
        windows: usize, text: *const u8, text_length: usize, name_places: *const u32, name_places_length: usize,
        name_lengths: *const u32, name_lengths_length: usize, name_doubled: *const u8, name_doubled_length: usize,
        starts: *const i32, starts_length: usize, ends: *const i32, ends_length: usize,
        headways: *const i32, headways_length: usize, exacts: *const u8, exacts_length: usize,
        bytes: *mut u8, bytes_length: usize,
    ) -> ListOutcome;
}
