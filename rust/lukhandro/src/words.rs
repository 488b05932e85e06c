//! What a caller lends to a call: plain borrowed data, and nothing that works on it.
//!
//! A slice may be longer than its count asks; what lies beyond is neither looked at nor changed. The crate `lent` of this
//! repository is the same file: what does without the engine has its words from there.

/// The places of a log's sizes: how many moves it holds, and how many pairs each of them has, at most 64 moves.
pub const LOG_SIZES: usize = 65;

/// The places of a log's variables and of its values: the pairs of move k stand from place 64 k on.
pub const LOG_PLACES: usize = 4096;

/// The most moves of a batch.
pub const MOST_MOVES: usize = 1000;

/// The places that a batch fills with its moves counted by number: the accepted ones at 0, those refused with k at k.
pub const NUMBERS: usize = 22;

/// The most windows of a departure board.
pub const MOST_WINDOWS: usize = 64;

/// The most departures of a board.
pub const MOST_DEPARTURES: usize = 2000;

/// The session record: the counters that build, trial, keep and taking back set. A trial leaves `kept` and `blanks`.
#[repr(C)]
#[derive(Clone, Copy, Debug, Default, PartialEq, Eq)]
pub struct Session {
    /// Moves kept since the last accepted build and not taken back; stops at 4,294,967,295, and does not fall from there.
    pub kept: u32,
    /// Evaluations of the last accepted call.
    pub evaluations: u32,
    /// How many of the n stored values are blank; trial, keep and taking back refuse a record with another number.
    pub blanks: u32,
}

/// The tables of a model, one slice for each field.
#[derive(Clone, Copy, Debug)]
pub struct Tables<'a> {
    /// Variables.
    pub n: usize,
    /// Rows.
    pub m: usize,
    /// Entries.
    pub e: usize,
    /// Each row's kind, 1 to 9.
    pub kinds: &'a [u16],
    /// The variable that each row makes.
    pub makes: &'a [u16],
    /// Each row's parameter.
    pub params: &'a [i32],
    /// Each row's first entry.
    pub firsts: &'a [u16],
    /// Each row's number of entries.
    pub counts: &'a [u16],
    /// Each entry's variable.
    pub vars: &'a [u16],
    /// Each entry's coefficient.
    pub coefs: &'a [i16],
}

/// Bounds on what may be moved: the lowest and the highest allowed number of each variable, n of each. Those of a variable
/// that a row makes are full, from -2,147,483,647 to 2,147,483,647.
#[derive(Clone, Copy, Debug)]
pub struct Bounds<'a> {
    /// Each variable's lowest allowed number.
    pub lows: &'a [i32],
    /// Each variable's highest allowed number, not below the lowest.
    pub highs: &'a [i32],
}

/// Tables for `read` to fill.
#[derive(Debug)]
pub struct TablesMut<'a> {
    /// Each variable's start value.
    pub starts: &'a mut [i32],
    /// Each row's kind.
    pub kinds: &'a mut [u16],
    /// The variable that each row makes.
    pub makes: &'a mut [u16],
    /// Each row's parameter.
    pub params: &'a mut [i32],
    /// Each row's first entry.
    pub firsts: &'a mut [u16],
    /// Each row's number of entries.
    pub counts: &'a mut [u16],
    /// Each entry's variable.
    pub vars: &'a mut [u16],
    /// Each entry's coefficient.
    pub coefs: &'a mut [i16],
}

/// Bounds for `read_bounded` to fill.
#[derive(Debug)]
pub struct BoundsMut<'a> {
    /// Each variable's lowest allowed number.
    pub lows: &'a mut [i32],
    /// Each variable's highest allowed number.
    pub highs: &'a mut [i32],
}

/// Buffers for `build` to fill: n numbers, m places of the order, n values, n + 1 starts and room for e readers, n reasons;
/// and the sizes of a log for it to empty.
///
/// The reason of a variable says why it is blank: 0 it has a value, 1 the result left the range, 2 the index is outside, 3
/// the headway is 0 or less, 4 a blank input stopped the formula, 5 there are no departures. It is 0 for a search variable.
#[derive(Debug)]
pub struct Built<'a> {
    /// Each variable's topological number.
    pub numbers: &'a mut [u16],
    /// The rows by the number of the variable made, ties by row.
    pub order: &'a mut [u16],
    /// Each variable's value.
    pub stored: &'a mut [i32],
    /// Where the readers of each variable start, and where the last one's end.
    pub reader_starts: &'a mut [u16],
    /// The rows that read each variable, ascending, each once; what lies beyond the last is not written.
    pub reader_places: &'a mut [u16],
    /// Each variable's reason.
    pub reasons: &'a mut [u8],
    /// The sizes of the log: the first place becomes 0, no move.
    pub log_sizes: &'a mut [u16],
}

/// What build left, lent to a trial.
#[derive(Clone, Copy, Debug)]
pub struct State<'a> {
    /// Each variable's topological number.
    pub numbers: &'a [u16],
    /// The rows by the number of the variable made, ties by row.
    pub order: &'a [u16],
    /// Each variable's value.
    pub stored: &'a [i32],
    /// Where the readers of each variable start, and where the last one's end.
    pub reader_starts: &'a [u16],
    /// The rows that read each variable, ascending, each once.
    pub reader_places: &'a [u16],
    /// Each variable's reason; any byte may stand there.
    pub reasons: &'a [u8],
}

/// A move: at most 64 pairs of a search variable and its new value.
#[derive(Clone, Copy, Debug)]
pub struct Move<'a> {
    /// The number of pairs.
    pub pairs: usize,
    /// Each pair's variable.
    pub vars: &'a [u16],
    /// Each pair's new value.
    pub values: &'a [i32],
}

/// At most 32 variables that a trial asks.
#[derive(Clone, Copy, Debug)]
pub struct Asked<'a> {
    /// The number of places.
    pub asked: usize,
    /// The variable at each place.
    pub vars: &'a [u16],
}

/// Buffers for `trial` to fill: a result for each place asked, n values, n flags, a reason for each place asked.
#[derive(Debug)]
pub struct Tried<'a> {
    /// The asked values in asking order.
    pub results: &'a mut [i32],
    /// The new value of each variable moved or evaluated, and the stored one elsewhere.
    pub trial: &'a mut [i32],
    /// 1 for each variable that was evaluated, 0 elsewhere.
    pub flags: &'a mut [u8],
    /// The reasons of the asked values in asking order, the stored one of a variable that was not evaluated.
    pub why: &'a mut [u8],
}

/// What a trial is lent besides the record, the tables and the bounds.
#[derive(Debug)]
pub struct Trial<'a> {
    /// What build left.
    pub state: State<'a>,
    /// The move to try.
    pub moved: Move<'a>,
    /// The variables asked.
    pub asked: Asked<'a>,
    /// 1 input to output, 2 output to input, 3 mark-guided.
    pub route: u32,
    /// What the trial fills.
    pub tried: Tried<'a>,
}

/// What a keep is lent besides the record, the tables and the bounds.
#[derive(Debug)]
pub struct Keep<'a> {
    /// Each variable's topological number.
    pub numbers: &'a [u16],
    /// The rows by the number of the variable made, ties by row.
    pub order: &'a [u16],
    /// Each variable's value, which the move changes.
    pub stored: &'a mut [i32],
    /// Where the readers of each variable start, and where the last one's end.
    pub reader_starts: &'a [u16],
    /// The rows that read each variable, ascending, each once.
    pub reader_places: &'a [u16],
    /// Each variable's reason, which changes where a formula was evaluated; 0 afterwards for a search variable. Any byte
    /// may stand there before.
    pub reasons: &'a mut [u8],
    /// The move to keep.
    pub moved: Move<'a>,
    /// 1 for each variable that was evaluated, 0 elsewhere.
    pub flags: &'a mut [u8],
    /// How many moves the log holds, and how many pairs each has, the oldest first.
    pub log_sizes: &'a mut [u16],
    /// The variables of the pairs, those of move k from place 64 k on.
    pub log_vars: &'a mut [u16],
    /// The values that they had before the move, at the same places.
    pub log_values: &'a mut [i32],
}

/// What taking back is lent besides the record, the tables and the bounds.
#[derive(Debug)]
pub struct TakeBack<'a> {
    /// Each variable's topological number.
    pub numbers: &'a [u16],
    /// The rows by the number of the variable made, ties by row.
    pub order: &'a [u16],
    /// Each variable's value, which becomes what it was before the latest move of the log.
    pub stored: &'a mut [i32],
    /// Where the readers of each variable start, and where the last one's end.
    pub reader_starts: &'a [u16],
    /// The rows that read each variable, ascending, each once.
    pub reader_places: &'a [u16],
    /// Each variable's reason, which changes where a formula was evaluated; 0 afterwards for a search variable. Any byte
    /// may stand there before.
    pub reasons: &'a mut [u8],
    /// 1 for each variable that was evaluated, 0 elsewhere.
    pub flags: &'a mut [u8],
    /// How many moves the log holds, one less afterwards, and how many pairs each has, the oldest first.
    pub log_sizes: &'a mut [u16],
    /// The variables of the pairs, those of move k from place 64 k on.
    pub log_vars: &'a [u16],
    /// The values that they had before the move, at the same places.
    pub log_values: &'a [i32],
}

/// A batch of moves, one behind the other.
#[derive(Clone, Copy, Debug)]
pub struct Batch<'a> {
    /// The number of moves, at most 1,000.
    pub moves: usize,
    /// Each move's number of pairs.
    pub pairs: &'a [u16],
    /// The variables of all pairs; those of a move stand behind those of the moves before it.
    pub vars: &'a [u16],
    /// The new values of all pairs, at the same places.
    pub values: &'a [i32],
}

/// Rows for `trials` to fill: a place of the first three for each move, and `asked` places of the others for each move.
#[derive(Debug)]
pub struct Given<'a> {
    /// Each move's number: 0 if it is accepted, else its refusal.
    pub numbers: &'a mut [u32],
    /// Each move's place.
    pub places: &'a mut [u32],
    /// Each move's evaluations.
    pub evaluations: &'a mut [u32],
    /// The asked values of each move in asking order; those of a refused move stay as they were.
    pub results: &'a mut [i32],
    /// Their reasons; those of a refused move stay as they were.
    pub why: &'a mut [u8],
}

/// What `trials` is lent besides the record, the tables and the bounds.
#[derive(Debug)]
pub struct Trials<'a> {
    /// What build has filled.
    pub state: State<'a>,
    /// The moves.
    pub batch: Batch<'a>,
    /// The variables asked of every move.
    pub asked: Asked<'a>,
    /// The route, 1 to 3.
    pub route: u32,
    /// What to fill.
    pub given: Given<'a>,
}

/// What a batch in figures is lent besides the record, the tables and the bounds.
#[derive(Debug)]
pub struct Figures<'a> {
    /// Each variable's topological number.
    pub numbers: &'a [u16],
    /// The rows by the number of the variable made, ties by row.
    pub order: &'a [u16],
    /// Each variable's value, on which every move is tried.
    pub stored: &'a [i32],
    /// Where the readers of each variable start, and where the last one's end.
    pub reader_starts: &'a [u16],
    /// The rows that read each variable, ascending, each once.
    pub reader_places: &'a [u16],
    /// The moves.
    pub batch: Batch<'a>,
    /// The variable that each of them is asked for.
    pub asked: u16,
    /// The moves accepted at place 0, those refused with k at place k; 22 places.
    pub by_number: &'a mut [u32],
}

/// The figures of the accepted moves of a batch together.
#[derive(Clone, Copy, Debug, PartialEq, Eq)]
pub struct Totals {
    /// Blank results.
    pub blank: u32,
    /// The least result that is a value, blank if none is.
    pub least: i32,
    /// The greatest result that is a value, blank if none is.
    pub greatest: i32,
    /// The sum of the results that are values.
    pub sum: i64,
    /// Evaluations by route 1.
    pub first: u32,
    /// Evaluations by route 2.
    pub second: u32,
    /// Evaluations by route 3.
    pub third: u32,
}

/// The windows of one trip, at most 64.
#[derive(Clone, Copy, Debug)]
pub struct Windows<'a> {
    /// The number of windows.
    pub windows: usize,
    /// Each window's start.
    pub starts: &'a [i32],
    /// Each window's end, at which nothing departs any more.
    pub ends: &'a [i32],
    /// The time from one departure of a window to its next.
    pub headways: &'a [i32],
}

/// Rows for `frequencies` to fill: a place of each for every window of a frequencies.txt. A name stands among the file's
/// bytes, without the quotes around it.
#[derive(Debug)]
pub struct WindowRows<'a> {
    /// Where each trip's name begins among the bytes.
    pub name_places: &'a mut [u32],
    /// How many bytes it has there, at least one.
    pub name_lengths: &'a mut [u32],
    /// 1 where quotes stand double in it: each two of them are one of the name.
    pub name_doubled: &'a mut [u8],
    /// Each window's start.
    pub starts: &'a mut [i32],
    /// Each window's end.
    pub ends: &'a mut [i32],
    /// Each window's headway, above 0.
    pub headways: &'a mut [i32],
    /// Each window's exact_times, 0 or 1.
    pub exacts: &'a mut [u8],
    /// The line on which each window's row begins, counted from 1.
    pub lines: &'a mut [u32],
}

/// Windows with the names of their trips, lent to `write_frequencies`; what `frequencies` left is such.
#[derive(Clone, Copy, Debug)]
pub struct NamedWindows<'a> {
    /// The number of windows.
    pub windows: usize,
    /// The bytes in which the names stand.
    pub text: &'a [u8],
    /// Where each trip's name begins in the text.
    pub name_places: &'a [u32],
    /// How many bytes it has there.
    pub name_lengths: &'a [u32],
    /// Other than 0 where quotes stand double in it: each two of them are one of the name.
    pub name_doubled: &'a [u8],
    /// Each window's start.
    pub starts: &'a [i32],
    /// Each window's end.
    pub ends: &'a [i32],
    /// Each window's headway.
    pub headways: &'a [i32],
    /// Each window's exact_times.
    pub exacts: &'a [u8],
}
