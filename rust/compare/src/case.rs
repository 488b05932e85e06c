//! One call with everything that is lent to it, and what comes back.

use lent::{Session, Tables, Totals};
use second::{BLANK, Refused};

use crate::{Buffer, Guarded};

/// Which call.
#[derive(Clone, Copy, Debug, Default, PartialEq, Eq)]
pub enum Call {
    /// Numbers, order, values, readers and reasons from tables and start values, and an empty log.
    #[default]
    Build,
    /// A move tried by a route.
    Trial,
    /// A move kept.
    Keep,
    /// The latest kept move taken back.
    TakeBack,
    /// Tables from a file.
    Read,
    /// A file from tables.
    Write,
    /// A file from a damaged one, and a list of what was not saved.
    Salvage,
    /// Tables and bounds from a file of version 2.
    ReadBounded,
    /// A file of version 2 from tables and bounds.
    WriteBounded,
    /// A file of version 2 from one of version 1.
    ToVersion2,
    /// A file of version 1 from one of version 2.
    ToVersion1,
    /// A batch of moves in figures.
    Figures,
    /// The figures of two batches merged.
    Merge,
    /// Many moves tried by a route.
    Trials,
    /// The departures of one trip's windows in time order.
    Departures,
    /// The inputs of a row, as a part of the lent entries.
    InputsOfRow,
    /// The windows of a frequencies.txt.
    Frequencies,
    /// A frequencies.txt from windows and the names of their trips.
    WriteFrequencies,
}

/// A call with its counts and every buffer that any call is lent; a call uses those that are its own. `asked` is how
/// many variables a trial asks, and the one variable that a batch asks; `starts` are start values, and those of a
/// board's windows; `board` is its list. A frequencies.txt that is read, and the text in which the names of windows stand, are
/// `bytes`; one that is written is `file`.
#[derive(Clone, Debug, Default, PartialEq)]
#[expect(missing_docs, reason = "the fields are the parameters of the calls, by their names")]
pub struct Case {
    pub call: Call,
    pub session: Session,
    pub n: usize,
    pub m: usize,
    pub e: usize,
    pub kinds: Guarded<u16>,
    pub makes: Guarded<u16>,
    pub params: Guarded<i32>,
    pub firsts: Guarded<u16>,
    pub counts: Guarded<u16>,
    pub vars: Guarded<u16>,
    pub coefs: Guarded<i16>,
    pub lows: Guarded<i32>,
    pub highs: Guarded<i32>,
    pub starts: Guarded<i32>,
    pub numbers: Guarded<u16>,
    pub order: Guarded<u16>,
    pub stored: Guarded<i32>,
    pub reader_starts: Guarded<u16>,
    pub reader_places: Guarded<u16>,
    pub reasons: Guarded<u8>,
    pub pairs: usize,
    pub move_vars: Guarded<u16>,
    pub move_values: Guarded<i32>,
    pub asked: usize,
    pub asked_vars: Guarded<u16>,
    pub route: u32,
    pub results: Guarded<i32>,
    pub trial: Guarded<i32>,
    pub flags: Guarded<u8>,
    pub why: Guarded<u8>,
    pub log_sizes: Guarded<u16>,
    pub log_vars: Guarded<u16>,
    pub log_values: Guarded<i32>,
    pub bytes: Guarded<u8>,
    pub file: Guarded<u8>,
    pub list: Guarded<u16>,
    pub moves: usize,
    pub move_pairs: Guarded<u16>,
    /// the figures that are merged
    pub parts: [Answer; 2],
    pub first_by_number: Guarded<u32>,
    pub second_by_number: Guarded<u32>,
    pub by_number: Guarded<u32>,
    pub move_numbers: Guarded<u32>,
    pub move_places: Guarded<u32>,
    pub move_evaluations: Guarded<u32>,
    pub windows: usize,
    pub ends: Guarded<i32>,
    pub headways: Guarded<i32>,
    pub board: Guarded<i32>,
    pub name_places: Guarded<u32>,
    pub name_lengths: Guarded<u32>,
    pub name_doubled: Guarded<u8>,
    pub exacts: Guarded<u8>,
    pub lines: Guarded<u32>,
    pub row: usize,
}

/// The buffers of a case by name, borrowed one way or the other.
macro_rules! buffers_of {
    ($case:expr, $($borrowed:tt)+) => {
        [
            ("kinds", $($borrowed)+ $case.kinds),
            ("makes", $($borrowed)+ $case.makes),
            ("params", $($borrowed)+ $case.params),
            ("firsts", $($borrowed)+ $case.firsts),
            ("counts", $($borrowed)+ $case.counts),
            ("vars", $($borrowed)+ $case.vars),
            ("coefs", $($borrowed)+ $case.coefs),
            ("lows", $($borrowed)+ $case.lows),
            ("highs", $($borrowed)+ $case.highs),
            ("starts", $($borrowed)+ $case.starts),
            ("numbers", $($borrowed)+ $case.numbers),
            ("order", $($borrowed)+ $case.order),
            ("stored", $($borrowed)+ $case.stored),
            ("reader_starts", $($borrowed)+ $case.reader_starts),
            ("reader_places", $($borrowed)+ $case.reader_places),
            ("reasons", $($borrowed)+ $case.reasons),
            ("move_vars", $($borrowed)+ $case.move_vars),
            ("move_values", $($borrowed)+ $case.move_values),
            ("asked_vars", $($borrowed)+ $case.asked_vars),
            ("results", $($borrowed)+ $case.results),
            ("trial", $($borrowed)+ $case.trial),
            ("flags", $($borrowed)+ $case.flags),
            ("why", $($borrowed)+ $case.why),
            ("log_sizes", $($borrowed)+ $case.log_sizes),
            ("log_vars", $($borrowed)+ $case.log_vars),
            ("log_values", $($borrowed)+ $case.log_values),
            ("bytes", $($borrowed)+ $case.bytes),
            ("file", $($borrowed)+ $case.file),
            ("list", $($borrowed)+ $case.list),
            ("move_pairs", $($borrowed)+ $case.move_pairs),
            ("first_by_number", $($borrowed)+ $case.first_by_number),
            ("second_by_number", $($borrowed)+ $case.second_by_number),
            ("by_number", $($borrowed)+ $case.by_number),
            ("move_numbers", $($borrowed)+ $case.move_numbers),
            ("move_places", $($borrowed)+ $case.move_places),
            ("move_evaluations", $($borrowed)+ $case.move_evaluations),
            ("ends", $($borrowed)+ $case.ends),
            ("headways", $($borrowed)+ $case.headways),
            ("board", $($borrowed)+ $case.board),
            ("name_places", $($borrowed)+ $case.name_places),
            ("name_lengths", $($borrowed)+ $case.name_lengths),
            ("name_doubled", $($borrowed)+ $case.name_doubled),
            ("exacts", $($borrowed)+ $case.exacts),
            ("lines", $($borrowed)+ $case.lines),
        ]
    };
}

impl Case {
    /// The lent tables.
    #[must_use]
    pub fn tables(&self) -> Tables<'_> {
        Tables {
            n: self.n,
            m: self.m,
            e: self.e,
            kinds: &self.kinds,
            makes: &self.makes,
            params: &self.params,
            firsts: &self.firsts,
            counts: &self.counts,
            vars: &self.vars,
            coefs: &self.coefs,
        }
    }

    /// Every buffer by name, in the order of the fields.
    #[must_use]
    pub fn buffers(&self) -> [(&'static str, &dyn Buffer); 44] {
        buffers_of!(self, &)
    }

    /// Every buffer by name, to be changed.
    #[must_use]
    pub fn buffers_mut(&mut self) -> [(&'static str, &mut dyn Buffer); 44] {
        buffers_of!(self, &mut)
    }

    /// How many of its first n stored values are blank, as far as there are so many.
    #[must_use]
    pub fn blanks(&self) -> u32 {
        self.stored.iter().take(self.n).filter(|&&value| value == BLANK).count() as u32
    }

    /// Puts the record's number of blanks right.
    pub fn count_blanks(&mut self) {
        self.session.blanks = self.blanks();
    }

    /// Everything that is lent, by name.
    #[must_use]
    pub fn fields(&self) -> Vec<(&'static str, String)> {
        let mut fields = vec![("call", format!("{:?}", self.call)), ("session", format!("{:?}", self.session))];
        let numbers = [("n", self.n), ("m", self.m), ("e", self.e), ("pairs", self.pairs), ("asked", self.asked)];
        let above = [("moves", self.moves), ("windows", self.windows), ("row", self.row)];
        fields.extend(numbers.iter().chain(&above).map(|&(name, number)| (name, number.to_string())));
        fields.push(("route", self.route.to_string()));
        fields.push(("parts", format!("{:?}", self.parts)));
        fields.extend(self.buffers().map(|(name, buffer)| (name, format!("{buffer:?}"))));
        fields
    }

    /// Whether the guards of every buffer are as they were.
    #[must_use]
    pub fn intact(&self) -> bool {
        self.buffers().iter().all(|(_, buffer)| buffer.intact())
    }
}

/// What comes back from any of the calls; what a call does not give is 0.
#[derive(Clone, Copy, Debug, Default, PartialEq, Eq)]
#[expect(missing_docs, reason = "the fields are the results of the calls, by their names")]
pub struct Answer {
    pub number: u32,
    pub place: u32,
    pub evaluations: u32,
    pub n: u32,
    pub m: u32,
    pub e: u32,
    pub length: u32,
    pub rows: u32,
    pub values: u32,
    pub blank: u32,
    pub least: i32,
    pub greatest: i32,
    pub first: u32,
    pub second: u32,
    pub third: u32,
    pub count: u32,
    pub sum: i64,
}

impl Answer {
    /// The answer of build, trial, keep or taking back.
    #[must_use]
    pub fn of_call(evaluations: Result<u32, Refused>) -> Answer {
        evaluations.map_or_else(Answer::refused, |evaluations| Answer { evaluations, ..Answer::default() })
    }

    /// The answer of read.
    #[must_use]
    pub fn of_read(counts: Result<(usize, usize, usize), Refused>) -> Answer {
        counts.map_or_else(Answer::refused, |(n, m, e)| {
            let [n, m, e] = [n, m, e].map(|count| u32::try_from(count).unwrap_or(u32::MAX));
            Answer { n, m, e, ..Answer::default() }
        })
    }

    /// The answer of salvage.
    #[must_use]
    pub fn of_salvage(saved: Result<(usize, usize, usize), Refused>) -> Answer {
        saved.map_or_else(Answer::refused, |(length, rows, values)| {
            let [length, rows, values] = [length, rows, values].map(|count| u32::try_from(count).unwrap_or(u32::MAX));
            Answer { length, rows, values, ..Answer::default() }
        })
    }

    /// The answer of a move from one version to the other, of a board, and of both calls on frequencies.txt.
    #[must_use]
    pub fn of_length(length: Result<usize, Refused>) -> Answer {
        length.map_or_else(Answer::refused, |length| {
            let length = u32::try_from(length).unwrap_or(u32::MAX);
            Answer { length, ..Answer::default() }
        })
    }

    /// The answer of a batch in figures.
    #[must_use]
    pub fn of_figures(totals: Result<Totals, Refused>) -> Answer {
        let none = |refused| Answer { least: BLANK, greatest: BLANK, ..Answer::refused(refused) };
        totals.map_or_else(none, |Totals { blank, least, greatest, sum, first, second, third }| Answer {
            blank,
            least,
            greatest,
            sum,
            first,
            second,
            third,
            ..Answer::default()
        })
    }

    /// The figures that an answer has, or its refusal.
    ///
    /// # Errors
    /// The refusal, if the batch was refused.
    pub fn figures(self) -> Result<Totals, Refused> {
        let Answer { number, place, blank, least, greatest, sum, first, second, third, .. } = self;
        let totals = Totals { blank, least, greatest, sum, first, second, third };
        if number == 0 { Ok(totals) } else { Err(Refused { number, place }) }
    }

    /// The answer of the inputs of a row: where they start among the entries, 0 if there are none, and how many there
    /// are.
    #[must_use]
    pub fn of_part(first: usize, count: usize) -> Answer {
        let [first, count] = [first, count].map(|number| u32::try_from(number).unwrap_or(u32::MAX));
        Answer { first, count, ..Answer::default() }
    }

    /// A refusal.
    #[must_use]
    pub fn refused(refused: Refused) -> Answer {
        Answer { number: refused.number, place: refused.place, ..Answer::default() }
    }
}
