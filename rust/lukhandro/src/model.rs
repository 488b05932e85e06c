//! A model that owns its buffers.

use crate::lent::{
    self, Asked, Batch, Bounds, BoundsMut, Built, Keep, LOG_PLACES, LOG_SIZES, MOST_MOVES, Move, NUMBERS, Session,
    State, Tables, TablesMut, TakeBack, Tried,
};
use crate::sys::ReadOutcome;
use crate::{
    BLANK, Cause, Figures, HIGHEST, Kind, LOWEST, MOST_ASKED, MOST_ENTRIES, MOST_PAIRS, MOST_VARIABLES, Movable,
    NOTHING_ASKED, Reason, Refused, Route, Row, Tries, Variable, cause,
};

/// A model with its values and a log of its kept moves, built and ready to try moves, keep them and take them back.
///
/// ```
/// use lukhandro::{Model, Route, Row};
///
/// // A window from 7:00 to 8:00 every ten minutes, its departures and its last departure.
/// let rows = [Row::departures(3, 0, 1, 2), Row::last(4, 0, 1, 2)];
/// let mut sheet = Model::build(&[25200, 28800, 600, 0, 0], &rows)?;
/// assert_eq!((sheet.value(3), sheet.value(4)), (Some(6), Some(28200)));
///
/// // What if service went on for a second more? A departure at 8:00.
/// let tried = sheet.trial(&[(1, 28801)], &[3, 4], Route::MarkGuided)?;
/// assert_eq!(tried.results, [7, 28800]);
/// assert_eq!(sheet.value(3), Some(6));
///
/// sheet.keep(&[(1, 28801)])?;
/// assert_eq!(sheet.value(3), Some(7));
///
/// // On second thoughts, no.
/// sheet.take_back()?;
/// assert_eq!(sheet.value(3), Some(6));
/// # Ok::<(), lukhandro::Refused>(())
/// ```
#[derive(Clone, Debug)]
pub struct Model {
    session: Session,
    kinds: Vec<u16>,
    makes: Vec<u16>,
    params: Vec<i32>,
    firsts: Vec<u16>,
    counts: Vec<u16>,
    vars: Vec<u16>,
    coefs: Vec<i16>,
    lows: Vec<i32>,
    highs: Vec<i32>,
    numbers: Vec<u16>,
    order: Vec<u16>,
    stored: Vec<i32>,
    reader_starts: Vec<u16>,
    reader_places: Vec<u16>,
    reasons: Vec<u8>,
    results: [i32; MOST_ASKED],
    trial: Vec<i32>,
    flags: Vec<u8>,
    why: [u8; MOST_ASKED],
    log_sizes: [u16; LOG_SIZES],
    log_vars: Vec<u16>,
    log_values: Vec<i32>,
    names: Vec<String>,
}

/// What a trial found. Stored values are as they were.
#[derive(Clone, Copy, Debug)]
pub struct Trial<'a> {
    /// How many formulas were evaluated.
    pub evaluations: u32,
    /// The asked values in asking order; [`BLANK`] is no value.
    pub results: &'a [i32],
    /// The new value of each variable moved or evaluated, and the stored one elsewhere.
    pub values: &'a [i32],
    /// 1 for each variable that was evaluated, 0 elsewhere.
    pub flags: &'a [u8],
    /// The reasons of the asked values in asking order: 0 for one that is not blank, else the number of its [`Reason`].
    pub why: &'a [u8],
}

impl Trial<'_> {
    /// The value asked at this place; none if it is blank, or there is no such place.
    #[must_use]
    pub fn value(&self, place: usize) -> Option<i32> {
        self.results.get(place).copied().filter(|&value| value != BLANK)
    }

    /// Why the value asked at this place is blank; none if it is not, or there is no such place.
    ///
    /// ```
    /// use lukhandro::{BLANK, Model, Reason, Route, Row};
    ///
    /// let rows = [Row::departures(3, 0, 1, 2), Row::last(4, 0, 1, 2), Row::linear(5, 2, &[(3, 4)])];
    /// let mut sheet = Model::build(&[25200, 28800, 600, 0, 0, 0], &rows)?;
    ///
    /// // What if the window closed when it opens?
    /// let tried = sheet.trial(&[(1, 25200)], &[3, 4], Route::MarkGuided)?;
    /// assert_eq!(tried.results, [0, BLANK]);
    /// assert_eq!((tried.reason(0), tried.reason(1)), (None, Some(Reason::NoDepartures)));
    ///
    /// // A headway of 0 leaves no departures to be counted, and no crews either.
    /// let tried = sheet.trial(&[(2, 0)], &[3, 5], Route::MarkGuided)?;
    /// assert_eq!(tried.reason(0), Some(Reason::HeadwayNotPositive));
    /// assert_eq!(tried.reason(1), Some(Reason::BlankInput));
    /// # Ok::<(), lukhandro::Refused>(())
    /// ```
    #[must_use]
    pub fn reason(&self, place: usize) -> Option<Reason> {
        self.why.get(place).copied().and_then(Reason::of)
    }
}

/// Moves as a batch has them: each one's number of pairs, and the variables and values of all. More pairs than a move may
/// have are as good as one more: the move is refused.
fn laid_out<S: Movable, M: AsRef<[(S, i32)]>>(moves: &[M]) -> (Vec<u16>, Vec<u16>, Vec<i32>) {
    let (mut sizes, mut vars, mut values) = (Vec::new(), Vec::new(), Vec::new());
    for pairs in moves.iter().map(|pairs| pairs.as_ref()).map(|pairs| &pairs[..pairs.len().min(MOST_PAIRS + 1)]) {
        sizes.push(pairs.len() as u16);
        vars.extend(pairs.iter().map(|&(variable, _)| variable.variable()));
        values.extend(pairs.iter().map(|&(_, value)| value));
    }
    (sizes, vars, values)
}

/// The tables of a model, borrowed field by field so that its other buffers may be lent too.
macro_rules! tables_of {
    ($model:expr) => {
        Tables {
            n: $model.numbers.len(),
            m: $model.kinds.len(),
            e: $model.vars.len(),
            kinds: &$model.kinds,
            makes: &$model.makes,
            params: &$model.params,
            firsts: &$model.firsts,
            counts: &$model.counts,
            vars: &$model.vars,
            coefs: &$model.coefs,
        }
    };
}

/// The bounds of a model, borrowed in the same way.
macro_rules! bounds_of {
    ($model:expr) => {
        Bounds { lows: &$model.lows, highs: &$model.highs }
    };
}

impl Model {
    /// Builds a model of rows over as many variables as there are start values; a variable that a row makes starts at 0.
    /// Its bounds allow every number.
    ///
    /// ```
    /// use lukhandro::{Model, Row};
    ///
    /// // Variable 0 made from 1, and 1 from 0.
    /// let circular = [Row::min(0, &[1]), Row::min(1, &[0])];
    /// let refused = Model::build(&[0, 0], &circular).unwrap_err();
    /// assert_eq!((refused.number, refused.place), (6, 0));
    ///
    /// // Variable 2 is 1, or what 3 is made from it, as index 0 chooses.
    /// let chosen = [Row::element(2, 0, &[1, 3]), Row::min(3, &[2])];
    /// assert_eq!(Model::build(&[0, 7, 0, 0], &chosen)?.stored(), [0, 7, 7, 7]);
    /// let refused = Model::build(&[1, 7, 0, 0], &chosen).unwrap_err();
    /// assert_eq!((refused.number, refused.place), (20, 2));
    /// # Ok::<(), lukhandro::Refused>(())
    /// ```
    ///
    /// # Errors
    /// Refusals 1 to 7, and 20 if the start values lead round a closed chain.
    pub fn build(starts: &[i32], rows: &[Row]) -> Result<Model, Refused> {
        Model::empty(starts.len(), rows.len()).with_rows(rows).built(starts)
    }

    /// Builds a model in which a search variable may have the numbers from its lowest to its highest and no other: the start
    /// values and all that is moved are held to them. There is a pair of bounds for each variable, [`FULL`](crate::FULL) for
    /// one that a row makes.
    ///
    /// ```
    /// use lukhandro::{FULL, Model, Route, Row};
    ///
    /// // A headway is from one minute to two hours, and the start is fixed.
    /// let bounds = [(25200, 25200), FULL, (60, 7200), FULL];
    /// let mut sheet = Model::build_within(&[25200, 28800, 600, 0], &bounds, &[Row::departures(3, 0, 1, 2)])?;
    /// assert_eq!(sheet.bounds(2), Some((60, 7200)));
    /// sheet.keep(&[(2, 60)])?;
    ///
    /// // A slipped digit.
    /// let refused = sheet.keep(&[(1, 32400), (2, 60_000)]).unwrap_err();
    /// assert_eq!((refused.number, refused.place), (17, 1));
    /// # Ok::<(), lukhandro::Refused>(())
    /// ```
    ///
    /// # Errors
    /// Refusals 1 to 7 and 20: 1 for fewer bounds than variables, and 4 for bounds that are not in order or not full.
    pub fn build_within(starts: &[i32], bounds: &[(i32, i32)], rows: &[Row]) -> Result<Model, Refused> {
        Model::empty(starts.len(), rows.len()).with_bounds(bounds).with_rows(rows).built(starts)
    }

    /// The model with these bounds.
    fn with_bounds(mut self, bounds: &[(i32, i32)]) -> Model {
        (self.lows, self.highs) = bounds.iter().copied().unzip();
        self
    }

    /// The model with these rows.
    fn with_rows(mut self, rows: &[Row]) -> Model {
        let model = &mut self;
        for row in rows {
            // More entries than a count can say are more than a model may have: build refuses them.
            let narrow = |count: usize| u16::try_from(count).unwrap_or(u16::MAX);
            model.kinds.push(row.kind as u16);
            model.makes.push(row.makes);
            model.params.push(row.parameter);
            model.firsts.push(narrow(model.vars.len()));
            model.counts.push(narrow(row.entries.len()));
            model.vars.extend(row.entries.iter().map(|&(variable, _)| variable));
            model.coefs.extend(row.entries.iter().map(|&(_, coefficient)| coefficient));
        }
        self
    }

    /// Reads a model file of version 1 and builds its model. Such a file has no bounds: those of the model allow every number.
    ///
    /// ```
    /// use lukhandro::{Model, Row};
    ///
    /// let sheet = Model::build(&[4, 9, 0], &[Row::max(2, &[0, 1])])?;
    /// let again = Model::read(&sheet.write()?)?;
    /// assert_eq!(again.value(2), Some(9));
    ///
    /// let refused = Model::read(b"no model").unwrap_err();
    /// assert_eq!((refused.number, refused.place), (14, 8));
    /// # Ok::<(), lukhandro::Refused>(())
    /// ```
    ///
    /// # Errors
    /// Refusal 14 for the file, and refusals 2 to 7 and 20 for what is in it.
    pub fn read(bytes: &[u8]) -> Result<Model, Refused> {
        let (model, starts) = Model::of_file(bytes, 1, |tables| lent::read(bytes, tables))?;
        model.built(&starts)
    }

    /// Reads a model file of version 1 and builds its model within bounds, as [`Model::build_within`] does.
    ///
    /// ```
    /// use lukhandro::{FULL, Model, Row};
    ///
    /// let file = Model::build(&[4, 9, 0], &[Row::max(2, &[0, 1])])?.write()?;
    /// let mut sheet = Model::read_within(&file, &[(0, 5), (0, 9), FULL])?;
    /// assert_eq!(sheet.keep(&[(1, 10)]).unwrap_err().number, 17);
    /// # Ok::<(), lukhandro::Refused>(())
    /// ```
    ///
    /// # Errors
    /// Refusal 14 for the file, refusals 2 to 7 and 20 for what is in it and for the bounds, and 1 for fewer bounds than
    /// variables.
    pub fn read_within(bytes: &[u8], bounds: &[(i32, i32)]) -> Result<Model, Refused> {
        let (model, starts) = Model::of_file(bytes, 1, |tables| lent::read(bytes, tables))?;
        model.with_bounds(bounds).built(&starts)
    }

    /// Reads a model file of version 2 and builds its model within the bounds that the file holds.
    ///
    /// ```
    /// use lukhandro::{FULL, Model, Row};
    ///
    /// let sheet = Model::build_within(&[4, 9, 0], &[(0, 5), (0, 9), FULL], &[Row::max(2, &[0, 1])])?;
    /// let mut again = Model::read_bounded(&sheet.write_bounded()?)?;
    /// assert_eq!(again.bounds(1), Some((0, 9)));
    /// assert_eq!(again.keep(&[(1, 10)]).unwrap_err().number, 17);
    /// # Ok::<(), lukhandro::Refused>(())
    /// ```
    ///
    /// # Errors
    /// Refusal 14 for the file, and refusals 2 to 7 and 20 for what is in it, its bounds too.
    pub fn read_bounded(bytes: &[u8]) -> Result<Model, Refused> {
        let (mut lows, mut highs) = (vec![0; MOST_VARIABLES], vec![0; MOST_VARIABLES]);
        let bounds = BoundsMut { lows: &mut lows, highs: &mut highs };
        let (model, starts) = Model::of_file(bytes, 2, |tables| lent::read_bounded(bytes, tables, bounds))?;
        lows.truncate(starts.len());
        highs.truncate(starts.len());
        Model { lows, highs, ..model }.built(&starts)
    }

    /// The model that a reader fills tables with, not built yet, and its start values.
    fn of_file(
        bytes: &[u8],
        version: u16,
        read: impl FnOnce(TablesMut<'_>) -> ReadOutcome,
    ) -> Result<(Model, Vec<i32>), Refused> {
        let mut starts = vec![0; MOST_VARIABLES];
        let rows = || vec![0; MOST_VARIABLES];
        let (mut kinds, mut makes, mut firsts, mut counts) = (rows(), rows(), rows(), rows());
        let mut params = vec![0; MOST_VARIABLES];
        let (mut vars, mut coefs) = (vec![0; MOST_ENTRIES], vec![0; MOST_ENTRIES]);
        let tables = TablesMut {
            starts: &mut starts,
            kinds: &mut kinds,
            makes: &mut makes,
            params: &mut params,
            firsts: &mut firsts,
            counts: &mut counts,
            vars: &mut vars,
            coefs: &mut coefs,
        };
        let judged = read(tables).judged();
        let (n, m, e) = judged.map_err(|refused| refused.because(|refused| cause::of_file(bytes, version, refused)))?;
        for table in [&mut kinds, &mut makes, &mut firsts, &mut counts] {
            table.truncate(m);
        }
        params.truncate(m);
        vars.truncate(e);
        coefs.truncate(e);
        starts.truncate(n);
        Ok((Model { kinds, makes, params, firsts, counts, vars, coefs, ..Model::empty(n, m) }, starts))
    }

    /// Tries a move: gives the values of the asked variables as they would be, with the reasons of those that would be blank,
    /// and changes none that is stored.
    ///
    /// # Errors
    /// Refusal 1 for more than 64 pairs or more than 32 asked variables, refusals 10 to 13 and 17, and 20 for a move that leads
    /// round a closed chain.
    pub fn trial<S: Movable, V: Variable>(
        &mut self,
        pairs: &[(S, i32)],
        asked: &[V],
        route: Route,
    ) -> Result<Trial<'_>, Refused> {
        let moved = Pairs::of(pairs);
        let mut vars = [0; MOST_ASKED];
        for (place, variable) in vars.iter_mut().zip(asked) {
            *place = variable.variable();
        }
        let trial = lent::Trial {
            state: State {
                numbers: &self.numbers,
                order: &self.order,
                stored: &self.stored,
                reader_starts: &self.reader_starts,
                reader_places: &self.reader_places,
                reasons: &self.reasons,
            },
            moved: moved.lent(),
            asked: Asked { asked: asked.len(), vars: &vars },
            route: route as u32,
            tried: Tried {
                results: &mut self.results,
                trial: &mut self.trial,
                flags: &mut self.flags,
                why: &mut self.why,
            },
        };
        let tried = lent::trial(&mut self.session, tables_of!(self), bounds_of!(self), trial).judged();
        let evaluations = tried.map_err(|refused| self.refused_move(pairs, asked, refused))?;
        let results = self.results.get(..asked.len()).unwrap_or(&[]);
        let why = self.why.get(..asked.len()).unwrap_or(&[]);
        Ok(Trial { evaluations, results, values: &self.trial, flags: &self.flags, why })
    }

    /// Tries up to 1,000 moves, each on the values that are stored now, and gives what they come to for one variable.
    /// None is kept; a move that is refused is only counted, and the order of the moves changes nothing.
    ///
    /// ```
    /// use lukhandro::{Model, Row};
    ///
    /// let rows = [Row::departures(3, 0, 1, 2), Row::last(4, 0, 1, 2), Row::linear(5, 2, &[(3, 4)])];
    /// let sheet = Model::build(&[25200, 28800, 600, 0, 0, 0], &rows)?;
    ///
    /// // Headways of six to fifteen minutes, and of none: how many crews?
    /// let moves = [360, 720, 900, 0].map(|headway| [(2, headway)]);
    /// let figures = sheet.figures(&moves, 5)?;
    /// assert_eq!((figures.accepted(), figures.blank), (4, 1));
    /// assert_eq!((figures.least, figures.greatest, figures.sum), (Some(18), Some(42), 82));
    /// # Ok::<(), lukhandro::Refused>(())
    /// ```
    ///
    /// # Errors
    /// Refusal 1 for more than 1,000 moves.
    pub fn figures<S: Movable, M: AsRef<[(S, i32)]>>(
        &self,
        moves: &[M],
        asked: impl Variable,
    ) -> Result<Figures, Refused> {
        let (sizes, vars, values) = laid_out(moves);
        let mut by_number = [0; NUMBERS];
        let lent = lent::Figures {
            numbers: &self.numbers,
            order: &self.order,
            stored: &self.stored,
            reader_starts: &self.reader_starts,
            reader_places: &self.reader_places,
            batch: Batch { moves: sizes.len(), pairs: &sizes, vars: &vars, values: &values },
            asked: asked.variable(),
            by_number: &mut by_number,
        };
        let totals = lent::figures(&self.session, tables_of!(self), bounds_of!(self), lent).judged();
        let too_many = Cause::TooMany { what: "moves in a batch", given: sizes.len(), most: MOST_MOVES };
        Figures::of(by_number, totals.map_err(|refused| refused.because(|_| Some(too_many))))
    }

    /// Tries up to 1,000 moves at once, each on the values that are stored now, and gives what each of them is given: what
    /// [`Model::trial`] gives it. The model is judged once for all of them. None is kept.
    ///
    /// ```
    /// use lukhandro::{Model, Route, Row};
    ///
    /// let rows = [Row::departures(3, 0, 1, 2), Row::last(4, 0, 1, 2), Row::linear(5, 2, &[(3, 4)])];
    /// let sheet = Model::build(&[25200, 28800, 600, 0, 0, 0], &rows)?;
    ///
    /// // Which headway of these needs the fewest crews? The last one is no headway.
    /// let moves = [360, 720, 900, 0].map(|headway| [(2, headway)]);
    /// let tries = sheet.trials(&moves, &[5], Route::MarkGuided)?;
    /// let crews: Vec<Option<i32>> = tries.iter().map(|given| given.ok()?.value(0)).collect();
    /// assert_eq!(crews, [Some(42), Some(22), Some(18), None]);
    ///
    /// // A refusal is the move's own.
    /// let tries = sheet.trials(&[[(2, 720)], [(5, 1)]], &[5], Route::MarkGuided)?;
    /// assert_eq!(tries.of(0).unwrap()?.value(0), Some(22));
    /// assert_eq!(tries.of(1).unwrap().unwrap_err().number, 10);
    /// # Ok::<(), lukhandro::Refused>(())
    /// ```
    ///
    /// # Errors
    /// Refusal 1 for more than 1,000 moves or more than 32 asked variables.
    pub fn trials<S: Movable, M: AsRef<[(S, i32)]>, V: Variable>(
        &self,
        moves: &[M],
        asked: &[V],
        route: Route,
    ) -> Result<Tries, Refused> {
        let (sizes, vars, values) = laid_out(moves);
        let asked: Vec<u16> = asked.iter().map(|variable| variable.variable()).collect();
        let mut tries = Tries::room(sizes.len(), asked.len());
        let lent = lent::Trials {
            state: State {
                numbers: &self.numbers,
                order: &self.order,
                stored: &self.stored,
                reader_starts: &self.reader_starts,
                reader_places: &self.reader_places,
                reasons: &self.reasons,
            },
            batch: Batch { moves: sizes.len(), pairs: &sizes, vars: &vars, values: &values },
            asked: Asked { asked: asked.len(), vars: &asked },
            route: route as u32,
            given: tries.lent(),
        };
        let judged = lent::trials(&self.session, tables_of!(self), bounds_of!(self), lent).judged();
        let too_many = if sizes.len() > MOST_MOVES {
            Cause::TooMany { what: "moves in a batch", given: sizes.len(), most: MOST_MOVES }
        } else {
            Cause::TooMany { what: "variables asked", given: asked.len(), most: MOST_ASKED }
        };
        tries.evaluations = judged.map_err(|refused| refused.because(|_| Some(too_many)))?;
        Ok(tries)
    }

    /// Keeps a move: changes the stored values, and gives the number of formulas evaluated. The latest 64 kept moves can be
    /// taken back.
    ///
    /// ```
    /// use lukhandro::{Model, Row};
    ///
    /// let mut sheet = Model::build(&[5, 8, 0], &[Row::over(2, 1, 0)])?;
    /// assert_eq!(sheet.keep(&[(1, 20)])?, 1);
    /// assert_eq!((sheet.value(2), sheet.kept()), (Some(15), 1));
    ///
    /// let refused = sheet.keep(&[(2, 1)]).unwrap_err();
    /// assert_eq!((refused.number, refused.place), (10, 0));
    /// assert_eq!(sheet.kept(), 1);
    /// # Ok::<(), lukhandro::Refused>(())
    /// ```
    ///
    /// # Errors
    /// Refusal 1 for more than 64 pairs, refusals 10 to 12 and 17, and 20 for a move that leads round a closed chain.
    pub fn keep<S: Movable>(&mut self, pairs: &[(S, i32)]) -> Result<u32, Refused> {
        let moved = Pairs::of(pairs);
        let keep = Keep {
            numbers: &self.numbers,
            order: &self.order,
            stored: &mut self.stored,
            reader_starts: &self.reader_starts,
            reader_places: &self.reader_places,
            reasons: &mut self.reasons,
            moved: moved.lent(),
            flags: &mut self.flags,
            log_sizes: &mut self.log_sizes,
            log_vars: &mut self.log_vars,
            log_values: &mut self.log_values,
        };
        let kept = lent::keep(&mut self.session, tables_of!(self), bounds_of!(self), keep).judged();
        kept.map_err(|refused| self.refused_move(pairs, NOTHING_ASKED, refused))
    }

    /// The refusal of a move with its cause.
    fn refused_move<S: Movable, V: Variable>(&self, pairs: &[(S, i32)], asked: &[V], refused: Refused) -> Refused {
        let pairs: Vec<(u16, i32)> = pairs.iter().map(|&(variable, value)| (variable.variable(), value)).collect();
        let asked: Vec<u16> = asked.iter().map(|&variable| variable.variable()).collect();
        refused.because(|refused| cause::of_move(tables_of!(self), bounds_of!(self), &pairs, &asked, refused))
    }

    /// Takes the latest kept move back: the stored values are those before it again, and so are their reasons. Gives the
    /// number of formulas evaluated.
    ///
    /// ```
    /// use lukhandro::{Model, Row};
    ///
    /// let mut sheet = Model::build(&[5, 8, 0], &[Row::over(2, 1, 0)])?;
    /// sheet.keep(&[(1, 20)])?;
    /// sheet.keep(&[(0, 0), (1, 30)])?;
    /// assert_eq!((sheet.value(2), sheet.kept(), sheet.logged()), (Some(30), 2, 2));
    ///
    /// sheet.take_back()?;
    /// assert_eq!((sheet.value(2), sheet.kept(), sheet.logged()), (Some(15), 1, 1));
    /// sheet.take_back()?;
    /// assert_eq!(sheet.stored(), [5, 8, 3]);
    ///
    /// let refused = sheet.take_back().unwrap_err();
    /// assert_eq!((refused.number, refused.place), (15, 0));
    /// # Ok::<(), lukhandro::Refused>(())
    /// ```
    ///
    /// # Errors
    /// Refusal 15 if no move is left to take back.
    pub fn take_back(&mut self) -> Result<u32, Refused> {
        let back = TakeBack {
            numbers: &self.numbers,
            order: &self.order,
            stored: &mut self.stored,
            reader_starts: &self.reader_starts,
            reader_places: &self.reader_places,
            reasons: &mut self.reasons,
            flags: &mut self.flags,
            log_sizes: &mut self.log_sizes,
            log_vars: &self.log_vars,
            log_values: &self.log_values,
        };
        lent::take_back(&mut self.session, tables_of!(self), bounds_of!(self), back).judged()
    }

    /// The model's file of version 1, which starts from the values that search variables have now. It has no bounds.
    ///
    /// # Errors
    /// None for a model that was built.
    pub fn write(&self) -> Result<Vec<u8>, Refused> {
        let tables = tables_of!(self);
        let mut bytes = vec![0; 24 + 4 * tables.n + 12 * tables.m + 4 * tables.e];
        lent::write(tables, &self.starts(), &mut bytes).judged()?;
        Ok(bytes)
    }

    /// The model's file of version 2: that of version 1, and the bounds.
    ///
    /// # Errors
    /// None for a model that was built.
    pub fn write_bounded(&self) -> Result<Vec<u8>, Refused> {
        let tables = tables_of!(self);
        let mut bytes = vec![0; 28 + 12 * tables.n + 12 * tables.m + 4 * tables.e];
        lent::write_bounded(tables, &self.starts(), bounds_of!(self), &mut bytes).judged()?;
        Ok(bytes)
    }

    /// The values that search variables have now, and 0 for those that a row makes.
    fn starts(&self) -> Vec<i32> {
        let start = |(&value, &number): (&i32, &u16)| if number == 0 { value } else { 0 };
        self.stored.iter().zip(&self.numbers).map(start).collect()
    }

    /// The value of a variable; none if it is blank or there is no such variable.
    #[must_use]
    pub fn value(&self, variable: impl Variable) -> Option<i32> {
        self.stored.get(usize::from(variable.variable())).copied().filter(|&value| value != BLANK)
    }

    /// Why a variable is blank; none if it has a value, or there is no such variable.
    ///
    /// ```
    /// use lukhandro::{Model, Reason, Row};
    ///
    /// // The departures of a window, the last of them, and the one that an index chooses.
    /// let rows = [Row::departures(4, 0, 1, 2), Row::last(5, 0, 1, 2), Row::element(6, 3, &[4, 5])];
    /// let mut sheet = Model::build(&[25200, 25200, 600, 1, 0, 0, 0], &rows)?;
    /// assert_eq!((sheet.value(4), sheet.reason(4)), (Some(0), None));
    /// assert_eq!((sheet.value(5), sheet.reason(5)), (None, Some(Reason::NoDepartures)));
    /// assert_eq!((sheet.value(6), sheet.reason(6)), (None, Some(Reason::BlankInput)));
    ///
    /// sheet.keep(&[(3, 2)])?;
    /// assert_eq!(sheet.reason(6), Some(Reason::IndexOutside));
    /// # Ok::<(), lukhandro::Refused>(())
    /// ```
    #[must_use]
    pub fn reason(&self, variable: impl Variable) -> Option<Reason> {
        self.reasons.get(usize::from(variable.variable())).copied().and_then(Reason::of)
    }

    /// The reasons of all variables, a byte for each: 0 for one that is not blank, else the number of its [`Reason`].
    #[must_use]
    pub fn reasons(&self) -> &[u8] {
        &self.reasons
    }

    /// The lowest and the highest number that a variable may be moved to; none if there is no such variable.
    #[must_use]
    pub fn bounds(&self, variable: impl Variable) -> Option<(i32, i32)> {
        let variable = usize::from(variable.variable());
        if variable >= self.numbers.len() {
            return None;
        }
        Some((*self.lows.get(variable)?, *self.highs.get(variable)?))
    }

    /// All values, one for each variable; [`BLANK`] is no value.
    #[must_use]
    pub fn stored(&self) -> &[i32] {
        &self.stored
    }

    /// The topological number of each variable: 0 for a search variable, else 1 plus the greatest of its inputs'.
    #[must_use]
    pub fn numbers(&self) -> &[u16] {
        &self.numbers
    }

    /// The rows by the number of the variable made, ties by row.
    #[must_use]
    pub fn order(&self) -> &[u16] {
        &self.order
    }

    /// The rows that read a variable, ascending; none if there is no such variable.
    ///
    /// ```
    /// use lukhandro::{Model, Row};
    ///
    /// let sheet = Model::build(&[5, 8, 0, 0], &[Row::over(2, 1, 0), Row::max(3, &[0, 2, 0])])?;
    /// assert_eq!(sheet.readers(0), [0, 1]);
    /// # Ok::<(), lukhandro::Refused>(())
    /// ```
    #[must_use]
    pub fn readers(&self, variable: impl Variable) -> &[u16] {
        match self.reader_starts.get(usize::from(variable.variable())..) {
            Some(&[start, end, ..]) => &self.reader_places[usize::from(start)..usize::from(end)],
            _ => &[],
        }
    }

    /// The input variables of a row, one for each place; none if there is no such row.
    ///
    /// ```
    /// use lukhandro::{Model, Row};
    ///
    /// let sheet = Model::build(&[5, 8, 0, 0], &[Row::over(2, 1, 0), Row::max(3, &[0, 2, 0])])?;
    /// assert_eq!(sheet.inputs(1), [0, 2, 0]);
    /// # Ok::<(), lukhandro::Refused>(())
    /// ```
    #[must_use]
    pub fn inputs(&self, row: u16) -> &[u16] {
        let Tables { m, e, firsts, counts, vars, .. } = tables_of!(self);
        lent::inputs_of_row(m, e, firsts, counts, vars, row.into())
    }

    /// A row: its formula, the variable that it makes, its parameter and its inputs with their coefficients.
    ///
    /// ```
    /// use lukhandro::{Kind, Model, Row};
    ///
    /// let rows = [Row::over(2, 1, 0), Row::linear(3, 7, &[(2, 4)])];
    /// let sheet = Model::build(&[5, 8, 0, 0], &rows)?;
    /// assert_eq!(sheet.rows().collect::<Vec<Row>>(), rows);
    /// assert_eq!(sheet.row(1).map(|row| (row.kind, row.parameter)), Some((Kind::Linear, 7)));
    /// assert_eq!((sheet.maker(3), sheet.maker(0)), (Some(1), None));
    /// # Ok::<(), lukhandro::Refused>(())
    /// ```
    #[must_use]
    pub fn row(&self, row: u16) -> Option<Row> {
        let at = usize::from(row);
        let entries =
            self.inputs(row).iter().copied().zip(self.coefs.get(usize::from(*self.firsts.get(at)?)..)?.iter().copied());
        let kind = Kind::of(*self.kinds.get(at)?)?;
        Some(Row { kind, makes: self.makes[at], parameter: self.params[at], entries: entries.collect() })
    }

    /// All rows, in their order.
    pub fn rows(&self) -> impl Iterator<Item = Row> + '_ {
        (0..self.kinds.len() as u16).filter_map(|row| self.row(row))
    }

    /// The row that makes a variable; none of a search variable, or if there is no such variable.
    #[must_use]
    pub fn maker(&self, variable: impl Variable) -> Option<u16> {
        self.makes.iter().position(|&makes| makes == variable.variable()).map(|row| row as u16)
    }

    /// The name under which a [`Builder`](crate::Builder) has a variable; none if it gave it none.
    #[must_use]
    pub fn name(&self, variable: impl Variable) -> Option<&str> {
        let name = self.names.get(usize::from(variable.variable()))?;
        Some(name.as_str()).filter(|name| !name.is_empty())
    }

    /// The variable that a [`Builder`](crate::Builder) has under a name, the first if there are several.
    #[must_use]
    pub fn named(&self, name: &str) -> Option<u16> {
        self.names.iter().position(|other| other == name).map(|variable| variable as u16)
    }

    /// The model with the names of its variables.
    pub(crate) fn with_names(self, names: Vec<String>) -> Model {
        Model { names, ..self }
    }

    /// Moves kept and not taken back.
    #[must_use]
    pub fn kept(&self) -> u32 {
        self.session.kept
    }

    /// How many kept moves can be taken back.
    #[must_use]
    pub fn logged(&self) -> usize {
        self.log_sizes[0].into()
    }

    /// Evaluations of the last accepted call.
    #[must_use]
    pub fn evaluations(&self) -> u32 {
        self.session.evaluations
    }

    /// How many variables are blank now.
    ///
    /// ```
    /// use lukhandro::{Model, Row};
    ///
    /// let mut sheet = Model::build(&[25200, 28800, 600, 0, 0], &[Row::departures(3, 0, 1, 2), Row::last(4, 0, 1, 2)])?;
    /// assert_eq!(sheet.blanks(), 0);
    /// sheet.keep(&[(2, 0)])?; // a headway of 0: neither departures nor a last one
    /// assert_eq!(sheet.blanks(), 2);
    /// sheet.take_back()?;
    /// assert_eq!(sheet.blanks(), 0);
    /// # Ok::<(), lukhandro::Refused>(())
    /// ```
    #[must_use]
    pub fn blanks(&self) -> u32 {
        self.session.blanks
    }

    /// A model without rows whose buffers have room for n variables and m rows.
    fn empty(n: usize, m: usize) -> Model {
        Model {
            session: Session::default(),
            kinds: Vec::with_capacity(m),
            makes: Vec::with_capacity(m),
            params: Vec::with_capacity(m),
            firsts: Vec::with_capacity(m),
            counts: Vec::with_capacity(m),
            vars: Vec::new(),
            coefs: Vec::new(),
            lows: vec![LOWEST; n],
            highs: vec![HIGHEST; n],
            numbers: vec![0; n],
            order: vec![0; m],
            stored: vec![0; n],
            reader_starts: vec![0; n + 1],
            reader_places: Vec::new(),
            reasons: vec![0; n],
            results: [0; MOST_ASKED],
            trial: vec![0; n],
            flags: vec![0; n],
            why: [0; MOST_ASKED],
            log_sizes: [0; LOG_SIZES],
            log_vars: vec![0; LOG_PLACES],
            log_values: vec![0; LOG_PLACES],
            names: Vec::new(),
        }
    }

    /// The model with its numbers, order, values, readers and reasons, and an empty log.
    fn built(mut self, starts: &[i32]) -> Result<Model, Refused> {
        self.reader_places.resize(self.vars.len(), 0);
        let tables = Tables { n: starts.len(), ..tables_of!(self) };
        let built = Built {
            numbers: &mut self.numbers,
            order: &mut self.order,
            stored: &mut self.stored,
            reader_starts: &mut self.reader_starts,
            reader_places: &mut self.reader_places,
            reasons: &mut self.reasons,
            log_sizes: &mut self.log_sizes,
        };
        let judged = lent::build(&mut self.session, tables, bounds_of!(self), starts, built).judged();
        judged.map_err(|refused| {
            let tables = Tables { n: starts.len(), ..tables_of!(self) };
            refused.because(|refused| cause::of_build(tables, bounds_of!(self), starts, refused))
        })?;
        Ok(self)
    }
}

/// A move as two rows. Of more pairs than a move may have only the number is kept: the call refuses it.
struct Pairs {
    pairs: usize,
    vars: [u16; MOST_PAIRS],
    values: [i32; MOST_PAIRS],
}

impl Pairs {
    fn of<S: Movable>(pairs: &[(S, i32)]) -> Pairs {
        let mut moved = Pairs { pairs: pairs.len(), vars: [0; MOST_PAIRS], values: [0; MOST_PAIRS] };
        for ((variable, value), &(moves, to)) in moved.vars.iter_mut().zip(&mut moved.values).zip(pairs) {
            (*variable, *value) = (moves.variable(), to);
        }
        moved
    }

    fn lent(&self) -> Move<'_> {
        Move { pairs: self.pairs, vars: &self.vars, values: &self.values }
    }
}
