//! A model laid out by names: what is added gives a handle, and handles are what formulas are made of.
//!
//! ```
//! use lukhandro::Route;
//! use lukhandro::builder::{Builder, departures, last, linear, search};
//!
//! let mut day = Builder::new();
//! let start = day.add(search("start", 25200)); // 7:00, in seconds since midnight
//! let end = day.add(search("end", 28800)); // 8:00, at which nothing departs any more
//! let headway = day.add(search("headway", 600).within(60..=7200));
//! let trips = day.add(departures(start, end, headway).named("trips"));
//! let crews = day.add(linear(2, [(4, trips)]).named("crews"));
//! let mut sheet = day.build()?;
//! assert_eq!((sheet.value(trips), sheet.value(crews)), (Some(6), Some(26)));
//!
//! let tried = sheet.trial(&[(headway, 720)], &[trips, crews], Route::MarkGuided)?;
//! assert_eq!((tried.value(0), tried.value(1)), (Some(5), Some(22)));
//!
//! let refused = sheet.keep(&[(headway, 72_000)]).unwrap_err();
//! assert_eq!(refused.to_string(), "refused 17 0: variable 2 may be from 60 to 7200, and 72000 is outside");
//! # Ok::<(), lukhandro::Refused>(())
//! ```
//!
//! A handle is a number with a type. Only a [`Search`] can be moved, so that `keep(&[(trips, 1)])` does not compile; both
//! can be read and be inputs. Where a list mixes them each becomes a [`Var`]: `max([Var::from(start), Var::from(trips)])`.
//!
//! Variables that lead to each other, as those of interlined trips do, begin with [`Builder::later`]: it gives the handle
//! first, and [`Builder::make`] the formula afterwards.

use std::ops::RangeInclusive;

use crate::{FULL, Kind, Model, Refused, Row};

/// What names a variable: a number, or a handle that a [`Builder`] gave.
pub trait Variable: Copy {
    /// The number of the variable.
    fn variable(self) -> u16;
}

/// What names a variable that may be moved: a number, which the call judges, or a [`Search`].
pub trait Movable: Variable {}

impl Variable for u16 {
    fn variable(self) -> u16 {
        self
    }
}

impl Movable for u16 {}

macro_rules! handle {
    ($(#[$doc:meta])+ $name:ident) => {
        $(#[$doc])+
        #[derive(Clone, Copy, Debug, PartialEq, Eq, PartialOrd, Ord, Hash)]
        pub struct $name(u16);

        impl Variable for $name {
            fn variable(self) -> u16 {
                self.0
            }
        }
    };
}

handle!(
    /// A search variable: one that moves set.
    Search
);
handle!(
    /// A made variable: one whose value a formula gives.
    Made
);
handle!(
    /// A variable of either sort, for lists that have both.
    Var
);

impl Movable for Search {}

impl From<Search> for Var {
    fn from(Search(variable): Search) -> Var {
        Var(variable)
    }
}

impl From<Made> for Var {
    fn from(Made(variable): Made) -> Var {
        Var(variable)
    }
}

/// A search variable that is to be added.
#[derive(Clone, Debug)]
#[must_use = "it is no variable until it is added"]
pub struct NewSearch {
    name: String,
    start: i32,
    bounds: (i32, i32),
}

/// A search variable with a name and a start value, which may be moved to any number.
pub fn search(name: impl Into<String>, start: i32) -> NewSearch {
    NewSearch { name: name.into(), start, bounds: FULL }
}

impl NewSearch {
    /// The same, held to the numbers from the lowest to the highest.
    pub fn within(self, bounds: RangeInclusive<i32>) -> NewSearch {
        NewSearch { bounds: bounds.into_inner(), ..self }
    }
}

/// A formula that is to be added, and then makes a variable.
#[derive(Clone, Debug)]
#[must_use = "it makes no variable until it is added"]
pub struct Formula {
    name: String,
    kind: Kind,
    parameter: i32,
    entries: Vec<(u16, i16)>,
}

impl Formula {
    /// The same, under a name.
    pub fn named(self, name: impl Into<String>) -> Formula {
        Formula { name: name.into(), ..self }
    }

    fn of(kind: Kind, parameter: i32, entries: Vec<(u16, i16)>) -> Formula {
        Formula { name: String::new(), kind, parameter, entries }
    }

    fn plain<V: Variable>(kind: Kind, parameter: i32, inputs: impl IntoIterator<Item = V>) -> Formula {
        Formula::of(kind, parameter, inputs.into_iter().map(|input| (input.variable(), 1)).collect())
    }
}

/// Parameter plus the sum of coefficient times variable.
pub fn linear<V: Variable>(parameter: i32, terms: impl IntoIterator<Item = (i16, V)>) -> Formula {
    let entries = terms.into_iter().map(|(coefficient, variable)| (variable.variable(), coefficient));
    Formula::of(Kind::Linear, parameter, entries.collect())
}

/// The least input that has a value.
pub fn min<V: Variable>(inputs: impl IntoIterator<Item = V>) -> Formula {
    Formula::plain(Kind::Min, 0, inputs)
}

/// The greatest input that has a value.
pub fn max<V: Variable>(inputs: impl IntoIterator<Item = V>) -> Formula {
    Formula::plain(Kind::Max, 0, inputs)
}

/// The candidate that an index from 0 chooses.
pub fn element<V: Variable>(index: impl Variable, candidates: impl IntoIterator<Item = V>) -> Formula {
    let candidates = candidates.into_iter().map(Variable::variable);
    Formula::plain(Kind::Element, 0, [index.variable()].into_iter().chain(candidates))
}

/// How many places hold a value that another place also holds: clashes.
pub fn shared<V: Variable>(inputs: impl IntoIterator<Item = V>) -> Formula {
    Formula::plain(Kind::Shared, 0, inputs)
}

/// How many inputs equal a number.
pub fn count<V: Variable>(number: i32, inputs: impl IntoIterator<Item = V>) -> Formula {
    Formula::plain(Kind::Count, number, inputs)
}

/// How far a lies over b, 0 if it does not.
pub fn over(a: impl Variable, b: impl Variable) -> Formula {
    Formula::plain(Kind::Over, 0, [a.variable(), b.variable()])
}

/// How many departures a window has: from its start, every headway, strictly before its end.
pub fn departures(start: impl Variable, end: impl Variable, headway: impl Variable) -> Formula {
    Formula::plain(Kind::Departures, 0, [start.variable(), end.variable(), headway.variable()])
}

/// The last departure of a window.
pub fn last(start: impl Variable, end: impl Variable, headway: impl Variable) -> Formula {
    Formula::plain(Kind::Last, 0, [start.variable(), end.variable(), headway.variable()])
}

/// What can be added to a model, and the handle that it gives.
pub trait Part {
    /// The handle.
    type Handle;
    /// Adds it.
    fn add_to(self, builder: &mut Builder) -> Self::Handle;
}

impl Part for NewSearch {
    type Handle = Search;
    fn add_to(self, builder: &mut Builder) -> Search {
        Search(builder.variable(self.name, self.start, self.bounds))
    }
}

impl Part for Formula {
    type Handle = Made;
    fn add_to(mut self, builder: &mut Builder) -> Made {
        let made = builder.later(std::mem::take(&mut self.name));
        builder.make(made, self);
        made
    }
}

/// A model that is being laid out: variables in the order in which they are added, and rows likewise.
#[derive(Clone, Debug, Default)]
pub struct Builder {
    names: Vec<String>,
    starts: Vec<i32>,
    bounds: Vec<(i32, i32)>,
    rows: Vec<Row>,
}

impl Builder {
    /// A model without variables.
    #[must_use]
    pub fn new() -> Builder {
        Builder::default()
    }

    /// Adds a search variable or a formula, and gives the handle of its variable.
    pub fn add<P: Part>(&mut self, part: P) -> P::Handle {
        part.add_to(self)
    }

    /// Adds a variable whose formula comes [later](Builder::make), so that formulas before it may read it.
    ///
    /// ```
    /// use lukhandro::builder::{Builder, Var, element, linear, search};
    ///
    /// // Two trips of one bus: each begins when the depot opens, or where the other ends.
    /// let mut day = Builder::new();
    /// let depot = day.add(search("the depot opens", 25200));
    /// let [first, second] = ["first waits for", "second waits for"].map(|name| day.add(search(name, 0).within(0..=1)));
    /// let end = day.later("second ends");
    /// let begins = day.add(element(first, [Var::from(depot), Var::from(end)]));
    /// let ends = day.add(linear(2400, [(1, begins)]));
    /// let after = day.add(element(second, [Var::from(depot), Var::from(ends)]));
    /// day.make(end, linear(1800, [(1, after)]));
    ///
    /// let mut bus = day.build()?;
    /// bus.keep(&[(second, 1)])?;
    /// assert_eq!(bus.value(end), Some(29400));
    /// assert_eq!(bus.keep(&[(first, 1)]).unwrap_err().number, 20); // each would wait for the other
    /// # Ok::<(), lukhandro::Refused>(())
    /// ```
    pub fn later(&mut self, name: impl Into<String>) -> Made {
        Made(self.variable(name.into(), 0, FULL))
    }

    /// The formula of a variable that was to be made later; the name of the formula counts if it has one.
    pub fn make(&mut self, made: Made, formula: Formula) {
        let Formula { name, kind, parameter, entries } = formula;
        if let Some(named) = self.names.get_mut(usize::from(made.0)).filter(|_| !name.is_empty()) {
            *named = name;
        }
        self.rows.push(Row { kind, makes: made.0, parameter, entries });
    }

    /// Builds the model.
    ///
    /// # Errors
    /// Refusals 1 to 7, and 20 if the start values lead round a closed chain.
    pub fn build(&self) -> Result<Model, Refused> {
        Ok(Model::build_within(&self.starts, &self.bounds, &self.rows)?.with_names(self.names.clone()))
    }

    /// Adds a variable. Of more than a model may have only their number counts, and build refuses it.
    fn variable(&mut self, name: String, start: i32, bounds: (i32, i32)) -> u16 {
        let variable = u16::try_from(self.starts.len()).unwrap_or(u16::MAX);
        self.names.push(name);
        self.starts.push(start);
        self.bounds.push(bounds);
        variable
    }
}
