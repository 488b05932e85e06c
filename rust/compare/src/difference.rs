//! Two engines on one case.

use std::fmt;

use crate::{Answer, Case, Engine};

/// What one engine made of a case.
#[derive(Clone, Debug)]
pub struct Side {
    /// What came back.
    pub answer: Answer,
    /// The case as the call left it.
    pub left: Case,
}

impl Side {
    /// The answer of one engine to a case.
    #[must_use]
    pub fn of(engine: &dyn Engine, case: &Case) -> Side {
        let mut left = case.clone();
        let answer = engine.answer(&mut left);
        Side { answer, left }
    }
}

/// A case on which two engines differ.
#[derive(Clone, Debug)]
pub struct Difference {
    /// What both were lent.
    pub case: Case,
    /// What the first made of it.
    pub one: Side,
    /// What the second made of it.
    pub other: Side,
}

/// Lets two engines answer the same case, and gives what both made of it.
///
/// # Errors
/// A difference, unless the answer, the record, every buffer and every guard are equal.
pub fn agreed(one: &dyn Engine, other: &dyn Engine, case: &Case) -> Result<Side, Box<Difference>> {
    let (one, other) = (Side::of(one, case), Side::of(other, case));
    if one.answer == other.answer && one.left == other.left && one.left.intact() {
        return Ok(one);
    }
    Err(Box::new(Difference { case: case.clone(), one, other }))
}

/// Lets two engines answer the same case, and gives the answer on which they agree.
///
/// # Errors
/// A difference, as [`agreed`] finds it.
pub fn compare(one: &dyn Engine, other: &dyn Engine, case: &Case) -> Result<Answer, Box<Difference>> {
    agreed(one, other, case).map(|side| side.answer)
}

impl fmt::Display for Difference {
    fn fmt(&self, f: &mut fmt::Formatter<'_>) -> fmt::Result {
        let lent = self.case.fields();
        writeln!(f, "lent:")?;
        for (name, held) in lent.iter().filter(|(_, held)| held != "[]") {
            writeln!(f, "    {name}: {held}")?;
        }
        for (engine, side) in [("one", &self.one), ("the other", &self.other)] {
            writeln!(f, "{engine} answers {:?}", side.answer)?;
            for ((name, held), (_, before)) in side.left.fields().iter().zip(&lent) {
                if held != before {
                    writeln!(f, "    and leaves {name}: {held}")?;
                }
            }
            if !side.left.intact() {
                writeln!(f, "    and hurts a guard")?;
            }
        }
        Ok(())
    }
}
