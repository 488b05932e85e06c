//! Values worked out by following the choices: of an ELEMENT the index is needed, and then the chosen candidate alone.

use crate::BLANK;
use crate::formulas::{ELEMENT, chosen, row_value};
use crate::parts::row_of;
use crate::readers::Readers;
use lent::Tables;

/// The values as far as they are determined.
pub(crate) struct Afresh<'a> {
    tables: &'a Tables<'a>,
    /// The values; blank where none is known.
    pub values: Vec<i32>,
    known: Vec<bool>,
    /// How many inputs of each row are not known, a variable that stands twice counted once.
    lacking: Vec<u16>,
}

impl<'a> Afresh<'a> {
    /// What is determined by the values of the search variables, those without a maker. Checks 2 to 5 have passed.
    ///
    /// Whatever comes to be known lets its readers look whether they now can be worked out; what then is left needs
    /// itself, or something that does.
    pub(crate) fn of(tables: &'a Tables<'a>, makers: &[u16], readers: Readers<'_>, search: &[i32]) -> Afresh<'a> {
        let known: Vec<bool> = makers.iter().map(|&maker| maker == 0).collect();
        let values = search.iter().zip(&known).map(|(&value, &known)| if known { value } else { BLANK }).collect();
        let mut lacking = vec![0; tables.m];
        for &made in tables.makes {
            readers.of(made.into()).iter().for_each(|&row| lacking[usize::from(row)] += 1);
        }
        let mut afresh = Afresh { tables, values, known, lacking };
        let mut ready: Vec<usize> = (0..tables.m).filter(|&row| afresh.is_ready(row)).collect();
        while let Some(row) = ready.pop() {
            let row = row_of(tables, row);
            if std::mem::replace(&mut afresh.known[row.makes], true) {
                continue;
            }
            afresh.values[row.makes] = row_value(&row, &afresh.values);
            for &reader in readers.of(row.makes) {
                let reader = usize::from(reader);
                afresh.lacking[reader] -= 1;
                if afresh.is_ready(reader) {
                    ready.push(reader);
                }
            }
        }
        afresh
    }

    /// Whether all that a row needs is known.
    fn is_ready(&self, row: usize) -> bool {
        if self.tables.kinds[row] != ELEMENT {
            return self.lacking[row] == 0;
        }
        let row = row_of(self.tables, row);
        let known = |place: usize| self.known[usize::from(row.vars[place])];
        known(0) && chosen(&row, &self.values).is_none_or(known)
    }

    /// The least variable that is not determined.
    pub(crate) fn first_unknown(&self) -> Option<usize> {
        self.known.iter().position(|&known| !known)
    }

    /// The least variable that is not determined or has another value than here.
    pub(crate) fn first_other(&self, stored: &[i32]) -> Option<usize> {
        (0..self.values.len()).find(|&variable| !self.known[variable] || self.values[variable] != stored[variable])
    }
}
