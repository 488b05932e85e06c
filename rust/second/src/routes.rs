//! The three routes, over values that hold the stored ones with the move made in them.

use crate::checks::Makers;
use crate::formulas::{ELEMENT, chosen, row_value};
use crate::parts::{Row, pairs_of, row_of, rows_of};
use crate::readers::Readers;
use lent::{Move, Tables};

/// Makes a move in a row of values, and gives the variables that it changed.
pub(crate) fn make_move(moved: &Move<'_>, values: &mut [i32]) -> Vec<usize> {
    let mut changed = Vec::with_capacity(moved.pairs);
    for (variable, value) in pairs_of(moved) {
        if std::mem::replace(&mut values[variable], value) != value {
            changed.push(variable);
        }
    }
    changed
}

/// The values of a build: every row along the order.
pub(crate) fn fill_values(tables: &Tables<'_>, order: &[u16], values: &mut [i32]) {
    for &row in order {
        let row = row_of(tables, usize::from(row));
        values[row.makes] = row_value(&row, values);
    }
}

/// Rows that are to have their turn.
struct Due {
    rows: Vec<bool>,
    left: usize,
}

impl Due {
    /// Lets these rows have their turn.
    fn call(&mut self, rows: &[u16]) {
        for &row in rows {
            self.left += usize::from(!std::mem::replace(&mut self.rows[usize::from(row)], true));
        }
    }
}

/// Route 1: what changes calls its readers, and the rows that are called have their turn along the order, until none is
/// left. Gives the number evaluated.
pub(crate) fn sweep(
    tables: &Tables<'_>,
    order: &[u16],
    readers: Readers<'_>,
    changed: &[usize],
    values: &mut [i32],
    flags: &mut [u8],
) -> u32 {
    let mut due = Due { rows: vec![false; tables.m], left: 0 };
    changed.iter().for_each(|&variable| due.call(readers.of(variable)));
    let mut evaluations = 0;
    let mut ahead = order.iter();
    while due.left > 0 {
        let Some(&row) = ahead.find(|&&row| due.rows[usize::from(row)]) else { break };
        let row = row_of(tables, usize::from(row));
        let value = row_value(&row, values);
        if std::mem::replace(&mut values[row.makes], value) != value {
            due.call(readers.of(row.makes));
        }
        flags[row.makes] = 1;
        evaluations += 1;
        due.left -= 1;
    }
    evaluations
}

/// Route 1 where there is a closed chain: flags the variables of the rows with some input, chosen or not, whose new value
/// differs from the stored one.
pub(crate) fn flag_differing(tables: &Tables<'_>, stored: &[i32], new: &[i32], flags: &mut [u8]) {
    for row in rows_of(tables) {
        let differs = |&variable: &u16| stored[usize::from(variable)] != new[usize::from(variable)];
        flags[row.makes] = u8::from(row.vars.iter().any(differs));
    }
}

/// Takes over the new values of the variables that are flagged, and gives their number.
pub(crate) fn take_over(new: &[i32], values: &mut [i32], flags: &[u8]) -> u32 {
    let mut evaluations = 0;
    for ((value, &new), _) in values.iter_mut().zip(new).zip(flags).filter(|&(_, &flag)| flag == 1) {
        *value = new;
        evaluations += 1;
    }
    evaluations
}

/// For route 3: the makers of the marked variables alone, so that all others keep what they have. A made variable is
/// marked once it has a maker here.
pub(crate) fn marked(tables: &Tables<'_>, readers: Readers<'_>, changed: Vec<usize>) -> Makers {
    let mut makers = vec![0; tables.n];
    let mut reached = changed;
    while let Some(variable) = reached.pop() {
        for &row in readers.of(variable) {
            let made = usize::from(tables.makes[usize::from(row)]);
            if makers[made] == 0 {
                makers[made] = row + 1;
                reached.push(made);
            }
        }
    }
    makers
}

/// Routes 2 and 3: variables are worked out as they are asked, each once.
pub(crate) struct Asking<'a> {
    pub tables: &'a Tables<'a>,
    /// The makers of variables that are still to be worked out if they are needed.
    pub waiting: Makers,
    pub values: &'a mut [i32],
    pub flags: &'a mut [u8],
}

/// A row that is asked, and how many places of its part were looked at.
struct Pending<'a> {
    row: Row<'a>,
    looked: usize,
}

impl<'a> Asking<'a> {
    /// Asks one variable, and with it all that it needs. Gives the number evaluated.
    pub(crate) fn ask(&mut self, variable: u16) -> u32 {
        let mut evaluations = 0;
        let mut pending = Vec::from_iter(self.asked(variable));
        while let Some(last) = pending.last_mut() {
            if let Some(input) = self.next_input(last) {
                pending.push(input);
            } else {
                let row = last.row;
                self.evaluate(&row);
                evaluations += 1;
                pending.pop();
            }
        }
        evaluations
    }

    /// The row to ask for this variable, if it is still to be worked out.
    fn asked(&self, variable: u16) -> Option<Pending<'a>> {
        let row = usize::from(self.waiting[usize::from(variable)]).checked_sub(1)?;
        Some(Pending { row: row_of(self.tables, row), looked: 0 })
    }

    /// The next input that the row needs and that is still to be worked out.
    fn next_input(&self, pending: &mut Pending<'a>) -> Option<Pending<'a>> {
        let vars = pending.row.vars;
        if pending.row.kind == ELEMENT {
            return self.asked(vars[0]).or_else(|| self.asked(vars[chosen(&pending.row, self.values)?]));
        }
        while let Some(&variable) = vars.get(pending.looked) {
            pending.looked += 1;
            if let Some(input) = self.asked(variable) {
                return Some(input);
            }
        }
        None
    }

    /// Works a row out; the variable that it makes waits no more.
    fn evaluate(&mut self, row: &Row<'_>) {
        self.values[row.makes] = row_value(row, self.values);
        self.flags[row.makes] = 1;
        self.waiting[row.makes] = 0;
    }
}
