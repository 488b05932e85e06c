//! Groups of variables that depend on each other, for models with a closed chain: which chains are not permitted, and
//! the topological numbers.
//!
//! A link leads from a made variable to each input of its row. A closed chain may pass through candidates of ELEMENT, at
//! least one, and through no index. It may pass a variable more than once, so an index link inside a group spoils every
//! chain that can be led through it: all variables of the group are on one.

use crate::formulas::ELEMENT;
use crate::order::Numbers;
use crate::parts::{Row, row_of};
use crate::readers::Readers;
use lent::Tables;

/// The links of a model, or those alone that no row of ELEMENT has.
#[derive(Clone, Copy)]
struct Links<'a> {
    tables: &'a Tables<'a>,
    makers: &'a [u16],
    readers: Readers<'a>,
    elements: bool,
}

impl<'a> Links<'a> {
    /// The row that makes a variable, if its links count.
    fn maker(&self, variable: usize) -> Option<Row<'a>> {
        let row = usize::from(self.makers[variable]).checked_sub(1)?;
        self.counts(row).then(|| row_of(self.tables, row))
    }

    fn counts(&self, row: usize) -> bool {
        self.elements || self.tables.kinds[row] != ELEMENT
    }

    /// The variables that a variable is made from.
    fn inputs(&self, variable: usize) -> &'a [u16] {
        self.maker(variable).map_or(&[], |row| row.vars)
    }

    /// All variables, each behind those made from it unless they lead to it in turn.
    fn last_made_first(&self) -> Vec<usize> {
        let mut seen = vec![false; self.tables.n];
        let mut done = Vec::with_capacity(self.tables.n);
        let mut open = Vec::new();
        for first in 0..self.tables.n {
            if !std::mem::replace(&mut seen[first], true) {
                open.push((first, self.readers.of(first).iter()));
            }
            while let Some((variable, ahead)) = open.last_mut() {
                let made = |&row: &u16| usize::from(self.tables.makes[usize::from(row)]);
                match ahead.find(|&row| self.counts(usize::from(*row)) && !seen[made(row)]) {
                    Some(row) => {
                        seen[made(row)] = true;
                        open.push((made(row), self.readers.of(made(row)).iter()));
                    }
                    None => {
                        done.push(*variable);
                        open.pop();
                    }
                }
            }
        }
        done
    }
}

/// A variable that is in no group yet.
const ALONE: usize = usize::MAX;

/// The groups: each variable's own, and the members of each. A group stands behind those that its members are made from.
struct Groups {
    of: Vec<usize>,
    members: Vec<Vec<usize>>,
}

impl Groups {
    /// From the variable that is left and last finished, whatever leads back to it is of its group.
    fn of(links: Links<'_>) -> Groups {
        let mut groups = Groups { of: vec![ALONE; links.tables.n], members: Vec::new() };
        for &first in links.last_made_first().iter().rev() {
            if groups.of[first] == ALONE {
                groups.gather(links, first);
            }
        }
        groups
    }

    /// The next group, which has this member.
    fn gather(&mut self, links: Links<'_>, first: usize) {
        let group = self.members.len();
        self.of[first] = group;
        let mut members = vec![first];
        let mut looked = 0;
        while let Some(&variable) = members.get(looked) {
            looked += 1;
            for &input in links.inputs(variable) {
                let of = &mut self.of[usize::from(input)];
                if *of == ALONE {
                    *of = group;
                    members.push(input.into());
                }
            }
        }
        self.members.push(members);
    }

    /// Whether two variables are in one group.
    fn together(&self, one: usize, other: usize) -> bool {
        self.of[one] == self.of[other]
    }

    /// Whether a variable and some variable that it is made from are in one group.
    fn closes(&self, links: Links<'_>, variable: usize) -> bool {
        links.inputs(variable).iter().any(|&input| self.together(variable, input.into()))
    }
}

/// The numbers of the variables, search variables 0: 1 plus the greatest among the inputs of all members of a variable's
/// group that are outside it. Checks 2 to 5 have passed.
///
/// # Errors
/// The least variable on a closed chain that is not permitted.
pub(crate) fn numbers(tables: &Tables<'_>, makers: &[u16], readers: Readers<'_>) -> Result<Numbers, usize> {
    let links = Links { tables, makers, readers, elements: true };
    let groups = Groups::of(links);
    if let Some(least) = least_barred(links, &groups) {
        return Err(least);
    }
    let mut numbers = vec![0; tables.n];
    for (group, members) in groups.members.iter().enumerate() {
        let inputs = members.iter().flat_map(|&member| links.inputs(member)).map(|&input| usize::from(input));
        let outside = inputs.filter(|&input| groups.of[input] != group).map(|input| numbers[input]).max();
        for &member in members.iter().filter(|&&member| makers[member] != 0) {
            numbers[member] = 1 + outside.unwrap_or(0);
        }
    }
    Ok(numbers)
}

/// The least variable on a closed chain that is not permitted: one that passes an index, or no candidate.
fn least_barred(links: Links<'_>, groups: &Groups) -> Option<usize> {
    let index_inside = |&member: &usize| {
        let element = links.maker(member).filter(|row| row.kind == ELEMENT);
        element.is_some_and(|row| groups.together(member, row.vars[0].into()))
    };
    let indexed: Vec<bool> = groups.members.iter().map(|members| members.iter().any(index_inside)).collect();
    let plain = Links { elements: false, ..links };
    let without_candidates = Groups::of(plain);
    let barred = |&variable: &usize| indexed[groups.of[variable]] || without_candidates.closes(plain, variable);
    (0..links.tables.n).find(barred)
}
