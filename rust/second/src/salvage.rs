//! Salvage of a damaged file: what is whole and good in it, as a file that build accepts, and a list of the rest.

use crate::checks::{all_below, fits, weighed};
use crate::file::{ENTRY, HEADER, Layout, ROW, START, counts_in, write};
use crate::formulas::suits;
use crate::order::{UNNUMBERED, numbers_there_are};
use crate::parts::Row;
use crate::readers::Index;
use crate::{BLANK, MOST_ENTRIES, Refused};
use lent::Tables;

/// Fills the front of `file` with what is saved of a damaged file, and the front of `list` with the rows dropped and then
/// the variables whose start value is missing or reset; gives the length of the file and how many of each are listed.
///
/// # Errors
/// Refusal 14 for the header's length, version or counts, then 1 for a short buffer.
pub fn salvage(bytes: &[u8], file: &mut [u8], list: &mut [u16]) -> Result<(usize, usize, usize), Refused> {
    let (n, m, e) = counts_in(bytes)?;
    let given = Given { bytes, n, e, layout: Layout::of(n, m, e) };
    let mut kept = given.kept(m);
    let numbers = {
        let packed = Packed::of(&kept);
        let tables = packed.tables(n);
        numbers_there_are(&tables, Index::of(&tables).readers())
    };
    kept.retain(|row| numbers[usize::from(row.makes)] != UNNUMBERED);
    let packed = Packed::of(&kept);
    let tables = packed.tables(n);
    let mut made = vec![false; n];
    packed.makes.iter().for_each(|&variable| made[usize::from(variable)] = true);
    let starts: Vec<Option<i32>> = (0..n).map(|variable| given.start(variable, made[variable])).collect();

    let mut stays = vec![false; m];
    kept.iter().for_each(|row| stays[row.row] = true);
    let dropped: Vec<u16> = (0..).zip(&stays).filter(|&(_, &stays)| !stays).map(|(row, _)| row).collect();
    let reset: Vec<u16> =
        (0..).zip(&starts).filter(|(_, start)| start.is_none()).map(|(variable, _)| variable).collect();
    let length = Layout::of(n, tables.m, tables.e).total;
    fits(&[file.len() >= length, list.len() >= dropped.len() + reset.len()])?;
    write(tables, &starts.iter().map(|start| start.unwrap_or(0)).collect::<Vec<i32>>(), file)?;
    for (place, &named) in list.iter_mut().zip(dropped.iter().chain(&reset)) {
        *place = named;
    }
    Ok((length, dropped.len(), reset.len()))
}

/// A damaged file, with everything in it placed by its counts.
struct Given<'a> {
    bytes: &'a [u8],
    n: usize,
    e: usize,
    layout: Layout,
}

/// A row that is whole in the file, with its entries.
struct Whole {
    row: usize,
    kind: u16,
    makes: u16,
    parameter: i32,
    vars: Vec<u16>,
    coefs: Vec<i16>,
}

impl Given<'_> {
    /// The rows that are kept, in file order.
    fn kept(&self, m: usize) -> Vec<Whole> {
        let mut made = vec![false; self.n];
        let mut entries = 0;
        let mut kept = Vec::new();
        for row in (0..m).filter_map(|row| self.whole(row)).filter(|row| self.good(row)) {
            let made = &mut made[usize::from(row.makes)];
            if !*made && entries + row.vars.len() <= MOST_ENTRIES {
                *made = true;
                entries += row.vars.len();
                kept.push(row);
            }
        }
        kept
    }

    /// A row, if it and its entries are whole in the file.
    fn whole(&self, row: usize) -> Option<Whole> {
        let bytes = self.bytes.get(self.layout.rows + ROW * row..)?;
        let &[k0, k1, m0, m1, p0, p1, p2, p3, f0, f1, c0, c1] = bytes.first_chunk::<ROW>()?;
        let [first, count] = [[f0, f1], [c0, c1]].map(|field| usize::from(u16::from_le_bytes(field)));
        if first + count > self.e {
            return None;
        }
        let at = self.layout.entries + ENTRY * first;
        let (entries, _) = self.bytes.get(at..at + ENTRY * count)?.as_chunks::<ENTRY>();
        Some(Whole {
            row,
            kind: u16::from_le_bytes([k0, k1]),
            makes: u16::from_le_bytes([m0, m1]),
            parameter: i32::from_le_bytes([p0, p1, p2, p3]),
            vars: entries.iter().map(|&[v0, v1, _, _]| u16::from_le_bytes([v0, v1])).collect(),
            coefs: entries.iter().map(|&[_, _, c0, c1]| i16::from_le_bytes([c0, c1])).collect(),
        })
    }

    /// Checks 2 to 4 of a row on its own, its first entry as given.
    fn good(&self, row: &Whole) -> bool {
        let Whole { kind, makes, parameter, ref vars, ref coefs, .. } = *row;
        let makes = usize::from(makes);
        makes < self.n
            && suits(kind, vars.len())
            && all_below(vars, self.n)
            && weighed(&Row { kind, makes, parameter, vars, coefs })
    }

    /// The start value of a variable, if it is whole in the file and build takes it.
    fn start(&self, variable: usize, made: bool) -> Option<i32> {
        let bytes = self.bytes.get(HEADER + START * variable..)?.first_chunk::<START>()?;
        Some(i32::from_le_bytes(*bytes)).filter(|&start| if made { start == 0 } else { start != BLANK })
    }
}

/// Rows with their parts one after another.
#[derive(Default)]
struct Packed {
    kinds: Vec<u16>,
    makes: Vec<u16>,
    params: Vec<i32>,
    firsts: Vec<u16>,
    counts: Vec<u16>,
    vars: Vec<u16>,
    coefs: Vec<i16>,
}

impl Packed {
    /// These rows, in this order; they have at most as many entries as a model may have.
    fn of(rows: &[Whole]) -> Packed {
        let mut packed = Packed::default();
        for row in rows {
            packed.kinds.push(row.kind);
            packed.makes.push(row.makes);
            packed.params.push(row.parameter);
            packed.firsts.push(packed.vars.len() as u16);
            packed.counts.push(row.vars.len() as u16);
            packed.vars.extend(&row.vars);
            packed.coefs.extend(&row.coefs);
        }
        packed
    }

    fn tables(&self, n: usize) -> Tables<'_> {
        let Packed { kinds, makes, params, firsts, counts, vars, coefs } = self;
        Tables { n, m: kinds.len(), e: vars.len(), kinds, makes, params, firsts, counts, vars, coefs }
    }
}
