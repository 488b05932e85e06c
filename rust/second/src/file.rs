//! The model file of version 1: a header of 24 bytes, start values, rows and entries, little-endian.

use crate::Refused;
use crate::checks::{counts_fit, fits, tables_fit};
use crate::parts::counted_tables;
use lent::{Tables, TablesMut};

pub(crate) const HEADER: usize = 24;
pub(crate) const START: usize = 4;
pub(crate) const ROW: usize = 12;
pub(crate) const ENTRY: usize = 4;

/// Where the parts of a file begin and where it ends.
pub(crate) struct Layout {
    pub rows: usize,
    pub entries: usize,
    pub total: usize,
}

impl Layout {
    /// The layout of these counts, all inside their bounds.
    pub(crate) fn of(n: usize, m: usize, e: usize) -> Layout {
        let rows = HEADER + START * n;
        let entries = rows + ROW * m;
        Layout { rows, entries, total: entries + ENTRY * e }
    }
}

/// Fills tables from a file; gives n, m and e.
///
/// # Errors
/// Refusal 14 for the header, then 1 for short tables.
pub fn read(bytes: &[u8], tables: TablesMut<'_>) -> Result<(usize, usize, usize), Refused> {
    let (n, m, e) = header(bytes)?;
    fits(&[
        tables.starts.len() >= n,
        tables.kinds.len() >= m && tables.makes.len() >= m && tables.params.len() >= m,
        tables.firsts.len() >= m && tables.counts.len() >= m,
        tables.vars.len() >= e && tables.coefs.len() >= e,
    ])?;
    let layout = Layout::of(n, m, e);
    let (starts, _) = bytes[HEADER..layout.rows].as_chunks();
    for (start, &bytes) in tables.starts.iter_mut().zip(starts) {
        *start = i32::from_le_bytes(bytes);
    }
    let (rows, _) = bytes[layout.rows..layout.entries].as_chunks::<ROW>();
    for (row, &[k0, k1, m0, m1, p0, p1, p2, p3, f0, f1, c0, c1]) in rows.iter().enumerate() {
        tables.kinds[row] = u16::from_le_bytes([k0, k1]);
        tables.makes[row] = u16::from_le_bytes([m0, m1]);
        tables.params[row] = i32::from_le_bytes([p0, p1, p2, p3]);
        tables.firsts[row] = u16::from_le_bytes([f0, f1]);
        tables.counts[row] = u16::from_le_bytes([c0, c1]);
    }
    let (entries, _) = bytes[layout.entries..].as_chunks::<ENTRY>();
    for (entry, &[v0, v1, c0, c1]) in entries.iter().enumerate() {
        tables.vars[entry] = u16::from_le_bytes([v0, v1]);
        tables.coefs[entry] = i16::from_le_bytes([c0, c1]);
    }
    Ok((n, m, e))
}

/// Check 14, and with it n, m and e: the place is the first wrong field's byte, or the length of a file without header.
pub(crate) fn header(bytes: &[u8]) -> Result<(usize, usize, usize), Refused> {
    let (n, m, e) = counts_in(bytes)?;
    let long = |at: usize| u32::from_le_bytes([bytes[at], bytes[at + 1], bytes[at + 2], bytes[at + 3]]);
    let layout = Layout::of(n, m, e);
    for (at, offset) in [(8, HEADER), (12, layout.rows), (16, layout.entries), (20, layout.total)] {
        right(usize::try_from(long(at)) == Ok(offset), at)?;
    }
    right(bytes.len() == layout.total, 20)?;
    Ok((n, m, e))
}

/// What check 14 asks of the header's length, its version and its counts; gives n, m and e.
pub(crate) fn counts_in(bytes: &[u8]) -> Result<(usize, usize, usize), Refused> {
    let Some(header) = bytes.first_chunk::<HEADER>() else { return Err(Refused::at(14, bytes.len())) };
    let short = |at: usize| usize::from(u16::from_le_bytes([header[at], header[at + 1]]));
    let (n, m, e) = (short(2), short(4), short(6));
    right(short(0) == 1, 0)?;
    right(counts_fit(n, 0, 0), 2)?;
    right(counts_fit(n, m, 0), 4)?;
    right(counts_fit(n, m, e), 6)?;
    Ok((n, m, e))
}

/// Check 14 of one field.
fn right(good: bool, at: usize) -> Result<(), Refused> {
    if good { Ok(()) } else { Err(Refused::at(14, at)) }
}

/// Fills the front of a byte buffer with the file of these tables and start values.
///
/// # Errors
/// Refusal 1.
pub fn write(tables: Tables<'_>, starts: &[i32], bytes: &mut [u8]) -> Result<(), Refused> {
    let Tables { n, m, e, .. } = tables;
    fits(&[tables_fit(&tables), starts.len() >= n])?;
    let layout = Layout::of(n, m, e);
    fits(&[bytes.len() >= layout.total])?;
    let tables = counted_tables(&tables);
    let mut out = Out { bytes, at: 0 };
    for field in [1, n, m, e] {
        out.put((field as u16).to_le_bytes());
    }
    for offset in [HEADER, layout.rows, layout.entries, layout.total] {
        out.put((offset as u32).to_le_bytes());
    }
    for start in &starts[..n] {
        out.put(start.to_le_bytes());
    }
    for row in 0..m {
        out.put(tables.kinds[row].to_le_bytes());
        out.put(tables.makes[row].to_le_bytes());
        out.put(tables.params[row].to_le_bytes());
        out.put(tables.firsts[row].to_le_bytes());
        out.put(tables.counts[row].to_le_bytes());
    }
    for (variable, coefficient) in tables.vars.iter().zip(tables.coefs) {
        out.put(variable.to_le_bytes());
        out.put(coefficient.to_le_bytes());
    }
    Ok(())
}

/// A byte buffer and the place reached in it.
struct Out<'a> {
    bytes: &'a mut [u8],
    at: usize,
}

impl Out<'_> {
    /// Puts the next bytes.
    fn put<const WIDTH: usize>(&mut self, field: [u8; WIDTH]) {
        self.bytes[self.at..self.at + WIDTH].copy_from_slice(&field);
        self.at += WIDTH;
    }
}
