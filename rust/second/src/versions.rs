//! Version 2 of the model file: a header of 28 bytes, whose last field says where the bounds begin, and behind the entries
//! the bounds, 8 bytes for each variable. What lies between is as in version 1, so a file of one version is taken apart
//! and put together as one of the other.

use crate::bounds::bounds_fit;
use crate::checks::{counts_fit, fits, tables_fit};
use crate::file::{self, HEADER as HEADER_1, Layout};
use crate::{HIGHEST, LOWEST, Refused};
use lent::{Bounds, BoundsMut, Tables, TablesMut};

const HEADER: usize = 28;
const BOUND: usize = 8;

/// The bytes of bounds that allow every value.
const FULL: [u8; BOUND] = pair(LOWEST, HIGHEST);

const fn pair(low: i32, high: i32) -> [u8; BOUND] {
    let ([l0, l1, l2, l3], [h0, h1, h2, h3]) = (low.to_le_bytes(), high.to_le_bytes());
    [l0, l1, l2, l3, h0, h1, h2, h3]
}

/// Where the bounds of a file with these counts begin.
fn bounds_at(n: usize, m: usize, e: usize) -> usize {
    Layout::of(n, m, e).total - HEADER_1 + HEADER
}

/// Fills tables and bounds from a file of version 2; gives n, m and e.
///
/// # Errors
/// Refusal 14 for the header, then 1 for short tables or bounds.
pub fn read_bounded(
    bytes: &[u8],
    tables: TablesMut<'_>,
    bounds: BoundsMut<'_>,
) -> Result<(usize, usize, usize), Refused> {
    let (n, m, e) = header(bytes)?;
    let at = bounds_at(n, m, e);
    fits(&[bounds_fit(&Bounds { lows: bounds.lows, highs: bounds.highs }, n)])?;
    file::read(&plain(&bytes[HEADER..at], n, m, e), tables)?;
    let (held, _) = bytes[at..].as_chunks::<BOUND>();
    for (variable, &[l0, l1, l2, l3, h0, h1, h2, h3]) in held.iter().enumerate() {
        bounds.lows[variable] = i32::from_le_bytes([l0, l1, l2, l3]);
        bounds.highs[variable] = i32::from_le_bytes([h0, h1, h2, h3]);
    }
    Ok((n, m, e))
}

/// Fills the front of a byte buffer with the file of version 2 of these tables, start values and bounds.
///
/// # Errors
/// Refusal 1.
pub fn write_bounded(tables: Tables<'_>, starts: &[i32], bounds: Bounds<'_>, bytes: &mut [u8]) -> Result<(), Refused> {
    let Tables { n, m, e, .. } = tables;
    fits(&[tables_fit(&tables), bounds_fit(&bounds, n)])?;
    let mut first = vec![0; Layout::of(n, m, e).total];
    file::write(tables, starts, &mut first)?;
    let held = bounds.lows.iter().zip(bounds.highs).take(n).map(|(&low, &high)| pair(low, high));
    store(&bounded(&first[HEADER_1..], n, m, e, held), bytes).map(|_| ())
}

/// Fills the front of `file` with a file of version 1 as one of version 2, all bounds full; gives its length.
///
/// # Errors
/// Refusal 14 for the header, then 1 for a short buffer.
pub fn to_version_2(bytes: &[u8], file: &mut [u8]) -> Result<usize, Refused> {
    let (n, m, e) = file::header(bytes)?;
    store(&bounded(&bytes[HEADER_1..], n, m, e, std::iter::repeat_n(FULL, n)), file)
}

/// Fills the front of `file` with a file of version 2 as one of version 1; gives its length.
///
/// # Errors
/// Refusal 14 for the header, then 18 for the first variable whose bounds are not full, then 1 for a short buffer.
pub fn to_version_1(bytes: &[u8], file: &mut [u8]) -> Result<usize, Refused> {
    let (n, m, e) = header(bytes)?;
    let at = bounds_at(n, m, e);
    if let Some(variable) = bytes[at..].chunks(BOUND).position(|held| held != FULL) {
        return Err(Refused::at(18, variable));
    }
    store(&plain(&bytes[HEADER..at], n, m, e), file)
}

/// Check 14 of version 2, and with it n, m and e.
fn header(bytes: &[u8]) -> Result<(usize, usize, usize), Refused> {
    let Some(header) = bytes.first_chunk::<HEADER>() else { return Err(Refused::at(14, bytes.len())) };
    let short = |at: usize| usize::from(header[at]) + 256 * usize::from(header[at + 1]);
    let long = |at: usize| short(at) + 65536 * short(at + 2);
    let (n, m, e) = (short(2), short(4), short(6));
    let wrong = if short(0) != 2 {
        Some(0)
    } else if !counts_fit(n, 0, 0) {
        Some(2)
    } else if !counts_fit(n, m, 0) {
        Some(4)
    } else if !counts_fit(n, m, e) {
        Some(6)
    } else {
        let at = bounds_at(n, m, e);
        let total = at + BOUND * n;
        let offsets = [(8, HEADER), (12, HEADER + 4 * n), (16, HEADER + 4 * n + 12 * m), (20, total), (24, at)];
        let wrong = offsets.into_iter().find(|&(field, offset)| long(field) != offset).map(|(field, _)| field);
        match wrong {
            None | Some(24) if bytes.len() != total => Some(20),
            wrong => wrong,
        }
    };
    wrong.map_or(Ok((n, m, e)), |at| Err(Refused::at(14, at)))
}

/// The fields of a header that both versions have.
fn fields(version: u16, counts: [usize; 3], offsets: [usize; 4]) -> Vec<u8> {
    let mut bytes = version.to_le_bytes().to_vec();
    counts.iter().for_each(|&count| bytes.extend((count as u16).to_le_bytes()));
    offsets.iter().for_each(|&offset| bytes.extend((offset as u32).to_le_bytes()));
    bytes
}

/// The file of version 1 with this between header and end.
fn plain(middle: &[u8], n: usize, m: usize, e: usize) -> Vec<u8> {
    let Layout { rows, entries, total } = Layout::of(n, m, e);
    [&fields(1, [n, m, e], [HEADER_1, rows, entries, total]), middle].concat()
}

/// The file of version 2 with this between header and bounds.
fn bounded(middle: &[u8], n: usize, m: usize, e: usize, held: impl Iterator<Item = [u8; BOUND]>) -> Vec<u8> {
    let at = bounds_at(n, m, e);
    let mut bytes = fields(2, [n, m, e], [HEADER, HEADER + 4 * n, HEADER + 4 * n + 12 * m, at + BOUND * n]);
    bytes.extend((at as u32).to_le_bytes());
    bytes.extend(middle);
    held.for_each(|pair| bytes.extend(pair));
    bytes
}

/// Puts a file into the front of a buffer, if there is room; gives its length.
fn store(new: &[u8], file: &mut [u8]) -> Result<usize, Refused> {
    fits(&[file.len() >= new.len()])?;
    file[..new.len()].copy_from_slice(new);
    Ok(new.len())
}
