//! Files of version 2 and moves between the versions, field by field from the header's counts.

use compare::{Answer, Call, Case, Guarded};
use second::Refused;

use super::{FULL, check_1_bounds, check_1_tables, file};

/// The header's length and the bytes of bounds that each variable has.
fn shape(version: usize) -> (usize, usize) {
    if version == 1 { (24, 0) } else { (28, 8) }
}

/// The number of so many bytes at a place.
fn number(bytes: &[u8], at: usize, width: usize) -> usize {
    (0..width).map(|i| usize::from(bytes[at + i]) << (8 * i)).sum()
}

/// The header's fields in turn; gives n, m and e.
fn header(bytes: &[u8], version: usize) -> Result<(usize, usize, usize), Refused> {
    let (head, bound) = shape(version);
    if bytes.len() < head {
        return Err(Refused { number: 14, place: bytes.len() as u32 });
    }
    let field = |at, width| number(bytes, at, width);
    let (n, m, e) = (field(2, 2), field(4, 2), field(6, 2));
    let bounds = head + 4 * n + 12 * m + 4 * e;
    let total = bounds + bound * n;
    let mut fields = vec![
        (0, field(0, 2) == version),
        (2, (1..=4096).contains(&n)),
        (4, m <= n),
        (6, e <= 16384),
        (8, field(8, 4) == head),
        (12, field(12, 4) == head + 4 * n),
        (16, field(16, 4) == head + 4 * n + 12 * m),
        (20, field(20, 4) == total && bytes.len() == total),
    ];
    if version == 2 {
        fields.push((24, field(24, 4) == bounds));
    }
    match fields.iter().find(|(_, right)| !right) {
        Some(&(place, _)) => Err(Refused { number: 14, place }),
        None => Ok((n, m, e)),
    }
}

/// The file of version 2 whose part between header and bounds is this.
fn bounded(middle: &[u8], n: usize, m: usize, e: usize, bounds: &[(i32, i32)]) -> Vec<u8> {
    let mut bytes = Vec::new();
    [2, n, m, e].iter().for_each(|&short| bytes.extend((short as u16).to_le_bytes()));
    let at = 28 + 4 * n + 12 * m + 4 * e;
    [28, 28 + 4 * n, 28 + 4 * n + 12 * m, at + 8 * n, at]
        .iter()
        .for_each(|&long| bytes.extend((long as u32).to_le_bytes()));
    bytes.extend(middle);
    for (low, high) in bounds {
        bytes.extend(low.to_le_bytes());
        bytes.extend(high.to_le_bytes());
    }
    bytes
}

/// Puts a file into the front of a buffer, if it is long enough.
fn fill(buffer: &mut Guarded<u8>, new: &[u8]) -> bool {
    let room = buffer.len() >= new.len();
    if room {
        new.iter().enumerate().for_each(|(place, &byte)| buffer.put(place, byte));
    }
    room
}

/// Any of the four calls.
pub fn answer(case: &mut Case) -> Answer {
    let short = Refused { number: 1, place: 0 };
    match case.call {
        Call::ReadBounded => read(case),
        Call::WriteBounded => {
            let Case { n, m, e, .. } = *case;
            if !check_1_tables(case) || !check_1_bounds(case) || case.starts.len() < n {
                return Answer::refused(short);
            }
            let bounds: Vec<(i32, i32)> = (0..n).map(|v| (case.lows[v], case.highs[v])).collect();
            let new = bounded(&file(case)[24..], n, m, e, &bounds);
            if fill(&mut case.bytes, &new) { Answer::default() } else { Answer::refused(short) }
        }
        call => {
            let bytes = case.bytes.to_vec();
            let new = if call == Call::ToVersion2 { up(&bytes) } else { back(&bytes) };
            match new {
                Err(refused) => Answer::refused(refused),
                Ok(new) if fill(&mut case.file, &new) => Answer { length: new.len() as u32, ..Answer::default() },
                Ok(_) => Answer::refused(short),
            }
        }
    }
}

fn up(bytes: &[u8]) -> Result<Vec<u8>, Refused> {
    let (n, m, e) = header(bytes, 1)?;
    Ok(bounded(&bytes[24..], n, m, e, &vec![FULL; n]))
}

fn back(bytes: &[u8]) -> Result<Vec<u8>, Refused> {
    let (n, m, e) = header(bytes, 2)?;
    let at = 28 + 4 * n + 12 * m + 4 * e;
    let full =
        |v: &usize| number(bytes, at + 8 * v, 4) == 0x8000_0001 && number(bytes, at + 8 * v + 4, 4) == 0x7FFF_FFFF;
    if let Some(place) = (0..n).find(|v| !full(v)) {
        return Err(Refused { number: 18, place: place as u32 });
    }
    let mut new = Vec::new();
    [1, n, m, e].iter().for_each(|&short| new.extend((short as u16).to_le_bytes()));
    let longs = [24, 24 + 4 * n, 24 + 4 * n + 12 * m, 24 + 4 * n + 12 * m + 4 * e];
    longs.iter().for_each(|&long| new.extend((long as u32).to_le_bytes()));
    new.extend(&bytes[28..at]);
    Ok(new)
}

fn read(case: &mut Case) -> Answer {
    let bytes = case.bytes.to_vec();
    let (n, m, e) = match header(&bytes, 2) {
        Ok(counts) => counts,
        Err(refused) => return Answer::refused(refused),
    };
    let held = Case { n, m, e, ..case.clone() };
    if !check_1_tables(&held) || !check_1_bounds(&held) || case.starts.len() < n {
        return Answer::refused(Refused { number: 1, place: 0 });
    }
    let (rows, entries) = (28 + 4 * n, 28 + 4 * n + 12 * m);
    let bounds = entries + 4 * e;
    let short = |at: usize| number(&bytes, at, 2) as u16;
    let long = |at: usize| number(&bytes, at, 4) as u32 as i32;
    for v in 0..n {
        case.starts.put(v, long(28 + 4 * v));
        case.lows.put(v, long(bounds + 8 * v));
        case.highs.put(v, long(bounds + 8 * v + 4));
    }
    for row in 0..m {
        let at = rows + 12 * row;
        case.kinds.put(row, short(at));
        case.makes.put(row, short(at + 2));
        case.params.put(row, long(at + 4));
        case.firsts.put(row, short(at + 8));
        case.counts.put(row, short(at + 10));
    }
    for entry in 0..e {
        case.vars.put(entry, short(entries + 4 * entry));
        case.coefs.put(entry, short(entries + 4 * entry + 2) as i16);
    }
    Answer { n: n as u32, m: m as u32, e: e as u32, ..Answer::default() }
}
