//! What is saved of a damaged model file.

use crate::{MOST_BYTES, MOST_VARIABLES, Refused, cause, lent};

/// What was saved of a damaged file, and what was not.
#[derive(Clone, Debug, PartialEq, Eq)]
pub struct Salvage {
    /// A model file that can be read and built.
    pub file: Vec<u8>,
    /// The rows of the damaged file that were dropped, ascending.
    pub rows: Vec<u16>,
    /// The variables whose start value was missing or had to be 0 and is 0 now, ascending.
    pub values: Vec<u16>,
}

/// Saves what is whole and good in a damaged model file. An undamaged file without a closed chain comes back the same, with
/// nothing listed.
///
/// ```
/// use lukhandro::{Model, Row};
///
/// let sheet = Model::build(&[4, 9, 0, 0], &[Row::max(2, &[0, 1]), Row::min(3, &[0, 1])])?;
/// let file = sheet.write()?;
/// let whole = lukhandro::salvage(&file)?;
/// assert_eq!((whole.file, whole.rows, whole.values), (file.clone(), vec![], vec![]));
///
/// // Cut short by one byte, the last row has lost an input.
/// let saved = lukhandro::salvage(&file[..file.len() - 1])?;
/// assert_eq!((saved.rows, saved.values), (vec![1], vec![]));
/// assert_eq!(Model::read(&saved.file)?.stored(), [4, 9, 9, 0]);
/// # Ok::<(), lukhandro::Refused>(())
/// ```
///
/// # Errors
/// Refusal 14 for a header of fewer than 24 bytes, another version than 1, or counts outside their bounds.
pub fn salvage(bytes: &[u8]) -> Result<Salvage, Refused> {
    let mut file = vec![0; MOST_BYTES];
    let mut rows = vec![0; 2 * MOST_VARIABLES];
    let saved = lent::salvage(bytes, &mut file, &mut rows).judged();
    let (length, dropped, reset) =
        saved.map_err(|refused| refused.because(|refused| cause::of_file(bytes, 1, refused)))?;
    file.truncate(length);
    rows.truncate(dropped + reset);
    let values = rows.split_off(dropped);
    Ok(Salvage { file, rows, values })
}
