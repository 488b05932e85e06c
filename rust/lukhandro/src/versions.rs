//! A model file of one version as one of the other.

use crate::{MOST_BYTES, MOST_BYTES_BOUNDED, Refused, cause, lent};

/// The file of version 2 of a file of version 1: the same model, with bounds that allow every value.
///
/// ```
/// use lukhandro::{Model, Row};
///
/// let file = Model::build(&[4, 9, 0], &[Row::max(2, &[0, 1])])?.write()?;
/// let moved = lukhandro::to_version_2(&file)?;
/// assert_eq!(moved.len(), file.len() + 8 * 3 + 4);
/// assert_eq!(lukhandro::to_version_1(&moved)?, file);
/// # Ok::<(), lukhandro::Refused>(())
/// ```
///
/// # Errors
/// Refusal 14 if this is no whole file of version 1.
pub fn to_version_2(bytes: &[u8]) -> Result<Vec<u8>, Refused> {
    let mut file = vec![0; MOST_BYTES_BOUNDED];
    let moved = lent::to_version_2(bytes, &mut file).judged();
    let length = moved.map_err(|refused| refused.because(|refused| cause::of_file(bytes, 1, refused)))?;
    file.truncate(length);
    Ok(file)
}

/// The file of version 1 of a file of version 2, if no bounds are lost.
///
/// # Errors
/// Refusal 14 if this is no whole file of version 2, then 18 for the first variable whose bounds are not full.
pub fn to_version_1(bytes: &[u8]) -> Result<Vec<u8>, Refused> {
    let mut file = vec![0; MOST_BYTES];
    let moved = lent::to_version_1(bytes, &mut file).judged();
    let length = moved.map_err(|refused| refused.because(|refused| cause::of_file(bytes, 2, refused)))?;
    file.truncate(length);
    Ok(file)
}
