//! Listings of step scripts.

use std::error::Error;
use std::fmt;

use crate::foreign;

/// How many bytes of a script are run. What lies past them is no part of it.
pub const MAX_SCRIPT: usize = 65_535;

/// How many bytes a buffer needs for each line of a listing.
pub const MAX_LINE: usize = 96;

const SHORT_BUFFER: i64 = -16;

/// The buffer has fewer than [`MAX_LINE`] bytes for each line that the listing has.
#[derive(Clone, Copy, Debug, PartialEq, Eq, Hash)]
pub struct ShortBuffer;

impl fmt::Display for ShortBuffer {
    fn fmt(&self, f: &mut fmt::Formatter<'_>) -> fmt::Result {
        write!(
            f,
            "the buffer has fewer than {MAX_LINE} bytes for each line"
        )
    }
}

impl Error for ShortBuffer {}

/// Runs a script on a new group, writes its listing to the start of the buffer and answers how many bytes it wrote.
///
/// The bytes of the buffer behind the listing keep their values.
///
/// # Errors
///
/// [`ShortBuffer`], with nothing changed, if the buffer has fewer than [`MAX_LINE`] bytes for each line that the
/// listing has. It is not enough that the listing itself would fit.
///
/// ```
/// use price_store::{MAX_LINE, ShortBuffer, listing};
///
/// let mut buffer = [0; MAX_LINE];
/// assert_eq!(listing(b"L\x02\x01HE", &mut buffer), Ok(7));
/// assert_eq!(&buffer[..7], b"1 L ok\n");
/// assert_eq!(listing(b"L\x02\x01HES\x00", &mut buffer), Err(ShortBuffer));
/// ```
pub fn listing(script: &[u8], buffer: &mut [u8]) -> Result<usize, ShortBuffer> {
    let answer = foreign::listing(script, buffer);
    match usize::try_from(answer) {
        Ok(length) => Ok(length),
        Err(_) if answer == SHORT_BUFFER => Err(ShortBuffer),
        Err(_) => unreachable!("a listing was refused with {answer}"),
    }
}

/// Runs a script on a new group and answers its listing.
///
/// ```
/// assert_eq!(price_store::listing_to_vec(b"L\x02\x01HES\x00"), b"1 L ok\n2 S 0\n");
/// ```
pub fn listing_to_vec(script: &[u8]) -> Vec<u8> {
    let most_lines = script.len().min(MAX_SCRIPT);
    let mut buffer = vec![0; most_lines * MAX_LINE];
    let length =
        listing(script, &mut buffer).expect("a script has at most one line for each of its bytes");
    buffer.truncate(length);
    buffer.shrink_to_fit();
    buffer
}
