//! The calls that pass only numbers and byte slices (docs/RULES.md, section 12).

use crate::refusal::Refusal;
use crate::script::{MAX_LINE, listing};
use crate::stamps::{ClockRule, Stamp};

/// The raw rule's stamp, or minus the refusal's number.
pub fn raw_stamp(last: u64, reading: u64, dependency: u64) -> i64 {
    number(ClockRule::Raw.stamp_of_numbers(last, reading, dependency))
}

/// The hybrid rule's stamp, or minus the refusal's number.
pub fn hybrid_stamp(last: u64, reading: u64, dependency: u64) -> i64 {
    number(ClockRule::Hybrid.stamp_of_numbers(last, reading, dependency))
}

fn number(answer: Result<Stamp, Refusal>) -> i64 {
    match answer {
        Ok(stamp) => stamp.number() as i64,
        Err(refusal) => minus(refusal),
    }
}

fn minus(refusal: Refusal) -> i64 {
    -i64::from(refusal.number())
}

/// Writes the listing of a script to the start of the buffer.
///
/// Answers how many bytes were written; or -16, with nothing changed, if the buffer has fewer than 96 bytes for each
/// line of the listing.
pub fn listing_into(script: &[u8], buffer: &mut [u8]) -> i64 {
    let listing = listing(script);
    let lines = listing.iter().filter(|&&byte| byte == b'\n').count();
    if buffer.len() < lines * MAX_LINE {
        return minus(Refusal::ShortBuffer);
    }
    buffer[..listing.len()].copy_from_slice(&listing);
    listing.len() as i64
}

#[cfg(test)]
mod tests {
    use super::*;

    #[test]
    fn refusals_are_negative() {
        let top = Stamp::TOP.number();
        assert_eq!(raw_stamp(0, 100, 0), 100 << 16);
        assert_eq!(raw_stamp(0, 0, 0), -7);
        assert_eq!(hybrid_stamp(top, 0, 0), -8);
        assert_eq!(hybrid_stamp(top, 1 << 47, 0), -3);
        assert_eq!(hybrid_stamp(top - 1, 0, 0), top as i64);
    }

    #[test]
    fn a_buffer_needs_room_for_every_line_at_its_longest() {
        let script = b"L\x02\x01HOS\x00x";
        let mut buffer = [7; 3 * MAX_LINE];
        assert_eq!(listing_into(script, &mut buffer[1..]), -16);
        assert_eq!(buffer, [7; 3 * MAX_LINE]);
        let expected = b"1 L ok\n2 S 0\n3 ? no 14\n";
        assert_eq!(listing_into(script, &mut buffer), expected.len() as i64);
        assert_eq!(&buffer[..expected.len()], expected);
        assert!(buffer[expected.len()..].iter().all(|&byte| byte == 7));
    }

    #[test]
    fn an_empty_script_needs_no_buffer() {
        assert_eq!(listing_into(b"", &mut []), 0);
    }
}
