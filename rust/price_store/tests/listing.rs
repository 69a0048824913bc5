//! Listings through the library.

use price_store::{MAX_LINE, MAX_SCRIPT, ShortBuffer, listing, listing_to_vec};

const SCRIPT: &[u8] = b"L\x02\x01HES\x00Q\x01\x00x";
const LISTING: &[u8] = b"1 L ok\n2 S 0\n3 Q 0\n4 ? no 14\n";

#[test]
fn a_listing_has_a_line_for_each_command() {
    assert_eq!(listing_to_vec(SCRIPT), LISTING);
    assert_eq!(listing_to_vec(b""), b"");
}

#[test]
fn the_bytes_behind_a_listing_keep_their_values() {
    let mut buffer = [7; 4 * MAX_LINE + 5];
    assert_eq!(listing(SCRIPT, &mut buffer), Ok(LISTING.len()));
    let (written, behind) = buffer.split_at(LISTING.len());
    assert_eq!(written, LISTING);
    assert!(behind.iter().all(|&byte| byte == 7));
}

#[test]
fn a_buffer_needs_room_for_the_longest_of_lines() {
    let mut buffer = [7; 4 * MAX_LINE];
    assert_eq!(listing(SCRIPT, &mut buffer[1..]), Err(ShortBuffer));
    assert_eq!(buffer, [7; 4 * MAX_LINE]);
    assert_eq!(listing(SCRIPT, &mut buffer), Ok(LISTING.len()));
}

#[test]
fn an_empty_script_needs_no_buffer() {
    assert_eq!(listing(b"", &mut []), Ok(0));
    assert_eq!(listing(b"x", &mut []), Err(ShortBuffer));
}

#[test]
fn what_lies_past_the_longest_script_is_not_read() {
    let mut script = b"L\x02\x01HE".to_vec();
    while script.len() < MAX_SCRIPT {
        script.extend(b"S\x09");
    }
    let whole = listing_to_vec(&script);
    assert!(whole.ends_with(b"32766 S no 1\n"));
    script.extend(b"S\x00");
    assert_eq!(listing_to_vec(&script), whole);
}
