//! The clock rules through the library.

use std::error::Error;

use price_store::{Refusal, Stamp, hybrid, raw};

fn stamp(time: u64, count: u16) -> Stamp {
    Stamp::new(time, count).unwrap()
}

#[test]
fn worked_edges() {
    assert_eq!(hybrid(Stamp::ZERO, 100, Stamp::ZERO), Ok(stamp(100, 0)));
    assert_eq!(hybrid(stamp(100, 3), 90, stamp(100, 7)), Ok(stamp(100, 8)));
    let full = stamp(100, 65_535);
    assert_eq!(hybrid(full, 100, Stamp::ZERO), Ok(stamp(101, 0)));
    assert_eq!(raw(stamp(100, 0), 100, Stamp::ZERO), Err(Refusal::Early));
    assert_eq!(raw(stamp(100, 0), 101, Stamp::ZERO), Ok(stamp(101, 0)));
    assert_eq!(raw(Stamp::ZERO, 100, stamp(100, 0)), Err(Refusal::Early));
}

#[test]
fn hybrid_ends_at_the_top_stamp() {
    assert_eq!(hybrid(Stamp::TOP, 0, Stamp::ZERO), Err(Refusal::End));
    assert_eq!(hybrid(Stamp::ZERO, 0, Stamp::TOP), Err(Refusal::End));
    let before = Stamp::from_number(Stamp::TOP.number() - 1);
    assert_eq!(hybrid(before, 0, before), Ok(Stamp::TOP));
}

#[test]
fn numbers_out_of_range_are_unlawful_before_anything_else() {
    let past_top = Stamp::from_number(1 << 63);
    for rule in [raw, hybrid] {
        assert_eq!(rule(past_top, 0, Stamp::TOP), Err(Refusal::Unlawful));
        assert_eq!(rule(Stamp::TOP, 0, past_top), Err(Refusal::Unlawful));
        assert_eq!(
            rule(Stamp::TOP, 1 << 47, Stamp::ZERO),
            Err(Refusal::Unlawful)
        );
    }
}

#[test]
fn stamps_have_a_time_and_a_count() {
    let stamp = stamp(1234, 56);
    assert_eq!((stamp.time(), stamp.count()), (1234, 56));
    assert_eq!(Stamp::from_number(stamp.number()), stamp);
    assert_eq!(Stamp::TOP.to_string(), "140737488355327.65535");
}

#[test]
fn refusals_are_errors_with_numbers() {
    let numbers = [Refusal::Unlawful, Refusal::Early, Refusal::End].map(Refusal::number);
    assert_eq!(numbers, [3, 7, 8]);
    let error: Box<dyn Error> = Refusal::Early.into();
    assert!(!error.to_string().is_empty());
}
