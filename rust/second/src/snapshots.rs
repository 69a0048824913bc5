//! Snapshots, seats and tickets (docs/RULES.md, section 8).

use crate::marks::Row;
use crate::refusal::Refusal;

/// How many snapshots can be open in a group.
pub const MAX_SNAPSHOTS: usize = 4;

/// An open snapshot in the hands of the caller, who gives it back by closing it.
#[derive(Debug, PartialEq, Eq)]
#[must_use = "a snapshot keeps its seat until its ticket is closed"]
pub struct Ticket {
    seat: usize,
    serial: u32,
}

impl Ticket {
    /// The seat.
    pub const fn seat(&self) -> usize {
        self.seat
    }

    /// The serial number.
    pub const fn serial(&self) -> u32 {
        self.serial
    }
}

#[derive(Clone, Copy, Debug, PartialEq, Eq)]
pub(crate) struct Snapshot {
    serial: u32,
    pub(crate) session: usize,
    pub(crate) cut: Row,
}

/// The seats of a group and the serial number of its next snapshot.
#[derive(Clone, Debug, Default, PartialEq, Eq)]
pub(crate) struct Seats {
    seats: [Option<Snapshot>; MAX_SNAPSHOTS],
    next_serial: u32,
}

impl Seats {
    /// The seat for the next snapshot.
    pub(crate) fn free_seat(&self) -> Result<usize, Refusal> {
        let free = self.seats.iter().position(Option::is_none);
        let seat = free.ok_or(Refusal::NoneFree)?;
        if self.next_serial == u32::MAX {
            return Err(Refusal::End);
        }
        Ok(seat)
    }

    pub(crate) fn open(&mut self, seat: usize, session: usize, cut: Row) -> Ticket {
        let serial = self.next_serial;
        self.seats[seat] = Some(Snapshot {
            serial,
            session,
            cut,
        });
        self.next_serial += 1;
        Ticket { seat, serial }
    }

    pub(crate) fn find(&self, ticket: &Ticket) -> Result<Snapshot, Refusal> {
        self.seats[ticket.seat]
            .filter(|snapshot| snapshot.serial == ticket.serial)
            .ok_or(Refusal::NotOpen)
    }

    pub(crate) fn close(&mut self, ticket: Ticket) -> Result<(), Refusal> {
        self.find(&ticket)?;
        self.seats[ticket.seat] = None;
        Ok(())
    }

    pub(crate) fn open_snapshots(&self) -> impl Iterator<Item = &Snapshot> {
        self.seats.iter().flatten()
    }
}

#[cfg(test)]
mod tests {
    use super::*;

    #[test]
    fn the_last_serial_number_is_never_used() {
        let mut seats = Seats {
            next_serial: u32::MAX - 1,
            ..Seats::default()
        };
        let seat = seats.free_seat().unwrap();
        let ticket = seats.open(seat, 0, Row::ZERO);
        assert_eq!(ticket.serial(), u32::MAX - 1);
        assert_eq!(seats.free_seat(), Err(Refusal::End));
        assert_eq!(seats.close(ticket), Ok(()));
        assert_eq!(seats.free_seat(), Err(Refusal::End));
    }

    #[test]
    fn no_free_seat_comes_before_no_serial_number() {
        let mut seats = Seats {
            next_serial: u32::MAX - 4,
            ..Seats::default()
        };
        let tickets: Vec<Ticket> = (0..4)
            .map(|_| seats.open(seats.free_seat().unwrap(), 0, Row::ZERO))
            .collect();
        assert_eq!(tickets[3].seat(), 3);
        assert_eq!(seats.free_seat(), Err(Refusal::NoneFree));
    }
}
