//! Scripts that show how put, get and deliver grow with the number of versions that servers hold.
//!
//! Each is measured as a difference: a script with the commands in question less the same script without them.

use scripts::{Script, Value};

use crate::cases::holding;

const SITES: u8 = 4;
const GETS: u16 = 256;
const PRICE: Value = (1, 2001);

/// How many versions each server holds.
pub const HELD: [u16; 6] = [1, 2, 4, 8, 16, 31];

/// The letters whose growth is measured.
pub const LETTERS: [u8; 3] = *b"PGD";

/// Two scripts, of which the second goes on where the first ends.
pub struct Growth {
    /// The letter of the commands by which they differ.
    pub letter: u8,
    /// How many versions each server holds before them.
    pub held: u16,
    /// How many commands they differ by.
    pub commands: usize,
    /// The script without these commands.
    pub without: Vec<u8>,
    /// The script with them.
    pub with: Vec<u8>,
}

impl Growth {
    fn new(letter: u8, held: u16) -> Self {
        let (without, with) = match letter {
            b'P' => put_at_each_site(holding(SITES, 1, held)),
            b'G' => get_each_key(holding(SITES, 1, held), held),
            _ => deliver_to_each_site(holding(SITES, 1, held)),
        };
        let width = match letter {
            b'P' => 9,
            _ => 4,
        };
        Self {
            letter,
            held,
            commands: (with.len() - without.len()) / width,
            without: without.into_bytes(),
            with: with.into_bytes(),
        }
    }

    /// The letter and how many versions are held.
    pub fn name(&self) -> String {
        format!("{}-{}", char::from(self.letter), self.held)
    }
}

/// All of them, letter by letter.
pub fn all() -> Vec<Growth> {
    LETTERS
        .into_iter()
        .flat_map(|letter| HELD.into_iter().map(move |held| Growth::new(letter, held)))
        .collect()
}

fn put_at_each_site(before: Script) -> (Script, Script) {
    let after = (0..SITES).fold(before.clone(), |script, session| {
        script.put(session, 0, PRICE)
    });
    (before, after)
}

fn get_each_key(before: Script, held: u16) -> (Script, Script) {
    let after = (0..GETS).fold(before.clone(), |script, number| {
        script.get((number % 4) as u8, number / 4 % held)
    });
    (before, after)
}

fn deliver_to_each_site(before: Script) -> (Script, Script) {
    let before = before.put(0, 0, PRICE);
    let after = (1..SITES).fold(before.clone(), |script, to| script.deliver(0, to, 0));
    (before, after)
}

#[cfg(test)]
mod tests {
    use super::*;

    #[test]
    fn the_commands_by_which_two_scripts_differ_are_done() {
        for growth in all() {
            let without = second::listing(&growth.without);
            let with = String::from_utf8(second::listing(&growth.with)).unwrap();
            let added = &with[without.len()..];
            assert_eq!(added.lines().count(), growth.commands);
            assert!(!with.contains(" no ") && !added.contains("none"));
        }
    }
}
