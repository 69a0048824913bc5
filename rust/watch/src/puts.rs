//! Puts, and the pasts that are made of them (docs/RULES.md, sections 10.1 and 10.2).

use second::{Shown, Stamp, Value};

/// The number of a put in the history, from 0.
pub type PutId = usize;

/// How many puts a past can tell apart.
const MAX_PUTS: usize = 256;

/// A put that was done.
#[derive(Clone, Debug)]
pub struct Put {
    pub key: u16,
    pub value: Value,
    pub stamp: Stamp,
    pub source: u8,
    /// Its writer's past as it was immediately before.
    pub past: Past,
}

impl Put {
    /// What orders the puts of one key: the higher is the later.
    fn order(&self) -> (Stamp, u8) {
        (self.stamp, self.source)
    }
}

/// A set of puts.
#[derive(Clone, Copy, Debug, Default, PartialEq, Eq)]
pub struct Past {
    words: [u64; MAX_PUTS / 64],
}

impl Past {
    pub fn add(&mut self, put: PutId) {
        self.words[put / 64] |= 1 << (put % 64);
    }

    pub fn add_all(&mut self, other: &Self) {
        for (word, other) in self.words.iter_mut().zip(other.words) {
            *word |= other;
        }
    }

    pub fn contains(&self, put: PutId) -> bool {
        self.words[put / 64] & (1 << (put % 64)) != 0
    }
}

/// Every put that was done so far, in order.
#[derive(Clone, Debug, Default)]
pub struct Puts {
    puts: Vec<Put>,
}

impl Puts {
    pub fn is_full(&self) -> bool {
        self.puts.len() >= MAX_PUTS
    }

    pub fn len(&self) -> usize {
        self.puts.len()
    }

    pub fn get(&self, put: PutId) -> &Put {
        &self.puts[put]
    }

    /// Adds a put, if no other has its name.
    pub fn add(&mut self, put: Put) -> Option<PutId> {
        if self.named(put.key, put.stamp, put.source).is_some() {
            return None;
        }
        self.puts.push(put);
        Some(self.puts.len() - 1)
    }

    /// The put that an answer for a key shows, if it was put with that value.
    pub fn shown(&self, key: u16, shown: Shown) -> Option<PutId> {
        self.named(key, shown.stamp, shown.source)
            .filter(|&put| self.puts[put].value == shown.value)
    }

    pub fn named(&self, key: u16, stamp: Stamp, source: u8) -> Option<PutId> {
        self.puts
            .iter()
            .rposition(|put| put.stamp == stamp && put.source == source && put.key == key)
    }

    /// The latest put of a key in a past.
    pub fn latest_in(&self, past: &Past, key: u16) -> Option<PutId> {
        self.puts
            .iter()
            .enumerate()
            .filter(|&(put, of)| of.key == key && past.contains(put))
            .max_by_key(|(_, of)| of.order())
            .map(|(put, _)| put)
    }

    /// Whether an answer is older than a put of the same key. The answer none is older than any put.
    pub fn is_older(&self, answer: Option<PutId>, put: PutId) -> bool {
        answer.is_none_or(|answer| self.puts[answer].order() < self.puts[put].order())
    }

    /// The past of an answer.
    pub fn past_of(&self, answer: Option<PutId>) -> Past {
        answer.map_or_else(Past::default, |put| self.puts[put].past)
    }
}

#[cfg(test)]
mod tests {
    use super::*;

    fn put(key: u16, stamp: u64, source: u8, past: Past) -> Put {
        Put {
            key,
            value: Value::Price(stamp as u32),
            stamp: Stamp::from_number(stamp).unwrap(),
            source,
            past,
        }
    }

    #[test]
    fn names_are_given_once() {
        let mut puts = Puts::default();
        assert_eq!(puts.add(put(1, 5, 0, Past::default())), Some(0));
        assert_eq!(puts.add(put(1, 5, 1, Past::default())), Some(1));
        assert_eq!(puts.add(put(1, 5, 0, Past::default())), None);
    }

    #[test]
    fn the_latest_put_of_a_key_in_a_past() {
        let mut puts = Puts::default();
        let mut past = Past::default();
        for (key, stamp, source) in [(1, 5, 1), (1, 5, 0), (2, 9, 0), (1, 6, 0)] {
            puts.add(put(key, stamp, source, past));
        }
        [0, 1, 2].into_iter().for_each(|id| past.add(id));
        assert_eq!(puts.latest_in(&past, 1), Some(0));
        assert!(puts.is_older(Some(1), 0) && puts.is_older(None, 0));
        assert!(!puts.is_older(Some(3), 0) && !puts.is_older(Some(0), 0));
    }
}
