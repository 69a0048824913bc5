//! Counts what the listings show: which commands were done, which refusals were met.

use std::fmt;

const LETTERS: &[u8; 13] = b"LSTPGHDRUCQV?";
const REFUSALS: usize = 16;

/// The refusals that a script can meet. No script can meet these: 8, since the hybrid clock comes to its end only after
/// 65,536 stamps of one time, for which a script is too short, and no script opens 2^32 - 1 snapshots; 11, since V
/// closes what it has opened; and 16, which is about buffers.
const REACHABLE: [usize; 13] = [1, 2, 3, 4, 5, 6, 7, 9, 10, 12, 13, 14, 15];

/// Whether a letter and what it was answered are what is counted.
type IsMet = fn(u8, &str) -> bool;

/// What else must have been shown, so that the scripts are worth comparing.
const REMARKABLE: [(&str, IsMet); 12] = [
    ("G shows a version", |letter, answer| {
        letter == b'G' && answer != "none"
    }),
    ("G shows none", |letter, answer| {
        letter == b'G' && answer == "none"
    }),
    ("V shows two versions", |letter, answer| {
        letter == b'V' && !answer.contains("none")
    }),
    ("V shows one version", |letter, answer| {
        letter == b'V' && answer.matches("none").count() == 1
    }),
    ("V shows none", |letter, answer| {
        letter == b'V' && answer == "none / none"
    }),
    ("a price is shown", |_, answer| answer.contains("price")),
    ("a percent is shown", |_, answer| answer.contains("percent")),
    ("a basis is shown", |_, answer| answer.contains("basis")),
    ("gone is shown", |_, answer| answer.contains("gone")),
    ("C drops versions", |letter, answer| {
        letter == b'C' && answer != "0"
    }),
    ("Q is below 0", |letter, answer| {
        letter == b'Q' && answer.starts_with('-')
    }),
    ("Q is above 0", |letter, answer| {
        letter == b'Q' && answer != "0" && !answer.starts_with('-')
    }),
];

/// The counts.
#[derive(Clone, Debug, Default)]
pub struct Tally {
    done: [u64; LETTERS.len()],
    refused: [[u64; REFUSALS + 1]; LETTERS.len()],
    remarkable: [u64; REMARKABLE.len()],
    classes: Vec<(&'static str, u64)>,
}

impl Tally {
    /// Counts a script of a class and the lines of its listing.
    pub fn add(&mut self, class: &'static str, listing: &[u8]) {
        self.add_scripts(class, 1);
        String::from_utf8_lossy(listing)
            .lines()
            .for_each(|line| self.add_line(line));
    }

    fn add_scripts(&mut self, class: &'static str, count: u64) {
        match self.classes.iter_mut().find(|(name, _)| *name == class) {
            Some((_, scripts)) => *scripts += count,
            None => self.classes.push((class, count)),
        }
    }

    fn add_line(&mut self, line: &str) {
        let mut words = line.splitn(3, ' ').skip(1);
        let letter = words.next().unwrap_or_default().bytes().next();
        let answer = words.next().unwrap_or_default();
        let Some((letter, row)) = letter.and_then(|letter| Some((letter, row_of(letter)?))) else {
            return;
        };
        match answer.strip_prefix("no ").map(str::parse::<usize>) {
            Some(Ok(number @ 0..=REFUSALS)) => self.refused[row][number] += 1,
            _ => {
                self.done[row] += 1;
                for (count, (_, is_met)) in self.remarkable.iter_mut().zip(REMARKABLE) {
                    *count += u64::from(is_met(letter, answer));
                }
            }
        }
    }

    /// Adds the counts of another tally.
    pub fn merge(&mut self, other: &Self) {
        let own = self
            .done
            .iter_mut()
            .chain(self.refused.as_flattened_mut())
            .chain(&mut self.remarkable);
        let others = other
            .done
            .iter()
            .chain(other.refused.as_flattened())
            .chain(&other.remarkable);
        own.zip(others).for_each(|(own, other)| *own += other);
        for &(class, count) in &other.classes {
            self.add_scripts(class, count);
        }
    }

    /// What should have been met but never was.
    pub fn missing(&self) -> Vec<String> {
        let commands = LETTERS
            .iter()
            .zip(self.done)
            .filter(|&(&letter, done)| letter != b'?' && done == 0)
            .map(|(&letter, _)| format!("{} done", char::from(letter)));
        let refusals = REACHABLE
            .into_iter()
            .filter(|&number| self.refused_with(number) == 0)
            .map(|number| format!("no {number}"));
        let remarkable = REMARKABLE
            .iter()
            .zip(self.remarkable)
            .filter(|&(_, count)| count == 0)
            .map(|((name, _), _)| (*name).to_owned());
        commands.chain(refusals).chain(remarkable).collect()
    }

    fn refused_with(&self, number: usize) -> u64 {
        self.refused.iter().map(|row| row[number]).sum()
    }
}

fn row_of(letter: u8) -> Option<usize> {
    LETTERS.iter().position(|&known| known == letter)
}

impl fmt::Display for Tally {
    fn fmt(&self, f: &mut fmt::Formatter<'_>) -> fmt::Result {
        write!(f, "{:<6}{:>9}", "", "done")?;
        for number in REACHABLE {
            write!(f, "{:>9}", format!("no {number}"))?;
        }
        writeln!(f)?;
        for (row, &letter) in LETTERS.iter().enumerate() {
            write!(f, "{:<6}{:>9}", char::from(letter), self.done[row])?;
            for number in REACHABLE {
                write!(f, "{:>9}", self.refused[row][number])?;
            }
            writeln!(f)?;
        }
        write!(f, "{:<6}{:>9}", "all", self.done.iter().sum::<u64>())?;
        for number in REACHABLE {
            write!(f, "{:>9}", self.refused_with(number))?;
        }
        writeln!(f)?;
        for ((name, _), count) in REMARKABLE.iter().zip(self.remarkable) {
            writeln!(f, "{name:<22}{count:>9}")?;
        }
        let all: u64 = self.classes.iter().map(|(_, count)| count).sum();
        write!(f, "{all} scripts:")?;
        for (class, count) in &self.classes {
            write!(f, " {count} {class}")?;
        }
        writeln!(f)
    }
}

#[cfg(test)]
mod tests {
    use super::*;

    #[test]
    fn lines_are_counted_by_letter_and_refusal() {
        let mut tally = Tally::default();
        tally.add(
            "some",
            b"1 L ok\n2 S 0\n3 G none\n4 Q -5\n5 S no 1\n6 ? no 14\n",
        );
        assert_eq!(tally.done.iter().sum::<u64>(), 4);
        assert_eq!((tally.refused_with(1), tally.refused_with(14)), (1, 1));
        let missing = tally.missing();
        assert!(!missing.contains(&"S done".to_owned()));
        assert!(missing.contains(&"P done".to_owned()));
        assert!(!missing.contains(&"Q is below 0".to_owned()));
        assert!(missing.contains(&"no 5".to_owned()));
    }
}
