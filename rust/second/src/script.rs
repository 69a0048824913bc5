//! The step script: its commands, the lines of its listing, and how it ends (docs/RULES.md, section 11).

use std::fmt;
use std::io::Write;

use crate::group::Group;
use crate::layout::Layout;
use crate::marks::MarkKind;
use crate::refusal::Refusal;
use crate::stamps::{ClockRule, Stamp};
use crate::values::UncheckedValue;
use crate::versions::Shown;

/// How many bytes a script can have. What lies past them is no part of it.
pub const MAX_SCRIPT: usize = 65_535;

/// How many bytes a line can have, with its newline.
pub const MAX_LINE: usize = 96;

/// The listing of a script.
///
/// ```
/// assert_eq!(second::listing(b"L\x02\x01HES\x00S\x02"), b"1 L ok\n2 S 0\n3 S no 1\n");
/// ```
pub fn listing(script: &[u8]) -> Vec<u8> {
    let mut steps = Steps::new(script);
    let mut listing = Vec::new();
    let mut line = [0; MAX_LINE];
    while let Ok(Some(length)) = steps.next_line(&mut line) {
        listing.extend_from_slice(&line[..length]);
    }
    listing
}

/// A script that is run command by command.
#[derive(Clone, Debug)]
pub struct Steps<'a> {
    rest: &'a [u8],
    lines: u32,
    group: Option<Group>,
    ended: bool,
}

impl<'a> Steps<'a> {
    /// A script of which nothing has been run yet.
    pub fn new(script: &'a [u8]) -> Self {
        Self {
            rest: &script[..script.len().min(MAX_SCRIPT)],
            lines: 0,
            group: None,
            ended: false,
        }
    }

    /// Runs the next command, writes its line to the start of the buffer and answers the line's length.
    ///
    /// Answers none if the script has ended, and refuses a buffer that might be too short; both change nothing.
    pub fn next_line(&mut self, buffer: &mut [u8]) -> Result<Option<usize>, Refusal> {
        if buffer.len() < MAX_LINE {
            return Err(Refusal::ShortBuffer);
        }
        let Some((&letter, rest)) = self.rest.split_first() else {
            return Ok(None);
        };
        if self.ended {
            return Ok(None);
        }
        self.rest = rest;
        self.lines += 1;
        let answer = match self.take_command(letter) {
            Ok(command) => self.run(command),
            Err(refusal) => {
                self.ended = true;
                Answer::Refused(refusal)
            }
        };
        Ok(Some(self.write_line(buffer, letter, &answer)))
    }

    fn write_line(&self, buffer: &mut [u8], letter: u8, answer: &Answer) -> usize {
        let letter = match answer {
            Answer::Refused(Refusal::UnknownLetter) => '?',
            _ => char::from(letter),
        };
        let length = buffer.len();
        let mut behind = buffer;
        writeln!(behind, "{} {letter} {answer}", self.lines).expect("a line fits in its buffer");
        length - behind.len()
    }

    fn take_command(&mut self, letter: u8) -> Result<Command, Refusal> {
        let width = operand_width(letter).ok_or(Refusal::UnknownLetter)?;
        let (operands, rest) = self
            .rest
            .split_at_checked(width)
            .ok_or(Refusal::ShortCommand)?;
        self.rest = rest;
        if (letter == b'L') == self.group.is_some() {
            return Err(Refusal::LayoutMisplaced);
        }
        Command::decode(letter, operands)
    }

    fn run(&mut self, command: Command) -> Answer {
        if let Command::Layout { layout, rule, kind } = command {
            self.group = Some(Group::new(layout, rule, kind));
            return Answer::Ok;
        }
        match &mut self.group {
            Some(group) => command.call(group).unwrap_or_else(Answer::Refused),
            None => Answer::Refused(Refusal::LayoutMisplaced),
        }
    }
}

/// How many bytes of operands a letter needs, if it is one of the script's.
const fn operand_width(letter: u8) -> Option<usize> {
    match letter {
        b'S' => Some(1),
        b'H' | b'R' | b'U' | b'C' | b'Q' => Some(2),
        b'G' | b'D' => Some(3),
        b'L' => Some(4),
        b'V' => Some(6),
        b'T' | b'P' => Some(8),
        _ => None,
    }
}

#[derive(Clone, Copy, Debug)]
enum Command {
    Layout {
        layout: Layout,
        rule: ClockRule,
        kind: MarkKind,
    },
    OpenSession {
        site: u8,
    },
    Tell {
        site: u8,
        partition: u8,
        reading: u64,
    },
    Put {
        session: u8,
        key: u16,
        value: UncheckedValue,
    },
    Get {
        session: u8,
        key: u16,
    },
    Heartbeat {
        site: u8,
        partition: u8,
    },
    Deliver {
        from: u8,
        to: u8,
        partition: u8,
    },
    Report {
        site: u8,
        partition: u8,
    },
    Stabilise {
        site: u8,
        partition: u8,
    },
    Tidy {
        site: u8,
        partition: u8,
    },
    Lead {
        site: u8,
        partition: u8,
    },
    View {
        session: u8,
        partition: u8,
        keys: [u16; 2],
    },
}

impl Command {
    fn decode(letter: u8, operands: &[u8]) -> Result<Self, Refusal> {
        Ok(match (letter, operands) {
            (b'L', &[sites, partitions, clock, marks]) => {
                decode_layout(sites, partitions, clock, marks)?
            }
            (b'S', &[site]) => Self::OpenSession { site },
            (b'T', &[site, partition, a, b, c, d, e, f]) => Self::Tell {
                site,
                partition,
                reading: u64::from_be_bytes([0, 0, a, b, c, d, e, f]),
            },
            (b'P', &[session, k, l, kind, a, b, c, d]) => Self::Put {
                session,
                key: u16::from_be_bytes([k, l]),
                value: UncheckedValue {
                    kind,
                    amount: u32::from_be_bytes([a, b, c, d]),
                },
            },
            (b'G', &[session, k, l]) => Self::Get {
                session,
                key: u16::from_be_bytes([k, l]),
            },
            (b'H', &[site, partition]) => Self::Heartbeat { site, partition },
            (b'D', &[from, to, partition]) => Self::Deliver {
                from,
                to,
                partition,
            },
            (b'R', &[site, partition]) => Self::Report { site, partition },
            (b'U', &[site, partition]) => Self::Stabilise { site, partition },
            (b'C', &[site, partition]) => Self::Tidy { site, partition },
            (b'Q', &[site, partition]) => Self::Lead { site, partition },
            (b'V', &[session, partition, k, l, m, n]) => Self::View {
                session,
                partition,
                keys: [u16::from_be_bytes([k, l]), u16::from_be_bytes([m, n])],
            },
            _ => return Err(Refusal::UnknownLetter),
        })
    }

    fn call(self, group: &mut Group) -> Result<Answer, Refusal> {
        Ok(match self {
            Self::Layout { .. } => return Err(Refusal::LayoutMisplaced),
            Self::OpenSession { site } => Answer::Number(group.open_session(site)?.into()),
            Self::Tell {
                site,
                partition,
                reading,
            } => done(group.tell(site, partition, reading)?),
            Self::Put {
                session,
                key,
                value,
            } => Answer::Stamp(group.put(session, key, value)?),
            Self::Get { session, key } => Answer::Shown(group.get(session, key)?),
            Self::Heartbeat { site, partition } => Answer::Stamp(group.heartbeat(site, partition)?),
            Self::Deliver {
                from,
                to,
                partition,
            } => done(group.deliver(from, to, partition)?),
            Self::Report { site, partition } => done(group.report(site, partition)?),
            Self::Stabilise { site, partition } => done(group.stabilise(site, partition)?),
            Self::Tidy { site, partition } => Answer::Number(group.tidy(site, partition)? as i64),
            Self::Lead { site, partition } => Answer::Number(group.lead(site, partition)?),
            Self::View {
                session,
                partition,
                keys: [first, second],
            } => {
                let ticket = group.open_snapshot(session, partition)?;
                let answers = [group.read(&ticket, first)?, group.read(&ticket, second)?];
                group.close(ticket)?;
                Answer::View(answers)
            }
        })
    }
}

fn decode_layout(sites: u8, partitions: u8, clock: u8, marks: u8) -> Result<Command, Refusal> {
    let layout = Layout::check(sites, partitions)?;
    let rule = match clock {
        b'R' => ClockRule::Raw,
        b'H' => ClockRule::Hybrid,
        _ => return Err(Refusal::BadLayout),
    };
    let kind = match marks {
        b'O' => MarkKind::One,
        b'E' => MarkKind::Each,
        _ => return Err(Refusal::BadLayout),
    };
    Ok(Command::Layout { layout, rule, kind })
}

fn done((): ()) -> Answer {
    Answer::Ok
}

#[derive(Debug)]
enum Answer {
    Ok,
    Number(i64),
    Stamp(Stamp),
    Shown(Option<Shown>),
    View([Option<Shown>; 2]),
    Refused(Refusal),
}

impl fmt::Display for Answer {
    fn fmt(&self, f: &mut fmt::Formatter<'_>) -> fmt::Result {
        match self {
            Self::Ok => f.write_str("ok"),
            Self::Number(number) => write!(f, "{number}"),
            Self::Stamp(stamp) => write!(f, "{stamp}"),
            Self::Shown(shown) => write_shown(f, shown),
            Self::View([first, second]) => {
                write_shown(f, first)?;
                f.write_str(" / ")?;
                write_shown(f, second)
            }
            Self::Refused(refusal) => write!(f, "{refusal}"),
        }
    }
}

fn write_shown(f: &mut fmt::Formatter<'_>, shown: &Option<Shown>) -> fmt::Result {
    match shown {
        Some(shown) => write!(f, "{shown}"),
        None => f.write_str("none"),
    }
}

#[cfg(test)]
mod tests {
    use super::*;

    const WORKED_CASE: &str = "\
L 02 02 H E: 1 L ok
S 00: 2 S 0
S 01: 3 S 1
T 00 00 000000000064: 4 T ok
P 00 0002 03 00000001: 5 P 100.0
P 00 0003 02 000004B0: 6 P 100.1
D 00 01 01: 7 D ok
G 01 0003: 8 G none
D 00 01 00: 9 D ok
R 01 00: 10 R ok
R 01 01: 11 R ok
U 01 01: 12 U ok
G 01 0003: 13 G none
H 00 00: 14 H 100.1
D 00 01 00: 15 D ok
R 01 00: 16 R ok
U 01 01: 17 U ok
G 01 0003: 18 G percent 1200 100.1 0
G 01 0002: 19 G basis sheet 100.0 0
D 00 01 00: 20 D no 9
";

    fn bytes(commands: &str) -> Vec<u8> {
        let word_bytes = |word: &str| match word.len() {
            1 => word.as_bytes().to_vec(),
            length => (0..length)
                .step_by(2)
                .map(|at| u8::from_str_radix(&word[at..at + 2], 16).unwrap())
                .collect(),
        };
        commands.split_whitespace().flat_map(word_bytes).collect()
    }

    fn list(commands: &str) -> String {
        String::from_utf8(listing(&bytes(commands))).unwrap()
    }

    #[test]
    fn worked_case() {
        for marks in ["H E", "H O"] {
            let mut script = Vec::new();
            let mut lines = String::new();
            for line in WORKED_CASE.lines() {
                let (command, answer) = line.split_once(": ").unwrap();
                script.extend(bytes(&command.replace("H E", marks)));
                lines += answer;
                lines += "\n";
            }
            if marks == "H E" {
                assert_eq!(listing(&script), lines.as_bytes());
            }
            assert_eq!(listing(&script).iter().filter(|&&b| b == b'\n').count(), 20);
        }
    }

    #[test]
    fn the_checks_that_end_a_listing_are_made_in_order() {
        assert_eq!(list(""), "");
        assert_eq!(list("x"), "1 ? no 14\n");
        assert_eq!(list("00"), "1 ? no 14\n");
        assert_eq!(list("S"), "1 S no 13\n");
        assert_eq!(list("S 00"), "1 S no 15\n");
        assert_eq!(list("L 02 02 H"), "1 L no 13\n");
        assert_eq!(list("L 01 02 H E S 00"), "1 L no 12\n");
        assert_eq!(list("L 02 05 H E"), "1 L no 12\n");
        assert_eq!(list("L 02 04 h E"), "1 L no 12\n");
        assert_eq!(list("L 02 04 R H"), "1 L no 12\n");
        assert_eq!(list("L 02 01 R E L 02 01 R"), "1 L ok\n2 L no 13\n");
        assert_eq!(list("L 02 01 R E L 01 01 R E S 00"), "1 L ok\n2 L no 15\n");
        assert_eq!(
            list("L 02 01 R E S 02 x S 00"),
            "1 L ok\n2 S no 1\n3 ? no 14\n"
        );
    }

    #[test]
    fn a_view_prints_two_answers_or_one_refusal() {
        let start = "L 02 01 R O S 00 T 00 00 000000000005 P 00 0001 00 00000000 R 00 00 U 00 00 ";
        let view = |view: &str| list(&format!("{start}{view}"));
        assert!(view("V 00 00 0001 0002").ends_with("7 V none / none\n"));
        assert!(view("V 00 01 0001 0002").ends_with("7 V no 1\n"));
        assert!(view("V 01 01 0001 0002").ends_with("7 V no 1\n"));
        assert!(view("V 01 00 0001 0002").ends_with("7 V no 2\n"));
        let covered = "D 00 01 00 T 01 00 000000000006 H 01 00 D 01 00 00 R 00 00 U 00 00 ";
        assert!(view(&format!("{covered}V 00 00 0001 0002")).ends_with("13 V gone 5.0 0 / none\n"));
    }

    #[test]
    fn what_lies_past_the_longest_script_is_not_read() {
        let mut script = bytes("L 02 01 R E");
        while script.len() < MAX_SCRIPT {
            script.extend(b"S\x09");
        }
        assert_eq!(script.len(), MAX_SCRIPT);
        let whole = listing(&script);
        assert!(whole.ends_with(b"32766 S no 1\n"));
        script.extend(b"S\x00");
        assert_eq!(listing(&script), whole);
    }

    #[test]
    fn a_command_that_reaches_past_the_longest_script_is_short() {
        let mut script = bytes("L 02 01 R E");
        while script.len() <= MAX_SCRIPT {
            script.extend(b"H\x02\x00");
        }
        assert!(listing(&script).ends_with(b"21844 H no 1\n21845 H no 13\n"));
    }

    #[test]
    fn the_longest_line_fits() {
        let shown = Some(Shown {
            value: crate::values::Value::Price(u32::MAX),
            stamp: Stamp::TOP,
            source: 3,
        });
        let mut steps = Steps::new(b"");
        steps.lines = 32_767;
        let mut buffer = [0; MAX_LINE];
        let length = steps.write_line(&mut buffer, b'V', &Answer::View([shown, shown]));
        assert!((90..=MAX_LINE).contains(&length));
    }

    #[test]
    fn a_short_buffer_is_refused_before_anything_else() {
        let mut steps = Steps::new(b"x");
        let mut buffer = [7; MAX_LINE];
        assert_eq!(steps.next_line(&mut buffer[1..]), Err(Refusal::ShortBuffer));
        assert_eq!(steps.next_line(&mut buffer), Ok(Some(10)));
        assert_eq!(steps.next_line(&mut buffer[1..]), Err(Refusal::ShortBuffer));
        buffer = [7; MAX_LINE];
        assert_eq!(steps.next_line(&mut buffer), Ok(None));
        assert_eq!(buffer, [7; MAX_LINE]);
    }
}
