//! Versions: what puts make and servers hold (docs/RULES.md, section 6.2).

use std::fmt;

use crate::marks::{MarkKind, Row};
use crate::stamps::Stamp;
use crate::values::Value;

/// A version of a key.
#[derive(Clone, Copy, Debug, PartialEq, Eq)]
pub struct Version {
    /// The key.
    pub key: u16,
    /// The value.
    pub value: Value,
    /// The stamp that the put was given.
    pub stamp: Stamp,
    /// The site of the put.
    pub source: u8,
    /// The mark of what the writer depended on.
    pub mark: Row,
}

impl Version {
    /// What orders the versions of one key: the higher is the later.
    pub fn order(&self) -> (Stamp, u8) {
        (self.stamp, self.source)
    }

    /// The mark of the version itself and of what its writer depended on.
    pub fn full_mark(&self, kind: MarkKind) -> Row {
        kind.lift(self.source.into(), self.stamp).join(&self.mark)
    }

    pub(crate) fn shown(&self) -> Shown {
        Shown {
            value: self.value,
            stamp: self.stamp,
            source: self.source,
        }
    }
}

/// What a get or a read shows of a version.
#[derive(Clone, Copy, Debug, PartialEq, Eq, Hash)]
pub struct Shown {
    /// The value.
    pub value: Value,
    /// The stamp.
    pub stamp: Stamp,
    /// The site of the put.
    pub source: u8,
}

impl fmt::Display for Shown {
    fn fmt(&self, f: &mut fmt::Formatter<'_>) -> fmt::Result {
        write!(f, "{} {} {}", self.value, self.stamp, self.source)
    }
}
