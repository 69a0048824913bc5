//! Values: prices, percentages and bases (docs/RULES.md, section 2.2).

use std::fmt;

use crate::refusal::Refusal;

/// A kind byte and an amount that nobody has checked yet.
#[derive(Clone, Copy, Debug, PartialEq, Eq, Hash)]
pub struct UncheckedValue {
    /// The kind byte.
    pub kind: u8,
    /// The amount.
    pub amount: u32,
}

/// A lawful value.
#[derive(Clone, Copy, Debug, PartialEq, Eq, Hash)]
pub enum Value {
    /// There is no longer a price, percentage or basis.
    Gone,
    /// A price in cents.
    Price(u32),
    /// A percentage in hundredths, at most 10,000.
    Percent(u32),
    /// What a percentage is measured against.
    Basis(Basis),
}

/// What a percentage is measured against.
#[derive(Clone, Copy, Debug, PartialEq, Eq, Hash)]
pub enum Basis {
    /// The finished part.
    Part,
    /// The whole sheet.
    Sheet,
}

impl TryFrom<UncheckedValue> for Value {
    type Error = Refusal;

    fn try_from(UncheckedValue { kind, amount }: UncheckedValue) -> Result<Self, Refusal> {
        match (kind, amount) {
            (0, 0) => Ok(Self::Gone),
            (1, _) => Ok(Self::Price(amount)),
            (2, 0..=10_000) => Ok(Self::Percent(amount)),
            (3, 0) => Ok(Self::Basis(Basis::Part)),
            (3, 1) => Ok(Self::Basis(Basis::Sheet)),
            _ => Err(Refusal::Unlawful),
        }
    }
}

impl fmt::Display for Value {
    fn fmt(&self, f: &mut fmt::Formatter<'_>) -> fmt::Result {
        match self {
            Self::Gone => write!(f, "gone"),
            Self::Price(cents) => write!(f, "price {cents}"),
            Self::Percent(hundredths) => write!(f, "percent {hundredths}"),
            Self::Basis(Basis::Part) => write!(f, "basis part"),
            Self::Basis(Basis::Sheet) => write!(f, "basis sheet"),
        }
    }
}

#[cfg(test)]
mod tests {
    use super::*;

    fn checked(kind: u8, amount: u32) -> Result<Value, Refusal> {
        UncheckedValue { kind, amount }.try_into()
    }

    #[test]
    fn the_edges_of_each_kind() {
        assert_eq!(checked(0, 0), Ok(Value::Gone));
        assert_eq!(checked(0, 1), Err(Refusal::Unlawful));
        assert_eq!(checked(1, u32::MAX), Ok(Value::Price(u32::MAX)));
        assert_eq!(checked(2, 10_000), Ok(Value::Percent(10_000)));
        assert_eq!(checked(2, 10_001), Err(Refusal::Unlawful));
        assert_eq!(checked(3, 0), Ok(Value::Basis(Basis::Part)));
        assert_eq!(checked(3, 1), Ok(Value::Basis(Basis::Sheet)));
        assert_eq!(checked(3, 2), Err(Refusal::Unlawful));
        assert_eq!(checked(4, 0), Err(Refusal::Unlawful));
        assert_eq!(checked(255, 0), Err(Refusal::Unlawful));
    }
}
