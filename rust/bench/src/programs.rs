//! The two programs that are measured, and the ways to call them.

use std::str::FromStr;

use price_store::{MAX_LINE, MAX_SCRIPT};

/// A way to list a script.
#[derive(Clone, Copy, Debug, PartialEq, Eq)]
pub enum Program {
    /// The proved program, which writes to a lent buffer.
    Proved,
    /// The second program, which makes a vector and copies it to a lent buffer.
    Second,
    /// The second program, which makes a vector and gives that.
    SecondVector,
}

impl Program {
    /// All of them.
    pub const ALL: [Self; 3] = [Self::Proved, Self::Second, Self::SecondVector];

    /// Lists a script, to the start of the buffer unless the program gives a vector; answers the listing's length.
    pub fn list(self, script: &[u8], buffer: &mut [u8]) -> usize {
        match self {
            Self::Proved => {
                price_store::listing(script, buffer).expect("the buffer fits every listing")
            }
            Self::Second => second::listing_into(script, buffer)
                .try_into()
                .expect("the buffer fits every listing"),
            Self::SecondVector => second::listing(script).len(),
        }
    }

    fn to_vec(self, script: &[u8], buffer: &mut [u8]) -> Vec<u8> {
        match self {
            Self::Proved | Self::Second => {
                let length = self.list(script, buffer);
                buffer[..length].to_vec()
            }
            Self::SecondVector => second::listing(script),
        }
    }
}

impl FromStr for Program {
    type Err = String;

    fn from_str(name: &str) -> Result<Self, String> {
        match name {
            "proved" => Ok(Self::Proved),
            "second" => Ok(Self::Second),
            _ => Err(format!("no program {name}: it is proved or second")),
        }
    }
}

/// A buffer that fits every listing.
pub fn buffer() -> Vec<u8> {
    vec![0; MAX_SCRIPT * MAX_LINE]
}

/// The listing that all of them give, or an error.
pub fn common_listing(script: &[u8], buffer: &mut [u8]) -> Result<Vec<u8>, String> {
    let [first, others @ ..] = Program::ALL.map(|program| program.to_vec(script, buffer));
    if others.iter().all(|other| *other == first) {
        Ok(first)
    } else {
        Err("the programs give different listings".to_owned())
    }
}
