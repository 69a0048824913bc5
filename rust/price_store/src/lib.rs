//! The proved price store, for programs in Rust.
//!
//! The store is a causally consistent copy of prices at each of several shops. Its code is proved and comes as a static
//! library; this crate is a safe wrapper of what the library lets other programs call:
//!
//! - [`raw`] and [`hybrid`] make the next stamp of a server by one of the two clock rules;
//! - [`listing`] and [`listing_to_vec`] run a step script on a new group and list what each command was answered.
//!
//! The rules behind all of them are in `docs/RULES.md`.
//!
//! ```
//! let script = b"L\x02\x01HES\x00P\x00\x00\x07\x01\x00\x00\x07\xcfG\x00\x00\x07";
//! let lines = price_store::listing_to_vec(script);
//! assert_eq!(lines, b"1 L ok\n2 S 0\n3 P 0.1\n4 G price 1999 0.1 0\n");
//! ```

#![deny(unsafe_op_in_unsafe_fn)]
#![deny(unsafe_code)]

mod clock;
mod foreign;
mod script;

pub use clock::{Refusal, Stamp, hybrid, raw};
pub use script::{MAX_LINE, MAX_SCRIPT, ShortBuffer, listing, listing_to_vec};
