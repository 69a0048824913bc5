//! A second program of the causal price store, written from `docs/RULES.md` alone.
//!
//! It is the reference that the proved program is compared with: its own state, its own rules and its own listing.
//! [`Group`] has every call of the store, [`listing`] runs a step script, and [`raw_stamp`], [`hybrid_stamp`] and
//! [`listing_into`] are the calls that pass only numbers and byte slices.

#![forbid(unsafe_code)]

mod calls;
mod group;
mod layout;
mod marks;
mod outbox;
mod refusal;
mod script;
mod server;
mod snapshots;
mod stamps;
mod values;
mod versions;

pub use calls::{hybrid_stamp, listing_into, raw_stamp};
pub use group::{Group, MAX_SESSIONS, Shortcut};
pub use layout::Layout;
pub use marks::{MarkKind, Row};
pub use outbox::{Entry, MAX_WAITING};
pub use refusal::Refusal;
pub use script::{MAX_LINE, MAX_SCRIPT, Steps, listing};
pub use server::MAX_VERSIONS;
pub use snapshots::{MAX_SNAPSHOTS, Ticket};
pub use stamps::{ClockRule, Reading, Stamp};
pub use values::{Basis, UncheckedValue, Value};
pub use versions::{Shown, Version};
