//! Builds step scripts command by command.
//!
//! ```
//! let script = scripts::Script::new(2, 1, b'H', b'E').session(0).get(0, 7);
//! assert_eq!(script.into_bytes(), b"L\x02\x01HES\x00G\x00\x00\x07");
//! ```

#![forbid(unsafe_code)]

/// A value as a script has it: a kind byte and an amount.
pub type Value = (u8, u32);

/// The highest reading.
pub const LAST_READING: u64 = (1 << 47) - 1;

/// A script that is being built.
#[derive(Clone, Debug, Default)]
pub struct Script {
    bytes: Vec<u8>,
}

impl Script {
    /// A script that makes a group.
    pub fn new(sites: u8, partitions: u8, clock: u8, marks: u8) -> Self {
        Self::default().layout(sites, partitions, clock, marks)
    }

    /// The bytes of the script.
    pub fn into_bytes(self) -> Vec<u8> {
        self.bytes
    }

    /// How many bytes the script has so far.
    pub fn len(&self) -> usize {
        self.bytes.len()
    }

    /// Whether the script has no bytes yet.
    pub fn is_empty(&self) -> bool {
        self.bytes.is_empty()
    }

    /// Adds any bytes.
    pub fn raw(mut self, bytes: &[u8]) -> Self {
        self.bytes.extend_from_slice(bytes);
        self
    }

    /// Adds what a function adds, so many times.
    pub fn repeat(self, times: usize, add: impl Fn(Self) -> Self) -> Self {
        (0..times).fold(self, |script, _| add(script))
    }

    /// Makes the group.
    pub fn layout(self, sites: u8, partitions: u8, clock: u8, marks: u8) -> Self {
        self.raw(&[b'L', sites, partitions, clock, marks])
    }

    /// Opens a session.
    pub fn session(self, site: u8) -> Self {
        self.raw(&[b'S', site])
    }

    /// Tells a server its physical time.
    pub fn tell(self, site: u8, partition: u8, reading: u64) -> Self {
        let [_, _, reading @ ..] = reading.to_be_bytes();
        self.raw(&[b'T', site, partition]).raw(&reading)
    }

    /// Puts a value.
    pub fn put(self, session: u8, key: u16, (kind, amount): Value) -> Self {
        self.raw(&[b'P', session])
            .raw(&key.to_be_bytes())
            .raw(&[kind])
            .raw(&amount.to_be_bytes())
    }

    /// Gets a key.
    pub fn get(self, session: u8, key: u16) -> Self {
        self.raw(&[b'G', session]).raw(&key.to_be_bytes())
    }

    /// Makes a heartbeat.
    pub fn heartbeat(self, site: u8, partition: u8) -> Self {
        self.raw(&[b'H', site, partition])
    }

    /// Lets a site take its next entry from another.
    pub fn deliver(self, from: u8, to: u8, partition: u8) -> Self {
        self.raw(&[b'D', from, to, partition])
    }

    /// Lets a server report how far it has received.
    pub fn report(self, site: u8, partition: u8) -> Self {
        self.raw(&[b'R', site, partition])
    }

    /// Lets a server take what its site has reported as stable.
    pub fn stabilise(self, site: u8, partition: u8) -> Self {
        self.raw(&[b'U', site, partition])
    }

    /// Tidies a server.
    pub fn tidy(self, site: u8, partition: u8) -> Self {
        self.raw(&[b'C', site, partition])
    }

    /// Asks how far a server's stamps run ahead of its clock.
    pub fn lead(self, site: u8, partition: u8) -> Self {
        self.raw(&[b'Q', site, partition])
    }

    /// Opens a snapshot, reads two keys and closes it.
    pub fn view(self, session: u8, partition: u8, first: u16, second: u16) -> Self {
        self.raw(&[b'V', session, partition])
            .raw(&first.to_be_bytes())
            .raw(&second.to_be_bytes())
    }
}
