//! New percentages overtake their new basis on the way to a second shop, and still do not show before it.
//!
//! The first shop changes what scrap is measured against, from the finished part to the whole sheet, and then sets a
//! percentage that only fits the new basis. The percentage reaches the second shop first. A session there sees none of
//! the two until both can show.
//!
//! Run it with `cargo run --example quote`.

use std::io::{self, Write};

const FIRST_SHOP: u8 = 0;
const SECOND_SHOP: u8 = 1;
const BASIS_KEY: u16 = 2;
const PERCENT_KEY: u16 = 3;
const BASIS_PARTITION: u8 = 0;
const PERCENT_PARTITION: u8 = 1;
const WHOLE_SHEET: [u8; 5] = [3, 0, 0, 0, 1];
const TWELVE_PERCENT: [u8; 5] = [2, 0, 0, 0x04, 0xB0];

/// A step script and a remark for each of its commands.
#[derive(Default)]
struct Script {
    bytes: Vec<u8>,
    remarks: Vec<&'static str>,
}

impl Script {
    fn command(&mut self, remark: &'static str, letter: u8, operands: &[u8]) {
        self.bytes.push(letter);
        self.bytes.extend_from_slice(operands);
        self.remarks.push(remark);
    }

    fn put(&mut self, remark: &'static str, session: u8, key: u16, value: [u8; 5]) {
        let [high, low] = key.to_be_bytes();
        let [kind, a, b, c, d] = value;
        self.command(remark, b'P', &[session, high, low, kind, a, b, c, d]);
    }

    fn get(&mut self, remark: &'static str, session: u8, key: u16) {
        let [high, low] = key.to_be_bytes();
        self.command(remark, b'G', &[session, high, low]);
    }

    fn deliver(&mut self, remark: &'static str, partition: u8) {
        self.command(remark, b'D', &[FIRST_SHOP, SECOND_SHOP, partition]);
    }

    fn stabilise_second_shop(&mut self) {
        for partition in [BASIS_PARTITION, PERCENT_PARTITION] {
            let remark = "a server tells its shop how far it has received";
            self.command(remark, b'R', &[SECOND_SHOP, partition]);
        }
        let remark = "what all servers of the shop have received is stable";
        self.command(remark, b'U', &[SECOND_SHOP, PERCENT_PARTITION]);
    }
}

fn overtaking_percentages() -> Script {
    let mut script = Script::default();
    script.command("two shops, two partitions", b'L', &[2, 2, b'H', b'E']);
    script.command("a session at the first shop", b'S', &[FIRST_SHOP]);
    script.command("a session at the second shop", b'S', &[SECOND_SHOP]);
    let reading = [FIRST_SHOP, BASIS_PARTITION, 0, 0, 0, 0, 0, 100];
    script.command("the clock shows 100", b'T', &reading);
    script.put("the basis is set", 0, BASIS_KEY, WHOLE_SHEET);
    script.put("then the percentage", 0, PERCENT_KEY, TWELVE_PERCENT);

    script.deliver("the percentage arrives first", PERCENT_PARTITION);
    script.get("it must not show yet", 1, PERCENT_KEY);
    script.deliver("the basis arrives", BASIS_PARTITION);
    script.stabilise_second_shop();
    script.get("more could still come", 1, PERCENT_KEY);

    let server = [FIRST_SHOP, BASIS_PARTITION];
    script.command("the first shop says how far it is", b'H', &server);
    script.deliver("the second shop hears it", BASIS_PARTITION);
    script.stabilise_second_shop();
    script.get("now the percentage shows", 1, PERCENT_KEY);
    script.get("and so does its basis", 1, BASIS_KEY);
    script
}

fn main() -> io::Result<()> {
    let script = overtaking_percentages();
    let listing = price_store::listing_to_vec(&script.bytes);
    let listing = String::from_utf8_lossy(&listing);
    let mut out = io::stdout().lock();
    for (line, remark) in listing.lines().zip(&script.remarks) {
        writeln!(out, "{line:<40}{remark}")?;
    }
    Ok(())
}
