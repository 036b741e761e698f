//! What a key costs: it is fetched for four subscribers, and asked for; its value comes; and it is judged complete.
//! Names have 32 bytes, subscribers and marks 8, values one byte.
//!
//!     cargo run --release -p resolver-bench -- core archive 100000
//!     cargo run --release -p resolver-bench -- core plain 100000
//!     bench/count core archive 1000            # instructions of each, by valgrind
//!
//! MACHINE is `core` or `actor`, SIDE `archive`, through the whole interface, or `plain`, the same machine
//! in plain Rust. A fourth argument says how many of the three kinds of steps are done.

mod actor;
mod archive;
#[allow(dead_code)]
#[path = "../../../../tools/plain/peers/mod.rs"]
mod peers;
mod plain;

use std::fs::read_to_string;
use std::time::Instant;

/// The kinds of steps, in their order.
const KINDS: [&str; 3] = ["fetch and ask", "value", "verdict"];

/// How many peers a core has.
const PEERS: u64 = 16;

/// The subscribers of each key, with their marks.
const SUBSCRIBERS: [(u64, u64); 4] = [(0, 0), (1, 0), (2, 0), (3, 0)];

/// A machine that is given what a key is given.
trait Driven {
    /// The key of this number is fetched, with all that its scan asks. Answers how many inputs that took.
    fn fetch(&mut self, number: u64) -> u64;

    /// Its value comes.
    fn value(&mut self, number: u64) -> u64;

    /// It is judged complete.
    fn complete(&mut self, number: u64) -> u64;
}

/// A number that follows from another one, so that keys don't come in their order.
fn scattered(number: u64) -> u64 {
    number.wrapping_mul(0x9e37_79b9_7f4a_7c15)
}

/// The key of a number.
fn key(number: u64) -> [u8; 32] {
    let mut key = [0; 32];
    key[..8].copy_from_slice(&scattered(number).to_be_bytes());
    key[24..].copy_from_slice(&number.to_be_bytes());
    key
}

/// A response of one byte.
fn response(id: u64) -> [u8; 11] {
    let mut bytes = [1; 11];
    bytes[..8].copy_from_slice(&id.to_be_bytes());
    bytes
}

/// How many bytes the process holds.
fn resident() -> u64 {
    let text = read_to_string("/proc/self/statm").unwrap_or_default();
    let pages = text.split(' ').nth(1).and_then(|pages| pages.parse::<u64>().ok());
    pages.unwrap_or(0) * 4096
}

/// Does so many kinds of steps for so many keys, and says what each took.
fn drive(mut machine: impl Driven, keys: u64, kinds: usize) {
    for (kind, name) in KINDS.iter().enumerate().take(kinds) {
        let (before, started) = (resident(), Instant::now());
        let mut inputs = 0;
        for number in 0..keys {
            inputs += match kind {
                0 => machine.fetch(number),
                1 => machine.value(number),
                _ => machine.complete(number),
            };
        }
        let took = started.elapsed().as_nanos() as u64;
        let more = resident().saturating_sub(before) / keys;
        println!(
            "{name:13} {keys} keys, {inputs} inputs: {} ns a key, {:.2} million inputs a second, {more} bytes a key",
            took / keys,
            inputs as f64 * 1e3 / took as f64,
        );
    }
}

fn main() {
    let words: Vec<String> = std::env::args().skip(1).collect();
    let number = |at: usize, or| words.get(at).map_or(or, |word| word.parse().expect("a number"));
    let (keys, kinds) = (number(2, 1000), number(3, 3) as usize);
    let machine = words.iter().take(2).map(String::as_str).collect::<Vec<_>>();
    match machine[..] {
        ["core", "archive"] => drive(archive::Core::open(), keys, kinds),
        ["core", "plain"] => drive(plain::Core::open(), keys, kinds),
        ["actor", "archive"] => drive(archive::Actor::open(), keys, kinds),
        ["actor", "plain"] => drive(actor::Actor::default(), keys, kinds),
        _ => eprintln!("usage: keys core|actor archive|plain [KEYS [KINDS]]"),
    }
}
