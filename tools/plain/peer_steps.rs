//! Keys that take the short way through the peer machine, in plain Rust over the standard maps: each is fetched and
//! asked for in the same step, answered and judged complete, as `resolver_bench steps` has it.
//!
//!     rustc --edition 2024 -O -g tools/plain/peer_steps.rs -o peer_steps
//!     valgrind --tool=callgrind ./peer_steps 100000 16
#![allow(dead_code)]

mod peers;

use peers::wire::Key;
use peers::{Answer, Config, Effect, Event, Fetch, Machine, Outcome};

/// The subscribers of each key.
const SUBSCRIBERS: u16 = 4;

/// A key of four bytes, as the bench has it.
#[derive(Clone, Copy, PartialEq, Eq, PartialOrd, Ord)]
struct Name {
    first: u8,
    second: u8,
    third: u8,
    fourth: u8,
}

impl Name {
    fn numbered(number: u32) -> Name {
        let [first, second, third, fourth] = number.to_be_bytes();
        Name {
            first,
            second,
            third,
            fourth,
        }
    }
}

impl Key for Name {
    const SIZE: usize = 4;

    fn read(bytes: &[u8]) -> Option<Name> {
        Some(Name::numbered(u32::from_be_bytes(bytes.try_into().ok()?)))
    }
}

type Keep = fn(&Name, &u16) -> bool;
type Engine = Machine<Name, u16, u16>;
type Item = Fetch<Name, u16, u16>;
type Happened = Event<Name, u16, u16, Keep>;
type Told = Vec<Effect<Name, u16, u16>>;

fn scattered(i: u64) -> u64 {
    i.wrapping_mul(0x9e37_79b9_7f4a_7c15)
}

fn happen(engine: &mut Engine, event: Happened) -> Told {
    engine.happen(0, event).unwrap_or_default()
}

/// A fetch of a new key, with the beginning of the scan that asks for it.
#[inline(never)]
fn fetch(engine: &mut Engine, items: Vec<Item>) -> Told {
    happen(engine, Event::Fetch(items))
}

#[inline(never)]
fn draw(engine: &mut Engine, number: u128) -> Told {
    engine.answer(Answer::Drawn(number)).unwrap_or_default()
}

#[inline(never)]
fn check(engine: &mut Engine) -> Told {
    engine.answer(Answer::Checked(None)).unwrap_or_default()
}

#[inline(never)]
fn send(engine: &mut Engine) -> Told {
    engine.answer(Answer::Sent(true)).unwrap_or_default()
}

#[inline(never)]
fn answer(engine: &mut Engine, peer: u16, bytes: Vec<u8>) -> Told {
    happen(engine, Event::Net(peer, bytes))
}

#[inline(never)]
fn complete(engine: &mut Engine, number: u64) -> Told {
    happen(engine, Event::Verdict(number, Some(Outcome::Complete)))
}

/// Takes a fetch, and answers what its scan asks. It answers the request.
fn ask(engine: &mut Engine, i: u64) -> Option<(u64, u16)> {
    let subscribers = (0..SUBSCRIBERS).map(|subscriber| (subscriber, 0)).collect();
    let key = Name::numbered(scattered(i) as u32);
    let mut told = fetch(
        engine,
        vec![Fetch {
            key,
            subscribers,
            targets: None,
        }],
    );
    let mut request = None;
    while let Some(asked) = told.last() {
        told = match *asked {
            Effect::Draw(bound) => draw(engine, u128::from(scattered(i)) % bound),
            Effect::Check(_) => check(engine),
            Effect::Request { id, peer, .. } => {
                request = Some((id, peer));
                send(engine)
            }
            _ => break,
        };
    }
    request
}

/// A response of one byte to a request.
fn response(id: u64) -> Vec<u8> {
    [&id.to_be_bytes()[..], &[1, 1, 0]].concat()
}

fn main() {
    let words: Vec<u64> = std::env::args()
        .skip(1)
        .map(|word| word.parse().unwrap())
        .collect();
    let (keys, peers) = (words[0], words[1]);
    let mut engine = Machine::new(Config {
        me: None,
        timeout: 1,
        delay: 1,
        limit: None,
    });
    let mut told = happen(&mut engine, Event::PeerSet(1, (0..peers as u16).collect())).len();
    let requests: Vec<(u64, u16)> = (0..keys).filter_map(|i| ask(&mut engine, i)).collect();
    for &(id, peer) in &requests {
        told += answer(&mut engine, peer, response(id)).len();
    }
    for number in 0..keys {
        told += complete(&mut engine, number).len();
    }
    println!("{} requests, {told} effects", requests.len());
}
