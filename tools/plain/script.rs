//! A script for the actor, in plain Rust over the standard maps: what a line costs there, to compare
//! `resolver-replay` with. It reads what `tools/mixed` prints, and prints what `resolver-replay` does.
//!
//!     rustc -O tools/plain/script.rs -o script
//!     tools/mixed 60000 1 | valgrind --tool=callgrind ./script
use std::collections::{BTreeMap, BTreeSet, HashMap};
use std::io::{self, BufRead, BufWriter, Write};
use std::rc::Rc;

enum Phase {
    Waiting,
    Asked,
    Judged(u64),
}

struct Response {
    name: u64,
    value: Rc<[u8]>,
}

struct Row {
    subscribers: BTreeMap<u16, u64>,
    phase: Phase,
    response: Option<Response>,
}

struct Delivery {
    key: u8,
    subscribers: Vec<u16>,
}

struct Actor {
    delay: u128,
    now: u128,
    rows: BTreeMap<u8, Row>,
    waiting: BTreeSet<(u128, u8)>,
    attempts: HashMap<u64, u8>,
    deliveries: HashMap<u64, Delivery>,
    next_attempt: u64,
    next_number: u64,
}

fn deliver<W: Write>(out: &mut W, number: u64, key: u8, row: &Row) -> io::Result<()> {
    write!(out, "deliver {number} {key} ")?;
    for (at, subscriber) in row.subscribers.keys().enumerate() {
        if at > 0 {
            out.write_all(b",")?;
        }
        write!(out, "{subscriber}")?;
    }
    let response = row.response.as_ref().unwrap();
    out.write_all(b" x")?;
    for byte in response.value.iter() {
        const DIGITS: &[u8; 16] = b"0123456789abcdef";
        out.write_all(&[
            DIGITS[usize::from(byte >> 4)],
            DIGITS[usize::from(byte & 15)],
        ])?;
    }
    if response.name != number {
        write!(out, " again {}", response.name)?;
    }
    out.write_all(b"\n")
}

impl Actor {
    fn hand_out<W: Write>(&mut self, key: u8, out: &mut W) -> io::Result<()> {
        let number = self.next_number;
        self.next_number += 1;
        let row = self.rows.get_mut(&key).unwrap();
        row.phase = Phase::Judged(number);
        self.deliveries.insert(
            number,
            Delivery {
                key,
                subscribers: row.subscribers.keys().copied().collect(),
            },
        );
        deliver(out, number, key, row)
    }
    fn ask<W: Write>(&mut self, key: u8, out: &mut W) -> io::Result<()> {
        let attempt = self.next_attempt;
        self.next_attempt += 1;
        self.attempts.insert(attempt, key);
        writeln!(out, "start {attempt} {key}")
    }
    fn fetch<W: Write>(
        &mut self,
        key: u8,
        subscriber: u16,
        mark: u64,
        out: &mut W,
    ) -> io::Result<()> {
        if let Some(row) = self.rows.get_mut(&key) {
            row.subscribers.entry(subscriber).or_insert(mark);
            return Ok(());
        }
        self.ask(key, out)?;
        self.rows.insert(
            key,
            Row {
                subscribers: BTreeMap::from([(subscriber, mark)]),
                phase: Phase::Asked,
                response: None,
            },
        );
        Ok(())
    }
    fn fetched<W: Write>(
        &mut self,
        attempt: u64,
        value: Option<Vec<u8>>,
        out: &mut W,
    ) -> io::Result<()> {
        let Some(key) = self.attempts.remove(&attempt) else {
            return Ok(());
        };
        let row = self.rows.get_mut(&key).unwrap();
        match value {
            None => {
                let due = self.now + self.delay;
                row.phase = Phase::Waiting;
                self.waiting.insert((due, key));
                Ok(())
            }
            Some(value) => {
                row.response = Some(Response {
                    name: self.next_number,
                    value: value.into(),
                });
                self.hand_out(key, out)
            }
        }
    }
    fn verdict<W: Write>(&mut self, number: u64, out: &mut W) -> io::Result<()> {
        let Some(delivery) = self.deliveries.remove(&number) else {
            return Ok(());
        };
        let Some(row) = self.rows.get_mut(&delivery.key) else {
            return Ok(());
        };
        if !matches!(row.phase, Phase::Judged(n) if n == number) {
            return Ok(());
        }
        for subscriber in &delivery.subscribers {
            row.subscribers.remove(subscriber);
        }
        if row.subscribers.is_empty() {
            self.rows.remove(&delivery.key);
            return Ok(());
        }
        self.hand_out(delivery.key, out)
    }
    fn wake<W: Write>(&mut self, out: &mut W) -> io::Result<()> {
        while let Some(&(due, key)) = self.waiting.first() {
            if due > self.now {
                break;
            }
            self.waiting.pop_first();
            self.ask(key, out)?;
            self.rows.get_mut(&key).unwrap().phase = Phase::Asked;
        }
        Ok(())
    }
}

fn hex(text: &str) -> Option<Vec<u8>> {
    let digits = text.strip_prefix('x')?.as_bytes();
    if digits.len() % 2 != 0 {
        return None;
    }
    digits
        .chunks(2)
        .map(|pair| {
            let high = (pair[0] as char).to_digit(16)?;
            let low = (pair[1] as char).to_digit(16)?;
            Some((high * 16 + low) as u8)
        })
        .collect()
}

fn take<W: Write>(actor: &mut Actor, line: &str, out: &mut W) -> Option<io::Result<()>> {
    let mut fields = line.split(' ');
    Some(match fields.next()? {
        "at" => {
            actor.now = fields.next()?.parse().ok()?;
            Ok(())
        }
        "fetch" => {
            let key = fields.next()?.parse().ok()?;
            let subscriber = fields.next()?.parse().ok()?;
            let mark = fields.next()?.parse().ok()?;
            actor.fetch(key, subscriber, mark, out)
        }
        "fetched" => {
            let attempt = fields.next()?.parse().ok()?;
            let value = match fields.next()? {
                "none" => None,
                bytes => Some(hex(bytes)?),
            };
            actor.fetched(attempt, value, out)
        }
        "verdict" => {
            let number = fields.next()?.parse().ok()?;
            if fields.next()? != "complete" {
                return None;
            }
            actor.verdict(number, out)
        }
        "wake" => actor.wake(out),
        _ => return None,
    })
}

fn main() -> io::Result<()> {
    let mut input = io::stdin().lock();
    let mut out = BufWriter::new(io::stdout().lock());
    let mut line = String::new();
    input.read_line(&mut line)?;
    let delay = line
        .trim_end()
        .strip_prefix("opaque ")
        .unwrap()
        .parse()
        .unwrap();
    let mut actor = Actor {
        delay,
        now: 0,
        rows: BTreeMap::new(),
        waiting: BTreeSet::new(),
        attempts: HashMap::new(),
        deliveries: HashMap::new(),
        next_attempt: 0,
        next_number: 0,
    };
    let mut number = 1;
    loop {
        line.clear();
        if input.read_line(&mut line)? == 0 {
            break;
        }
        number += 1;
        let text = line.strip_suffix('\n').unwrap_or(&line);
        if text.is_empty() || text.starts_with('#') {
            continue;
        }
        match take(&mut actor, text, &mut out) {
            Some(done) => done?,
            None => {
                writeln!(out, "line {number} unreadable")?;
                break;
            }
        }
    }
    out.flush()
}
