//! Random scripts for the engine, and what the peer machine in plain Rust prints for each.
//!
//!     rustc --edition 2024 -O tools/plain/peer_scripts.rs -o peer_scripts
//!     ./peer_scripts any 7 300         # of all kinds of lines, refused ones too
//!     ./peer_scripts mixed 1 60000     # as an engine meets them, to count what a line costs
//!
//! The second word is a seed, the third the number of lines. The script goes to standard output. What a scan asks is
//! answered as its question wants, so the lines come from the machine that they are fed to.
#![allow(dead_code)]

mod peers;

use peers::script::open;
use std::io::{self, BufWriter, Write};

/// Numbers that follow from a seed.
struct Draws(u64);

impl Draws {
    fn next(&mut self) -> u64 {
        self.0 = self.0.wrapping_add(0x9e37_79b9_7f4a_7c15);
        let mixed = (self.0 ^ self.0 >> 30).wrapping_mul(0xbf58_476d_1ce4_e5b9);
        let mixed = (mixed ^ mixed >> 27).wrapping_mul(0x94d0_49bb_1331_11eb);
        mixed ^ mixed >> 31
    }

    /// A number below this one.
    fn below(&mut self, bound: u64) -> u64 {
        self.next() % bound
    }

    fn is_one_in(&mut self, count: u64) -> bool {
        self.below(count) == 0
    }

    fn pick<'a, T>(&mut self, items: &'a [T]) -> &'a T {
        &items[self.below(items.len() as u64) as usize]
    }

    /// So many numbers below a bound at the most, joined by commas.
    fn list(&mut self, most: u64, bound: u64) -> String {
        let count = self.below(most + 1);
        let items: Vec<String> = (0..count).map(|_| self.below(bound).to_string()).collect();
        if items.is_empty() {
            "-".into()
        } else {
            items.join(",")
        }
    }

    fn hex(&mut self, most: u64) -> String {
        let count = self.below(most + 1);
        (0..count)
            .map(|_| format!("{:02x}", self.below(256)))
            .collect()
    }
}

/// How many names there are.
struct Sizes {
    keys: u64,
    peers: u64,
    subscribers: u64,
}

/// What a machine was told that can be answered: what its scan asks, and what is open.
#[derive(Default)]
struct Open {
    question: Option<Question>,
    requests: Vec<(u64, u64)>,
    deliveries: Vec<u64>,
    serves: Vec<u64>,
}

#[derive(Clone, Copy)]
enum Question {
    Draw(u128),
    Check,
    Request(u64, u64),
}

struct Author {
    draws: Draws,
    sizes: Sizes,
    is_mixed: bool,
    now: u128,
    index: u64,
    open: Open,
}

impl Author {
    fn first_line(&mut self) -> String {
        if self.is_mixed {
            return "p2p - 50 10".into();
        }
        let draws = &mut self.draws;
        let me = match draws.below(3) {
            0 => "-".into(),
            _ => draws.below(self.sizes.peers).to_string(),
        };
        let limit = match draws.below(3) {
            0 => format!(" {}", 1 + draws.below(3)),
            _ => String::new(),
        };
        format!(
            "p2p {me} {} {}{limit}",
            20 + draws.below(100),
            draws.below(20)
        )
    }

    fn line(&mut self) -> String {
        let is_strict = self.is_mixed || !self.draws.is_one_in(12);
        match self.open.question {
            Some(question) if is_strict => self.answer(question),
            None if self.is_mixed => self.usual(),
            _ => self.any(),
        }
    }

    /// What a scan asks is answered.
    fn answer(&mut self, question: Question) -> String {
        let draws = &mut self.draws;
        match question {
            Question::Draw(bound) => format!("drawn {}", u128::from(draws.next()) % bound),
            Question::Check if !self.is_mixed && draws.is_one_in(4) => {
                format!("checked {}", self.now + u128::from(draws.below(40)))
            }
            Question::Check => "checked clear".into(),
            Question::Request(..) if !self.is_mixed && draws.is_one_in(4) => "sent refused".into(),
            Question::Request(peer, id) => {
                self.open.requests.push((peer, id));
                "sent accepted".into()
            }
        }
    }

    /// A line as an engine meets it: half are fetches, the rest answers, verdicts and moments.
    fn usual(&mut self) -> String {
        match self.draws.below(10) {
            0..4 => self.fetch(),
            4..6 if !self.open.requests.is_empty() => {
                let (peer, id) = self.open.requests.remove(0);
                match self.draws.is_one_in(8) {
                    true => format!("net {peer} x{id:016x}02"),
                    false => format!("net {peer} x{id:016x}0108{:016x}", self.draws.next()),
                }
            }
            6..8 if !self.open.deliveries.is_empty() => {
                format!("verdict {} complete", self.open.deliveries.remove(0))
            }
            8 => {
                self.now += 1;
                format!("at {}", self.now)
            }
            _ => "wake".into(),
        }
    }

    fn fetch(&mut self) -> String {
        let draws = &mut self.draws;
        let (key, subscriber) = (
            draws.below(self.sizes.keys),
            draws.below(self.sizes.subscribers),
        );
        let mark = draws.below(100);
        let targets = match !self.is_mixed && draws.is_one_in(3) {
            true => format!(
                " {},{}",
                draws.below(self.sizes.peers),
                draws.below(self.sizes.peers)
            ),
            false => String::new(),
        };
        format!("fetch {key} {subscriber} {mark}{targets}")
    }

    /// A line of any kind.
    fn any(&mut self) -> String {
        let Sizes {
            keys,
            peers,
            subscribers,
        } = self.sizes;
        let draws = &mut self.draws;
        match draws.below(40) {
            0..8 => self.fetch(),
            8 => format!("drop-key {}", draws.below(keys)),
            9 if draws.is_one_in(2) => format!("keep-sub {}", draws.below(subscribers)),
            9..17 => self.verdict(),
            17..19 => "wake".into(),
            19..21 => "timeout".into(),
            21 => {
                self.index += draws.below(3);
                format!("peers {} {}", self.index, draws.list(8, peers))
            }
            22 => format!("blocked {}", draws.list(2, peers)),
            23..31 => self.message(),
            31..33 => self.served(),
            33 => "show".into(),
            34 => self.planned(),
            35 => self.stray(),
            _ => self.moment(),
        }
    }

    fn verdict(&mut self) -> String {
        const WORDS: &[&str] = &[
            "complete",
            "complete",
            "partial",
            "unresolved",
            "invalid",
            "ignored",
            "dropped",
        ];
        let number = match self.open.deliveries.is_empty() || self.draws.is_one_in(9) {
            true => self.draws.below(20),
            false => *self.draws.pick(latest(&self.open.deliveries)),
        };
        format!("verdict {number} {}", self.draws.pick(WORDS))
    }

    /// A message: an answer to a request, mostly from its peer, a request, or bytes that are none.
    fn message(&mut self) -> String {
        let draws = &mut self.draws;
        let (peer, id) = match self.open.requests.is_empty() {
            true => (draws.below(self.sizes.peers), draws.next()),
            false => *draws.pick(latest(&self.open.requests)),
        };
        let peer = if draws.is_one_in(8) {
            draws.below(self.sizes.peers)
        } else {
            peer
        };
        let value = draws.hex(3);
        let length = value.len() / 2;
        match draws.below(10) {
            0..5 => format!("net {peer} x{id:016x}01{length:02x}{value}"),
            5..7 => format!("net {peer} x{id:016x}02"),
            7..9 => format!("net {peer} x{id:016x}00{:02x}", draws.below(256)),
            _ => format!("net {peer} x{id:016x}{}", draws.hex(4)),
        }
    }

    fn served(&mut self) -> String {
        let number = match self.open.serves.is_empty() || self.draws.is_one_in(9) {
            true => self.draws.below(20),
            false => *self.draws.pick(latest(&self.open.serves)),
        };
        match self.draws.is_one_in(3) {
            true => format!("served {number} dropped"),
            false => format!("served {number} x{}", self.draws.hex(140)),
        }
    }

    fn planned(&mut self) -> String {
        let draws = &mut self.draws;
        match draws.below(5) {
            0 => format!(
                "backfill {} {}",
                draws.below(self.sizes.subscribers),
                draws.below(100)
            ),
            1..4 => format!("want {}", draws.list(3, self.sizes.keys)),
            _ => format!("done {}", draws.list(3, self.sizes.keys)),
        }
    }

    /// An answer that nothing may have asked for, or, seldom, the end.
    fn stray(&mut self) -> String {
        match self.draws.below(80) {
            0 => "stop".into(),
            1..20 => "sent accepted".into(),
            20..40 => "checked clear".into(),
            _ => format!("drawn {}", self.draws.below(12)),
        }
    }

    fn moment(&mut self) -> String {
        self.now = match self.draws.is_one_in(10) {
            true => self.now.saturating_sub(u128::from(self.draws.below(30))),
            false => self.now + u128::from(self.draws.below(15)),
        };
        format!("at {}", self.now)
    }

    /// Notes what the machine told.
    fn hear(&mut self, told: &str) {
        let mut fields = told.split(' ');
        let word = fields.next();
        let mut number = || fields.next().and_then(|field| field.parse::<u128>().ok());
        let one = number().unwrap_or(0);
        match word {
            Some("draw") => self.open.question = Some(Question::Draw(one)),
            Some("check") => self.open.question = Some(Question::Check),
            Some("request") => {
                let id = number().unwrap_or(0) as u64;
                self.open.question = Some(Question::Request(one as u64, id));
            }
            Some("deliver") => self.open.deliveries.push(one as u64),
            Some("produce") => self.open.serves.push(one as u64),
            _ => {}
        }
    }
}

/// The last four of a list.
fn latest<T>(items: &[T]) -> &[T] {
    &items[items.len().saturating_sub(4)..]
}

/// Whether what was asked before a line is asked no more behind it.
fn is_answered(line: &str, printed: &str) -> bool {
    match printed.strip_prefix("refused ") {
        Some(refusal) => refusal.starts_with("3 ") || refusal.starts_with("5 "),
        None => ["drawn", "checked", "sent"]
            .iter()
            .any(|word| line.starts_with(word)),
    }
}

fn write<W: Write>(author: &mut Author, lines: u64, out: &mut W) -> io::Result<()> {
    let first = author.first_line();
    writeln!(out, "{first}")?;
    let mut session = open(first.as_bytes()).expect("the line opens a machine");
    for number in 0..lines {
        let line = match number {
            0 => format!("peers 0 {}", names(author.sizes.peers)),
            _ => author.line(),
        };
        let mut printed = Vec::new();
        if session.take(line.as_bytes(), &mut printed).is_err() {
            continue;
        }
        writeln!(out, "{line}")?;
        let printed = String::from_utf8(printed).expect("effects are text");
        if is_answered(&line, &printed) {
            author.open.question = None;
        }
        printed.lines().for_each(|told| author.hear(told));
    }
    Ok(())
}

fn names(count: u64) -> String {
    let names: Vec<String> = (0..count).map(|peer| peer.to_string()).collect();
    names.join(",")
}

fn main() -> io::Result<()> {
    let words: Vec<String> = std::env::args().skip(1).collect();
    let [kind, seed, lines] = &words[..] else {
        return Err(io::Error::other("usage: peer_scripts any|mixed SEED LINES"));
    };
    let number = |word: &String| word.parse::<u64>().map_err(io::Error::other);
    let is_mixed = kind == "mixed";
    let (keys, peers, subscribers) = if is_mixed { (256, 16, 4) } else { (6, 7, 3) };
    let mut author = Author {
        draws: Draws(number(seed)?),
        sizes: Sizes {
            keys,
            peers,
            subscribers,
        },
        is_mixed,
        now: 0,
        index: 0,
        open: Open::default(),
    };
    let mut out = BufWriter::new(io::stdout().lock());
    write(&mut author, number(lines)?, &mut out)?;
    out.flush()
}
