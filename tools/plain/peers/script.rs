//! Scripts for the peer machine: what their lines say, and what is printed for each effect.

use super::{Answer, Config, Effect, Event, Fetch, Machine, Outcome, Phase, Refusal, Row};
use std::collections::BTreeSet;
use std::io::{self, Write};

type Keep = Box<dyn Fn(&u8, &u16) -> bool>;

type Step = Event<u8, u8, u16, Keep>;

/// Why a line was not done.
pub enum Fault {
    Unreadable,
    Output(io::Error),
}

impl From<io::Error> for Fault {
    fn from(error: io::Error) -> Self {
        Fault::Output(error)
    }
}

/// The keys that a script's plan wants.
struct Plan {
    subscriber: u16,
    mark: u64,
    wanted: BTreeSet<u8>,
}

/// What a script opened, and the moment of its next input.
pub struct Session {
    machine: Machine<u8, u8, u16>,
    now: u128,
    plan: Option<Plan>,
}

/// The fields of a line.
struct Fields<'a>(std::str::Split<'a, char>);

impl<'a> Fields<'a> {
    fn next(&mut self) -> Option<&'a str> {
        self.0.next()
    }

    fn number(&mut self, most: u128) -> Option<u128> {
        number(self.next()?, most)
    }

    fn key(&mut self) -> Option<u8> {
        Some(self.number(255)? as u8)
    }

    fn count(&mut self) -> Option<u64> {
        Some(self.number(u64::MAX.into())? as u64)
    }

    fn moment(&mut self) -> Option<u128> {
        self.number((1 << 94) - 1)
    }

    /// Bytes, or this word that says that there are none.
    fn bytes_or(&mut self, none: &str) -> Option<Option<Vec<u8>>> {
        match self.next()? {
            word if word == none => Some(None),
            field => Some(Some(bytes(field)?)),
        }
    }
}

/// A decimal number without sign or leading zeros.
fn number(field: &str, most: u128) -> Option<u128> {
    let digits = field.as_bytes();
    let is_plain = digits.iter().all(u8::is_ascii_digit)
        && (digits.len() == 1 || digits.first() != Some(&b'0'));
    let number = is_plain.then(|| field.parse().ok())??;
    (number <= most).then_some(number)
}

fn list(field: &str) -> Option<Vec<u8>> {
    if field == "-" {
        return Some(Vec::new());
    }
    field.split(',').map(|part| Some(number(part, 255)? as u8)).collect()
}

fn bytes(field: &str) -> Option<Vec<u8>> {
    let digits = field.strip_prefix('x')?.as_bytes();
    if digits.len() % 2 != 0 {
        return None;
    }
    let digit = |byte: u8| char::from(byte).to_digit(16);
    digits.chunks(2).map(|pair| Some((digit(pair[0])? * 16 + digit(pair[1])?) as u8)).collect()
}

fn outcome(field: &str) -> Option<Option<Outcome>> {
    Some(Some(match field {
        "complete" => Outcome::Complete,
        "partial" => Outcome::Partial,
        "unresolved" => Outcome::Unresolved,
        "invalid" => Outcome::Invalid,
        "ignored" => Outcome::Ignored,
        "dropped" => return Some(None),
        _ => return None,
    }))
}

/// The machine that a first line opens.
pub fn open(line: &[u8]) -> Option<Session> {
    let mut fields = Fields(str::from_utf8(line).ok()?.split(' '));
    if fields.next()? != "p2p" {
        return None;
    }
    let me = match fields.next()? {
        "-" => None,
        field => Some(number(field, 255)? as u8),
    };
    let timeout = fields.moment().filter(|timeout| *timeout > 0)?;
    let delay = fields.moment()?;
    let limit = match fields.next() {
        None => None,
        Some(field) => Some(number(field, u32::MAX.into()).filter(|limit| *limit > 0)? as usize),
    };
    if fields.next().is_some() {
        return None;
    }
    Some(Session {
        machine: Machine::new(Config { me, timeout, delay, limit }),
        now: 0,
        plan: None,
    })
}

/// Whether a line is skipped: it is empty or a comment.
pub fn is_skipped(line: &[u8]) -> bool {
    matches!(line, [] | [b'#', ..])
}

impl Session {
    /// Does what a line says, and prints what comes of it.
    pub fn take<W: Write>(&mut self, line: &[u8], out: &mut W) -> Result<(), Fault> {
        let text = str::from_utf8(line).map_err(|_| Fault::Unreadable)?;
        match self.command(&mut Fields(text.split(' ')), out) {
            Some(printed) => Ok(printed?),
            None => Err(Fault::Unreadable),
        }
    }

    /// Does what the fields say, if they can be read.
    fn command<W: Write>(
        &mut self,
        fields: &mut Fields<'_>,
        out: &mut W,
    ) -> Option<io::Result<()>> {
        let word = fields.next()?;
        if let Some(event) = event(word, fields)? {
            end(fields)?;
            return Some(self.happen(event, out).map(|_| ()));
        }
        match word {
            "at" => {
                let now = fields.moment()?;
                end(fields)?;
                self.now = now;
                Some(Ok(()))
            }
            "show" => {
                end(fields)?;
                Some(self.show(out))
            }
            "drawn" | "checked" | "sent" => {
                let answer = answer(word, fields.next()?)?;
                end(fields)?;
                Some(print_all(self.machine.answer(answer), out).map(|_| ()))
            }
            _ => self.planned(word, fields, out),
        }
    }

    /// Feeds what happened, and says whether it was taken.
    fn happen<W: Write>(&mut self, event: Step, out: &mut W) -> io::Result<bool> {
        print_all(self.machine.happen(self.now, event), out)
    }

    fn planned<W: Write>(
        &mut self,
        word: &str,
        fields: &mut Fields<'_>,
        out: &mut W,
    ) -> Option<io::Result<()>> {
        match word {
            "backfill" => {
                let (subscriber, mark) = (fields.number(65_535)? as u16, fields.count()?);
                end(fields)?;
                let wanted = BTreeSet::new();
                self.plan = Some(Plan { subscriber, mark, wanted });
                Some(Ok(()))
            }
            "want" | "done" => {
                let keys = list(fields.next()?)?;
                end(fields)?;
                let mut plan = self.plan.take()?;
                let done = if word == "want" {
                    self.want(&mut plan, keys, out)
                } else {
                    self.done(&mut plan, keys, out)
                };
                self.plan = Some(plan);
                Some(done)
            }
            _ => None,
        }
    }

    fn want<W: Write>(&mut self, plan: &mut Plan, keys: Vec<u8>, out: &mut W) -> io::Result<()> {
        let keys: BTreeSet<u8> = keys.into_iter().collect();
        let new: Vec<u8> = keys.difference(&plan.wanted).copied().collect();
        let fetch = |key: &u8| Fetch {
            key: *key,
            subscribers: vec![(plan.subscriber, plan.mark)],
            targets: None,
        };
        if !new.is_empty() && self.happen(Event::Fetch(new.iter().map(fetch).collect()), out)? {
            plan.wanted.extend(new);
        }
        Ok(())
    }

    fn done<W: Write>(&mut self, plan: &mut Plan, keys: Vec<u8>, out: &mut W) -> io::Result<()> {
        let old: BTreeSet<u8> = keys.into_iter().filter(|key| plan.wanted.contains(key)).collect();
        if old.is_empty() {
            return Ok(());
        }
        let (wanted, subscriber) = (&plan.wanted - &old, plan.subscriber);
        let keep: Keep = Box::new(move |key, other| *other != subscriber || !old.contains(key));
        if self.happen(Event::Retain(keep), out)? {
            plan.wanted = wanted;
        }
        Ok(())
    }

    fn show<W: Write>(&self, out: &mut W) -> io::Result<()> {
        for (key, row) in self.machine.rows() {
            write!(out, "key {key} subs ")?;
            let pair = |(subscriber, mark): (&u16, &u64)| format!("{subscriber}:{mark}");
            print_list(row.subscribers.iter().map(pair), out)?;
            self.show_row(row, out)?;
        }
        match self.machine.wake_up() {
            Some(moment) => writeln!(out, "wake {moment}"),
            None => writeln!(out, "wake none"),
        }
    }

    fn show_row<W: Write>(&self, row: &Row<u8, u16>, out: &mut W) -> io::Result<()> {
        write!(out, " targets ")?;
        match &row.targets {
            None => write!(out, "all")?,
            Some(targets) => print_list(targets.listed.iter(), out)?,
        }
        write!(out, " retries {} phase ", row.retries)?;
        match row.phase {
            Phase::Waiting { is_retry, due } => {
                writeln!(out, "waiting {} {due}", if is_retry { "retry" } else { "fresh" })
            }
            Phase::Asked(id) => {
                let request = self.machine.request(id);
                writeln!(out, "asked {id} {} {}", request.peer, request.deadline)
            }
            Phase::Judged(number) => writeln!(out, "judged {number}"),
        }
    }
}

/// That there are no more fields.
fn end(fields: &mut Fields<'_>) -> Option<()> {
    fields.next().is_none().then_some(())
}

/// What happened, if the word says that something did. None, where it can't be read.
fn event(word: &str, fields: &mut Fields<'_>) -> Option<Option<Step>> {
    Some(Some(match word {
        "fetch" => fetch(fields)?,
        "keep-sub" => {
            let kept = fields.number(65_535)? as u16;
            Event::Retain(Box::new(move |_, subscriber| *subscriber == kept))
        }
        "drop-key" => {
            let dropped = fields.key()?;
            Event::Retain(Box::new(move |key, _| *key != dropped))
        }
        "verdict" => Event::Verdict(fields.count()?, outcome(fields.next()?)?),
        "wake" => Event::PendingDue,
        "stop" => Event::End,
        "timeout" => Event::ActiveDue,
        "peers" => Event::PeerSet(fields.count()?, list(fields.next()?)?),
        "blocked" => Event::Blocked(list(fields.next()?)?),
        "net" => Event::Net(fields.key()?, bytes(fields.next()?)?),
        "served" => Event::Served(fields.count()?, fields.bytes_or("dropped")?),
        _ => return Some(None),
    }))
}

fn fetch(fields: &mut Fields<'_>) -> Option<Step> {
    let key = fields.key()?;
    let subscribers = vec![(fields.number(65_535)? as u16, fields.count()?)];
    let targets = match fields.next() {
        None => None,
        Some(field) => Some(list(field).filter(|peers| !peers.is_empty())?),
    };
    Some(Event::Fetch(vec![Fetch { key, subscribers, targets }]))
}

fn answer(word: &str, field: &str) -> Option<Answer> {
    match (word, field) {
        ("drawn", _) => Some(Answer::Drawn(number(field, u128::MAX)?)),
        ("checked", "clear") => Some(Answer::Checked(None)),
        ("checked", _) => Some(Answer::Checked(Some(number(field, u128::MAX)?))),
        ("sent", "accepted") => Some(Answer::Sent(true)),
        ("sent", "refused") => Some(Answer::Sent(false)),
        _ => None,
    }
}

/// Prints what came of an input, and says whether it was taken.
fn print_all<W: Write>(
    answered: Result<Vec<Effect<u8, u8, u16>>, Refusal>,
    out: &mut W,
) -> io::Result<bool> {
    match answered {
        Ok(effects) => {
            effects.into_iter().try_for_each(|effect| print(effect, out))?;
            Ok(true)
        }
        Err(refusal) => {
            let name = match refusal {
                Refusal::Ended => "Ended",
                Refusal::Busy => "Busy",
                Refusal::Unasked => "Unasked",
                Refusal::OutOfRange => "OutOfRange",
            };
            writeln!(out, "refused {} {name}", refusal as u8)?;
            Ok(false)
        }
    }
}

fn print<W: Write>(effect: Effect<u8, u8, u16>, out: &mut W) -> io::Result<()> {
    match effect {
        Effect::Draw(below) => writeln!(out, "draw {below}"),
        Effect::Check(peer) => writeln!(out, "check {peer}"),
        Effect::Request { peer, id, key } => writeln!(out, "request {peer} {id} {key}"),
        Effect::Deliver { number, response, key, subscribers, value } => {
            write!(out, "deliver {number} {key} ")?;
            print_list(subscribers.iter().map(|(subscriber, _)| subscriber), out)?;
            out.write_all(b" ")?;
            print_bytes(&value, out)?;
            if response != number {
                write!(out, " again {response}")?;
            }
            out.write_all(b"\n")
        }
        Effect::Cancel(number) => writeln!(out, "cancel {number}"),
        Effect::Produce(serve, key) => writeln!(out, "produce {serve} {key}"),
        Effect::Reply(peer, message) => {
            write!(out, "reply {peer} ")?;
            print_bytes(&message, out)?;
            out.write_all(b"\n")
        }
        Effect::Credit { response, peer, elapsed, bytes } => {
            writeln!(out, "credit {response} {peer} {elapsed} {bytes}")
        }
        Effect::Block { response, peer } => writeln!(out, "block {response} {peer}"),
    }
}

fn print_list<W: Write, T: std::fmt::Display>(
    items: impl Iterator<Item = T>,
    out: &mut W,
) -> io::Result<()> {
    for (at, item) in items.enumerate() {
        if at > 0 {
            out.write_all(b",")?;
        }
        write!(out, "{item}")?;
    }
    Ok(())
}

fn print_bytes<W: Write>(bytes: &[u8], out: &mut W) -> io::Result<()> {
    const DIGITS: &[u8; 16] = b"0123456789abcdef";
    out.write_all(b"x")?;
    for byte in bytes {
        let (high, low) = (usize::from(byte >> 4), usize::from(byte & 15));
        out.write_all(&[DIGITS[high], DIGITS[low]])?;
    }
    Ok(())
}
