//! A script of docs/SCRIPTS.md, played by the archive's machines, as lines that `resolver-replay` prints.
//!
//! A number stands for the name that has it in its last eight bytes, which keeps the order. Of a row the
//! archive tells the key and the subscribers, so that is all that `show` has of one here.

use resolver::source::{self, Actor};
use resolver::{
    Answer, Ask, Check, Core, Effect, Event, Fault, Name, Outcome, Room, Row, Settings,
    Subscribers, Wanted, Width,
};
use std::collections::BTreeSet;
use std::str::Split;

enum Machine<const N: usize> {
    Core(Core<N>),
    Actor(Actor<N>),
}

/// The keys that a script's plan wants.
struct Plan {
    subscriber: u64,
    mark: u64,
    wanted: BTreeSet<u64>,
}

/// A script that is played.
#[derive(Default)]
pub struct Player<const N: usize> {
    machine: Option<Machine<N>>,
    now: u128,
    plan: Option<Plan>,
    room: Room,
}

/// The fields of a line, all of which can be read.
struct Fields<'a>(Split<'a, char>);

impl<'a> Fields<'a> {
    fn word(&mut self) -> &'a str {
        self.0.next().expect("a field")
    }

    fn number(&mut self) -> u64 {
        self.word().parse().expect("a number")
    }

    fn wide(&mut self) -> u128 {
        self.word().parse().expect("a long number")
    }

    fn name<const N: usize>(&mut self) -> Name<N>
    where
        Name<N>: Width,
    {
        Name::numbered(self.number())
    }

    fn bytes(&mut self) -> Option<Vec<u8>> {
        bytes(self.word())
    }

    fn outcome(&mut self) -> Option<Outcome> {
        Some(match self.word() {
            "complete" => Outcome::Complete,
            "partial" => Outcome::Partial,
            "unresolved" => Outcome::Unresolved,
            "invalid" => Outcome::Invalid,
            "ignored" => Outcome::Ignored,
            "dropped" => return None,
            other => panic!("no outcome: {other}"),
        })
    }

    fn numbers(&mut self) -> Vec<u64> {
        match self.word() {
            "-" => Vec::new(),
            list => list.split(',').map(|n| n.parse().expect("a number")).collect(),
        }
    }

    fn names<const N: usize>(&mut self) -> Vec<Name<N>>
    where
        Name<N>: Width,
    {
        self.numbers().into_iter().map(Name::numbered).collect()
    }
}

fn bytes(word: &str) -> Option<Vec<u8>> {
    let digits = word.strip_prefix('x')?;
    let pairs = (0..digits.len()).step_by(2);
    Some(pairs.map(|at| u8::from_str_radix(&digits[at..at + 2], 16).expect("digits")).collect())
}

fn hex(bytes: &[u8]) -> String {
    let digits: String = bytes.iter().map(|byte| format!("{byte:02x}")).collect();
    format!("x{digits}")
}

/// A message whose key has one byte, as scripts have it, with a key of `N`.
fn widened<const N: usize>(message: Vec<u8>) -> Vec<u8>
where
    Name<N>: Width,
{
    match message[..] {
        [.., 0, key] if message.len() == 10 => {
            let name = Name::<N>::numbered(key.into());
            [&message[..9], &name.0].concat()
        }
        _ => message,
    }
}

fn number_of<const N: usize>(name: &Name<N>) -> u64 {
    let last = name.0.last_chunk().expect("eight bytes");
    u64::from_be_bytes(*last)
}

fn named(subscribers: &Subscribers<'_>) -> String {
    let names: Vec<String> = subscribers.iter().map(|(name, _)| name.to_string()).collect();
    names.join(",")
}

fn deliver(number: u64, response: u64, key: u64, to: &Subscribers<'_>, value: &[u8]) -> String {
    let line = format!("deliver {number} {key} {} {}", named(to), hex(value));
    if response == number { line } else { format!("{line} again {response}") }
}

fn line_of<const N: usize>(effect: Effect<'_, N>) -> String {
    match effect {
        Effect::Ask(Ask::Draw(bound)) => format!("draw {bound}"),
        Effect::Ask(Ask::Check(peer)) => format!("check {}", number_of(&peer)),
        Effect::Ask(Ask::Request { peer, id, key, .. }) => {
            format!("request {} {id} {}", number_of(&peer), number_of(&key))
        }
        Effect::Deliver { number, response, key, subscribers, value } => {
            deliver(number, response, number_of(&key), &subscribers, value)
        }
        Effect::Cancel { number } => format!("cancel {number}"),
        Effect::Produce { serve, key } => format!("produce {serve} {}", number_of(&key)),
        Effect::Reply { peer, bytes, .. } => format!("reply {} {}", number_of(&peer), hex(bytes)),
        Effect::Credit { response, peer, elapsed, bytes } => {
            format!("credit {response} {} {elapsed} {bytes}", number_of(&peer))
        }
        Effect::Block { response, peer } => format!("block {response} {}", number_of(&peer)),
    }
}

fn line_of_actor<const N: usize>(effect: source::Effect<'_, N>) -> String {
    match effect {
        source::Effect::Start { attempt, key } => format!("start {attempt} {}", number_of(&key)),
        source::Effect::Abort { attempt } => format!("abort {attempt}"),
        source::Effect::Deliver { number, response, key, subscribers, value } => {
            deliver(number, response, number_of(&key), &subscribers, value)
        }
        source::Effect::Cancel { number } => format!("cancel {number}"),
    }
}

fn line_of_row<const N: usize>(row: Row<'_, N>) -> String {
    let subscribers: Vec<String> =
        row.subscribers.iter().map(|(name, mark)| format!("{name}:{mark}")).collect();
    format!("key {} subs {}", number_of(&row.key), subscribers.join(","))
}

/// What a step prints.
fn printed<T>(
    told: Result<impl Iterator<Item = T>, Fault>,
    line: impl Fn(T) -> String,
) -> Vec<String> {
    match told {
        Ok(effects) => effects.map(line).collect(),
        Err(fault) => vec![format!("refused {} {fault:?}", fault.number())],
    }
}

impl<const N: usize> Player<N>
where
    Name<N>: Width,
{
    /// Does what a line says, and answers what it prints.
    pub fn play(&mut self, line: &str) -> Vec<String> {
        let mut fields = Fields(line.split(' '));
        match fields.word() {
            "opaque" => self.machine = Some(Machine::Actor(Actor::new(fields.wide()).unwrap())),
            "p2p" => self.machine = Some(Machine::Core(open(&mut fields))),
            "at" => self.now = fields.wide(),
            "backfill" => {
                self.plan = Some(Plan {
                    subscriber: fields.number(),
                    mark: fields.number(),
                    wanted: BTreeSet::new(),
                });
            }
            "want" => return self.want(&fields.numbers()),
            "done" => return self.done(&fields.numbers()),
            "show" => return self.show(),
            word => return self.step(word, &mut fields),
        }
        Vec::new()
    }

    fn step(&mut self, word: &str, fields: &mut Fields<'_>) -> Vec<String> {
        let Player { machine, now, room, .. } = self;
        match machine.as_mut().expect("a machine") {
            Machine::Core(core) => step_core(core, *now, room, word, fields),
            Machine::Actor(actor) => step_actor(actor, *now, room, word, fields),
        }
    }

    fn show(&mut self) -> Vec<String> {
        let room = &mut self.room;
        let (wake, rows) = match self.machine.as_mut().expect("a machine") {
            Machine::Core(core) => (core.deadlines().pending, core.rows(room)),
            Machine::Actor(actor) => (actor.next_retry(), actor.rows(room)),
        };
        let mut lines = printed(rows, line_of_row);
        lines.push(match wake {
            Some(moment) => format!("wake {moment}"),
            None => "wake none".into(),
        });
        lines
    }

    /// The plan wants those of these keys that it didn't want.
    fn want(&mut self, keys: &[u64]) -> Vec<String> {
        let plan = self.plan.as_ref().expect("a plan");
        let new: BTreeSet<u64> =
            keys.iter().copied().filter(|k| !plan.wanted.contains(k)).collect();
        let subscribers = [(plan.subscriber, plan.mark)];
        if new.is_empty() {
            return Vec::new();
        }
        let lines = self.fetch(&new, &subscribers);
        if !is_refused(&lines) {
            self.plan.as_mut().expect("a plan").wanted.extend(new);
        }
        lines
    }

    /// One fetch of several keys.
    fn fetch(&mut self, keys: &BTreeSet<u64>, subscribers: &[(u64, u64)]) -> Vec<String> {
        let names = keys.iter().map(|key| Name::numbered(*key));
        match self.machine.as_mut().expect("a machine") {
            Machine::Core(core) => {
                let items: Vec<Wanted<'_, N>> =
                    names.map(|key| Wanted { key, subscribers, targets: None }).collect();
                let event = Event::Fetch(&items);
                printed(core.happens(self.now, &event, &mut self.room), line_of)
            }
            Machine::Actor(actor) => {
                let items: Vec<source::Wanted<'_, N>> =
                    names.map(|key| source::Wanted { key, subscribers }).collect();
                let event = source::Event::Fetch(&items);
                printed(actor.happens(self.now, &event, &mut self.room), line_of_actor)
            }
        }
    }

    /// The plan wants these keys no more: pairs that leave, by one retain.
    fn done(&mut self, keys: &[u64]) -> Vec<String> {
        let plan = self.plan.as_ref().expect("a plan");
        let gone: BTreeSet<u64> =
            keys.iter().copied().filter(|k| plan.wanted.contains(k)).collect();
        let pair = |key: &u64| (Name::numbered(*key), plan.subscriber);
        let pairs: Vec<(Name<N>, u64)> = gone.iter().map(pair).collect();
        if pairs.is_empty() {
            return Vec::new();
        }
        let (now, room) = (self.now, &mut self.room);
        let lines = match self.machine.as_mut().expect("a machine") {
            Machine::Core(core) => {
                printed(core.happens(now, &Event::Retain(&pairs), room), line_of)
            }
            Machine::Actor(actor) => {
                let event = source::Event::Retain(&pairs);
                printed(actor.happens(now, &event, room), line_of_actor)
            }
        };
        if !is_refused(&lines) {
            let plan = self.plan.as_mut().expect("a plan");
            plan.wanted.retain(|key| !gone.contains(key));
        }
        lines
    }
}

fn is_refused(lines: &[String]) -> bool {
    lines.first().is_some_and(|line| line.starts_with("refused"))
}

fn open<const N: usize>(fields: &mut Fields<'_>) -> Core<N>
where
    Name<N>: Width,
{
    let me = fields.word();
    let settings = Settings {
        me: (me != "-").then(|| Name::numbered(me.parse().expect("a peer"))),
        fetch_timeout: fields.wide(),
        retry_delay: fields.wide(),
        peer_limit: fields.0.next().map_or(0, |limit| limit.parse().expect("a limit")),
        priority_requests: false,
        priority_responses: false,
    };
    Core::new(&settings).expect("settings in range")
}

/// The answer to a scan that a line is, if it is one.
fn answer_of(word: &str, fields: &mut Fields<'_>) -> Option<Answer> {
    Some(match word {
        "drawn" => Answer::Drawn(fields.wide()),
        "checked" => Answer::Checked(match fields.word() {
            "clear" => Check::Clear,
            moment => Check::Until(moment.parse().expect("a moment")),
        }),
        "sent" => Answer::Sent(fields.word() == "accepted"),
        _ => return None,
    })
}

fn step_core<const N: usize>(
    core: &mut Core<N>,
    now: u128,
    room: &mut Room,
    word: &str,
    fields: &mut Fields<'_>,
) -> Vec<String>
where
    Name<N>: Width,
{
    if let Some(answer) = answer_of(word, fields) {
        return printed(core.answers(answer, room), line_of);
    }
    let told = match word {
        "fetch" => {
            let key = fields.name();
            let subscribers = &[(fields.number(), fields.number())];
            let targets = fields.0.next().map(|list| Fields(list.split(' ')).names());
            let wanted = Wanted { key, subscribers, targets: targets.as_deref() };
            core.happens(now, &Event::Fetch(&[wanted]), room)
        }
        "keep-sub" => {
            let kept = fields.number();
            core.retain(now, room, |_, subscriber| subscriber == kept)
        }
        "drop-key" => {
            let gone = fields.name();
            core.retain(now, room, |key, _| *key != gone)
        }
        "verdict" => {
            let (number, outcome) = (fields.number(), fields.outcome());
            core.happens(now, &Event::Verdict { number, outcome }, room)
        }
        "peers" => {
            let (index, peers) = (fields.number(), fields.names());
            core.happens(now, &Event::PeerSet { index, peers: &peers }, room)
        }
        "blocked" => core.happens(now, &Event::Blocked(&fields.names()), room),
        "net" => {
            let peer = fields.name();
            let bytes = widened::<N>(fields.bytes().expect("bytes"));
            core.happens(now, &Event::Net { peer, bytes: &bytes }, room)
        }
        "served" => {
            let (serve, value) = (fields.number(), fields.bytes());
            let value = value.as_deref();
            core.happens(now, &Event::Served { serve, value }, room)
        }
        "timeout" => core.happens(now, &Event::ActiveDue, room),
        "wake" => core.happens(now, &Event::PendingDue, room),
        "stop" => core.happens(now, &Event::End, room),
        other => panic!("no line of an engine: {other}"),
    };
    printed(told, line_of)
}

fn step_actor<const N: usize>(
    actor: &mut Actor<N>,
    now: u128,
    room: &mut Room,
    word: &str,
    fields: &mut Fields<'_>,
) -> Vec<String>
where
    Name<N>: Width,
{
    let told = match word {
        "fetch" => {
            let key = fields.name();
            let subscribers = &[(fields.number(), fields.number())];
            let wanted = source::Wanted { key, subscribers };
            actor.happens(now, &source::Event::Fetch(&[wanted]), room)
        }
        "keep-sub" => {
            let kept = fields.number();
            actor.retain(now, room, |_, subscriber| subscriber == kept)
        }
        "drop-key" => {
            let gone = fields.name();
            actor.retain(now, room, |key, _| *key != gone)
        }
        "verdict" => {
            let (number, outcome) = (fields.number(), fields.outcome());
            actor.happens(now, &source::Event::Verdict { number, outcome }, room)
        }
        "fetched" => {
            let (attempt, value) = (fields.number(), fields.bytes());
            let value = value.as_deref();
            actor.happens(now, &source::Event::Fetched { attempt, value }, room)
        }
        "wake" => actor.happens(now, &source::Event::RetriesDue, room),
        "stop" => actor.happens(now, &source::Event::End, room),
        other => panic!("no line of an actor: {other}"),
    };
    printed(told, line_of_actor)
}
