//! Random inputs and random bytes: no answer but a known one, effects and rows that can be read, and bytes
//! that are no input change nothing.

mod common;

use common::{actor_input, core_input};
use resolver::source::{self, Actor};
use resolver::{
    Answer, Ask, Check, Core, Effect, Event, Fault, Name, Outcome, Records, Room, Row, Seeded,
    Settings, Wanted, Width,
};

const STEPS: usize = 10_000;

/// Makes inputs, most of them such as a machine may be given.
struct Author {
    seeded: Seeded,
    now: u128,
    index: u64,
    /// Peers that were asked last, with the ids.
    requests: Vec<(u64, u64)>,
    /// The last deliveries.
    deliveries: Vec<u64>,
    /// The last requests of peers, or attempts of an actor.
    serves: Vec<u64>,
}

/// Adds one that may be open, and forgets the oldest.
fn remember<T>(list: &mut Vec<T>, one: T) {
    if list.len() == 8 {
        list.remove(0);
    }
    list.push(one);
}

impl Author {
    fn new(seed: u64) -> Author {
        Author {
            seeded: Seeded::new(seed),
            now: 0,
            index: 0,
            requests: Vec::new(),
            deliveries: Vec::new(),
            serves: Vec::new(),
        }
    }

    /// An effect that can be answered.
    fn note<const N: usize>(&mut self, effect: &Effect<'_, N>) {
        match effect {
            Effect::Ask(Ask::Request { peer, id, .. }) => {
                let last = peer.0.last_chunk().expect("eight bytes");
                remember(&mut self.requests, (u64::from_be_bytes(*last), *id));
            }
            Effect::Deliver { number, .. } => remember(&mut self.deliveries, *number),
            Effect::Produce { serve, .. } => remember(&mut self.serves, *serve),
            _ => {}
        }
    }

    /// One of a list, or any number of a few.
    fn one_of(&mut self, list: &[u64]) -> u64 {
        let at = self.below(list.len() as u64 + 1) as usize;
        list.get(at).copied().unwrap_or(at as u64)
    }

    fn below(&mut self, bound: u64) -> u64 {
        self.seeded.word() % bound
    }

    fn name<const N: usize>(&mut self, bound: u64) -> Name<N>
    where
        Name<N>: Width,
    {
        Name::numbered(self.below(bound))
    }

    fn names<const N: usize>(&mut self, least: u64) -> Vec<Name<N>>
    where
        Name<N>: Width,
    {
        let count = least + self.below(5);
        (0..count).map(|_| self.name(6)).collect()
    }

    fn subscribers(&mut self) -> Vec<(u64, u64)> {
        let count = 1 + self.below(3);
        (0..count).map(|_| (self.below(5), self.below(100))).collect()
    }

    fn pairs<const N: usize>(&mut self) -> Vec<(Name<N>, u64)>
    where
        Name<N>: Width,
    {
        let count = self.below(6);
        (0..count).map(|_| (self.name(8), self.below(5))).collect()
    }

    fn bytes(&mut self) -> Vec<u8> {
        let count = self.below(20);
        (0..count).map(|_| self.seeded.word() as u8).collect()
    }

    fn outcome(&mut self) -> Option<Outcome> {
        match self.below(8) {
            0 => Some(Outcome::Partial),
            1 => Some(Outcome::Invalid),
            2 => Some(Outcome::Unresolved),
            3 => Some(Outcome::Ignored),
            4 => None,
            _ => Some(Outcome::Complete),
        }
    }

    /// A peer and its message, mostly one that answers a late request.
    fn message<const N: usize>(&mut self) -> (Name<N>, Vec<u8>)
    where
        Name<N>: Width,
    {
        let at = self.below(self.requests.len() as u64 + 2) as usize;
        let (peer, id) = self.requests.get(at).copied().unwrap_or((3, at as u64));
        let key = self.name::<N>(8);
        let bytes = match self.below(8) {
            0 => self.bytes(),
            1 => [&id.to_be_bytes()[..], &[2]].concat(),
            2 => [&id.to_be_bytes()[..], &[0], &key.0].concat(),
            _ => [&id.to_be_bytes()[..], &[1, 2, 104, 105]].concat(),
        };
        (Name::numbered(peer), bytes)
    }

    fn fetch<const N: usize>(&mut self, out: &mut Vec<u8>)
    where
        Name<N>: Width,
    {
        let subscribers = self.subscribers();
        let targets = (self.below(3) == 0).then(|| self.names(1));
        let (key, other) = (self.name(8), self.name(8));
        let wanted =
            |key: Name<N>| Wanted { key, subscribers: &subscribers, targets: targets.as_deref() };
        Event::Fetch(&[wanted(key), wanted(other)]).spell(self.now, out);
    }

    /// An event for a core.
    fn event<const N: usize>(&mut self, out: &mut Vec<u8>)
    where
        Name<N>: Width,
    {
        self.now += u128::from(self.below(20));
        let now = self.now;
        match self.below(16) {
            0..4 => self.fetch::<N>(out),
            4 => Event::Retain(&self.pairs::<N>()).spell(now, out),
            5 => {
                self.index += self.below(2);
                let (index, peers) = (self.index, self.names::<N>(3));
                Event::PeerSet { index, peers: &peers }.spell(now, out);
            }
            6 => {
                let blocked = self.names::<N>(0);
                let count = blocked.len().min(self.below(2) as usize);
                Event::Blocked(&blocked[..count]).spell(now, out);
            }
            7 => Event::<'_, N>::ActiveDue.spell(now, out),
            8 => Event::<'_, N>::PendingDue.spell(now, out),
            9..11 => {
                let (open, outcome) = (self.deliveries.clone(), self.outcome());
                let number = self.one_of(&open);
                let event: Event<'_, N> = Event::Verdict { number, outcome };
                event.spell(now, out);
            }
            11 => {
                let open = self.serves.clone();
                let (serve, value) = (self.one_of(&open), Some(&b"hi"[..]));
                let event: Event<'_, N> = Event::Served { serve, value };
                event.spell(now, out);
            }
            _ => {
                let (peer, bytes) = self.message::<N>();
                Event::Net { peer, bytes: &bytes }.spell(now, out);
            }
        }
    }

    /// An answer, mostly one that is asked for.
    fn answer<const N: usize>(&mut self, ask: &Ask<N>) -> Answer {
        let until = self.now + u128::from(self.below(30));
        match (self.below(12), ask) {
            (0, _) => Answer::Sent(true),
            (1, _) => Answer::Drawn(self.seeded.word().into()),
            (_, Ask::Draw(bound)) => Answer::Drawn(u128::from(self.seeded.word() % 97) % bound),
            (2, Ask::Check(_)) => Answer::Checked(Check::Until(until)),
            (_, Ask::Check(_)) => Answer::Checked(Check::Clear),
            (_, Ask::Request { .. }) => Answer::Sent(self.below(8) > 0),
        }
    }

    /// An event for an actor.
    fn actor_event(&mut self, out: &mut Vec<u8>) {
        self.now += u128::from(self.below(20));
        let now = self.now;
        match self.below(12) {
            0..4 => {
                let (key, subscribers) = (self.name::<32>(8), self.subscribers());
                let subscribers = &subscribers[..];
                source::Event::Fetch(&[source::Wanted { key, subscribers }]).spell(now, out);
            }
            4 => source::Event::Retain(&self.pairs::<32>()).spell(now, out),
            5 => source::Event::<'_, 32>::RetriesDue.spell(now, out),
            6..9 => {
                let (open, bytes) = (self.serves.clone(), self.bytes());
                let attempt = self.one_of(&open);
                let value = (self.below(3) > 0).then_some(&bytes[..]);
                let event: source::Event<'_> = source::Event::Fetched { attempt, value };
                event.spell(now, out);
            }
            _ => {
                let (open, outcome) = (self.deliveries.clone(), self.outcome());
                let number = self.one_of(&open);
                let event: source::Event<'_> = source::Event::Verdict { number, outcome };
                event.spell(now, out);
            }
        }
    }

    /// Other bytes than these, of which little is changed, or any bytes.
    fn spoilt(&mut self, input: &[u8]) -> Vec<u8> {
        let mut bytes = input.to_vec();
        let at = self.below(bytes.len() as u64) as usize;
        match self.below(6) {
            0 => bytes.truncate(at),
            1 => bytes.push(self.seeded.word() as u8),
            2 => bytes[at] = self.seeded.word() as u8,
            3 => bytes[at] ^= 1 << self.below(8),
            4 => bytes.insert(at, self.below(3) as u8),
            _ => bytes = self.bytes(),
        }
        bytes
    }
}

/// What can be seen of a core beside its effects.
fn seen<const N: usize>(core: &mut Core<N>, room: &mut Room) -> String
where
    Name<N>: Width,
{
    let rows: Vec<u8> = core.rows(room).expect("rows").bytes().to_vec();
    format!("{rows:?} {:?} {:?}", core.deadlines(), core.metrics())
}

/// The rows are in the order of their keys, and each has subscribers, in their order.
fn assert_rows<const N: usize>(rows: &[u8]) {
    let rows: Vec<Row<'_, N>> = Records::of(rows).expect("rows").collect();
    assert!(rows.is_sorted_by(|a, b| a.key < b.key));
    for row in rows {
        assert!(row.subscribers.len() > 0);
        assert!(row.subscribers.iter().is_sorted_by(|a, b| a.0 < b.0));
    }
}

/// A core that takes inputs, and what its open scan asks.
struct Run<const N: usize> {
    core: Core<N>,
    room: Room,
    ask: Option<Ask<N>>,
    refused: usize,
    /// How often each kind of effect came.
    kinds: [usize; 9],
}

/// The place of an effect's kind.
fn kind<const N: usize>(effect: &Effect<'_, N>) -> usize {
    match effect {
        Effect::Ask(Ask::Draw(_)) => 0,
        Effect::Ask(Ask::Check(_)) => 1,
        Effect::Ask(Ask::Request { .. }) => 2,
        Effect::Deliver { .. } => 3,
        Effect::Cancel { .. } => 4,
        Effect::Produce { .. } => 5,
        Effect::Reply { .. } => 6,
        Effect::Credit { .. } => 7,
        Effect::Block { .. } => 8,
    }
}

impl<const N: usize> Run<N>
where
    Name<N>: Width,
{
    fn new(seed: u64) -> Run<N> {
        let settings = Settings {
            me: Some(Name::numbered(5)),
            fetch_timeout: 40,
            retry_delay: 10,
            peer_limit: seed as u32 % 3,
            priority_requests: true,
            priority_responses: false,
        };
        Run {
            core: Core::new(&settings).expect("a core"),
            room: Room::new(),
            ask: None,
            refused: 0,
            kinds: [0; 9],
        }
    }

    /// Takes an input, and answers the bytes of its effects, or why there are none.
    fn take(&mut self, input: &[u8]) -> Result<Vec<u8>, Fault> {
        match self.core.step(input, &mut self.room) {
            Ok(effects) => {
                let bytes = effects.bytes().to_vec();
                let told: Vec<Effect<'_, N>> = Records::of(&bytes).expect("effects").collect();
                told.iter().for_each(|effect| self.kinds[kind(effect)] += 1);
                let asks = told.iter().filter(|e| matches!(e, Effect::Ask(_))).count();
                self.ask = match told.last() {
                    Some(Effect::Ask(ask)) => Some(*ask),
                    _ => None,
                };
                assert_eq!(asks, usize::from(self.ask.is_some()), "a question is the last effect");
                Ok(bytes)
            }
            Err(fault) => {
                self.refused += 1;
                let told = self.core.told(&mut self.room).expect("what is told");
                assert_eq!(told.count(), 0, "a refusal has no effects");
                assert!(!fault.is_fatal(), "{fault:?}");
                assert!(!matches!(fault, Fault::Unknown(_)), "{fault:?}");
                Err(fault)
            }
        }
    }

    /// The next input: mostly an answer, where one is wanted.
    fn next(&self, author: &mut Author) -> Vec<u8> {
        let mut input = Vec::new();
        match &self.ask {
            Some(ask) if author.below(10) > 0 => author.answer(ask).spell(&mut input),
            _ => author.event::<N>(&mut input),
        }
        input
    }
}

/// Notes all that a step told.
fn note_all<const N: usize>(author: &mut Author, told: &Result<Vec<u8>, Fault>) {
    let told = told.as_deref().unwrap_or(&[]);
    let effects: Records<'_, Effect<'_, N>> = Records::of(told).expect("effects");
    effects.for_each(|effect| author.note(&effect));
}

/// Inputs to two cores, of which one is given bytes of another kind between any two of them: both
/// answer alike.
fn inputs_and_bytes<const N: usize>(seed: u64)
where
    Name<N>: Width,
{
    let mut author = Author::new(seed);
    let (mut plain, mut pestered) = (Run::<N>::new(seed), Run::<N>::new(seed));
    let mut misspelled = 0;
    for _ in 0..STEPS {
        let input = plain.next(&mut author);
        assert!(core_input::<N>(&input).is_some(), "{input:?}");
        let bytes = author.spoilt(&input);
        if core_input::<N>(&bytes).is_none() {
            let before = seen(&mut pestered.core, &mut pestered.room);
            assert_eq!(pestered.take(&bytes), Err(Fault::Misspelled), "{bytes:?}");
            assert_eq!(seen(&mut pestered.core, &mut pestered.room), before);
            misspelled += 1;
        }
        let wanted = plain.take(&input);
        note_all::<N>(&mut author, &wanted);
        assert_ne!(wanted, Err(Fault::Misspelled), "{input:?}");
        assert_eq!(pestered.take(&input), wanted);
        let rows = plain.core.rows(&mut plain.room).expect("rows");
        assert_rows::<N>(rows.bytes());
    }
    println!("{STEPS} inputs, {} refused; {misspelled} that were none", plain.refused);
    println!("effects by kind: {:?}", plain.kinds);
    assert!(misspelled > STEPS / 2 && plain.refused > 0);
    assert!(plain.kinds.iter().all(|count| *count > 0));
}

#[test]
fn random_inputs_of_a_core() {
    (0..3).for_each(inputs_and_bytes::<32>);
}

#[test]
fn random_inputs_with_names_of_eight_bytes() {
    inputs_and_bytes::<8>(3);
}

// Of bytes that are an input by chance, and of those that are none, the archive and the definitions say the
// same.
#[test]
fn random_bytes_to_a_core() {
    let mut author = Author::new(4);
    let mut run = Run::<32>::new(4);
    let (mut taken, mut none) = (0, 0);
    for _ in 0..STEPS {
        let input = run.next(&mut author);
        let bytes = author.spoilt(&input);
        match core_input::<32>(&bytes) {
            Some((_, common::Taken::End)) => continue,
            Some((now, _)) => {
                let taken_as = run.take(&bytes);
                assert_ne!(taken_as, Err(Fault::Misspelled), "{bytes:?}");
                note_all::<32>(&mut author, &taken_as);
                author.now = author.now.max(now.unwrap_or(0) % (1 << 40));
                taken += 1;
            }
            None => {
                assert_eq!(run.take(&bytes), Err(Fault::Misspelled), "{bytes:?}");
                none += 1;
            }
        }
    }
    println!("{taken} inputs by chance, {none} that were none");
    assert!(taken > 100 && none > STEPS / 2);
}

#[test]
fn random_inputs_and_bytes_of_an_actor() {
    let mut author = Author::new(5);
    let mut actor: Actor = Actor::new(10).expect("an actor");
    let mut room = Room::new();
    for _ in 0..STEPS {
        let mut input = Vec::new();
        author.actor_event(&mut input);
        let bytes = author.spoilt(&input);
        if actor_input::<32>(&bytes).is_none() {
            let before = actor.rows(&mut room).expect("rows").bytes().to_vec();
            let refused = actor.step(&bytes, &mut room).map(|told| told.bytes().to_vec());
            assert_eq!(refused, Err(Fault::Misspelled), "{bytes:?}");
            assert_eq!(actor.told(&mut room).expect("what is told").count(), 0);
            assert_eq!(actor.rows(&mut room).expect("rows").bytes(), before);
        }
        let effects = actor.step(&input, &mut room).expect("an actor refuses none of these");
        for effect in Records::<source::Effect<'_>>::of(effects.bytes()).expect("effects") {
            match effect {
                source::Effect::Start { attempt, .. } => remember(&mut author.serves, attempt),
                source::Effect::Deliver { number, .. } => remember(&mut author.deliveries, number),
                _ => {}
            }
        }
        assert_rows::<32>(actor.rows(&mut room).expect("rows").bytes());
    }
}

// After the end each event is refused, and each machine is closed with what it holds.
#[test]
fn nothing_is_taken_after_the_end() {
    let mut author = Author::new(6);
    let mut run = Run::<32>::new(0);
    run.core.happens(0, &Event::End, &mut run.room).expect("an end");
    for _ in 0..100 {
        let mut input = Vec::new();
        author.event::<32>(&mut input);
        let refused = run.core.step(&input, &mut run.room).map(|told| told.count());
        assert_eq!(refused, Err(Fault::Ended));
    }
    let refused = run.core.retain(0, &mut run.room, |_, _| true).map(|told| told.count());
    assert_eq!(refused, Err(Fault::Ended));
}
