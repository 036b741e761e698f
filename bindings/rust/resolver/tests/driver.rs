//! A core whose scans the driver answers.

use resolver::wire::{Message, Payload};
use resolver::{
    Check, Core, Driver, Effect, Effects, Event, Fault, Name, Outcome, Room, Seeded, Settings,
    Transport, Wanted,
};
use std::panic::{AssertUnwindSafe, catch_unwind};

/// A way to the peers that notes what was sent.
#[derive(Default)]
struct Noted {
    sent: Vec<(Name, Vec<u8>, bool)>,
    checked: usize,
    /// What a peer may not be sent to before.
    until: Option<u128>,
    refuses: bool,
    panics: bool,
}

impl Transport for Noted {
    fn check(&mut self, _: Name) -> Check {
        self.checked += 1;
        self.until.map_or(Check::Clear, Check::Until)
    }

    fn send(&mut self, peer: Name, bytes: &[u8], priority: bool) -> bool {
        assert!(!self.panics, "the way breaks down");
        self.sent.push((peer, bytes.to_vec(), priority));
        !self.refuses
    }
}

const SETTINGS: Settings = Settings {
    me: None,
    fetch_timeout: 50,
    retry_delay: 10,
    peer_limit: 0,
    priority_requests: true,
    priority_responses: false,
};

/// A driver that knows peers 3 and 4, a way to them, and a room.
fn opened() -> (Driver<Seeded>, Noted, Room) {
    let core = Core::new(&SETTINGS).unwrap();
    let mut driver = Driver::new(core, Seeded::new(1));
    let (mut noted, mut room) = (Noted::default(), Room::new());
    let peers = [Name::numbered(3), Name::numbered(4)];
    let event = Event::PeerSet { index: 1, peers: &peers };
    assert_eq!(driver.feed(0, &event, &mut noted, &mut room).unwrap().count(), 0);
    (driver, noted, room)
}

fn wanted(key: u64) -> Wanted<'static> {
    Wanted { key: Name::numbered(key), subscribers: &[(10, 7)], targets: None }
}

/// The id and the key of a request.
fn request(bytes: &[u8]) -> (u64, Name) {
    match Message::read(bytes).unwrap() {
        Message { id, payload: Payload::Request(key) } => (id, key),
        other => panic!("no request: {other:?}"),
    }
}

fn response(id: u64, value: &[u8]) -> Vec<u8> {
    let mut bytes = Vec::new();
    let payload = Payload::Response(value);
    Message::<32> { id, payload }.write(&mut bytes).unwrap();
    bytes
}

#[test]
fn a_key_is_asked_for_and_comes() {
    let (mut driver, mut noted, mut room) = opened();
    driver.feed(0, &Event::Fetch(&[wanted(1)]), &mut noted, &mut room).unwrap();
    let (peer, bytes, priority) = noted.sent[0].clone();
    let (id, key) = request(&bytes);
    assert_eq!((key, priority, noted.checked), (Name::numbered(1), true, 1));
    assert_eq!(driver.deadlines().active, Some(50));
    let bytes = response(id, b"hi");
    let event = Event::Net { peer, bytes: &bytes };
    let told: Vec<_> = driver.feed(20, &event, &mut noted, &mut room).unwrap().collect();
    assert!(matches!(told[..], [Effect::Deliver { number: 0, value: b"hi", .. }]));
    let event = Event::Verdict { number: 0, outcome: Some(Outcome::Complete) };
    let told: Vec<_> = driver.feed(20, &event, &mut noted, &mut room).unwrap().collect();
    let credit = Effect::Credit { response: 0, peer, elapsed: 20, bytes: 2 };
    assert_eq!(told, [credit]);
    assert_eq!(driver.rows(&mut room).unwrap().count(), 0);
}

// A step sends one request at most: what else is due goes out by `due`.
#[test]
fn all_that_is_due_is_asked_for_and_ends() {
    let (mut driver, mut noted, mut room) = opened();
    let all: Vec<Wanted<'_>> = (0..100).map(wanted).collect();
    driver.feed(0, &Event::Fetch(&all), &mut noted, &mut room).unwrap();
    assert_eq!(noted.sent.len(), 1);
    driver.due(0, &mut noted, &mut room).unwrap();
    assert_eq!(noted.sent.len(), 100);
    let mut keys: Vec<Name> = noted.sent.iter().map(|sent| request(&sent.1).1).collect();
    keys.sort();
    assert_eq!(keys, all.iter().map(|one| one.key).collect::<Vec<_>>());
    assert_eq!((driver.deadlines().pending, driver.deadlines().active), (None, Some(50)));
    driver.due(49, &mut noted, &mut room).unwrap();
    assert_eq!(noted.sent.len(), 100);
    driver.due(50, &mut noted, &mut room).unwrap();
    assert_eq!(driver.deadlines().active, None);
    assert_eq!(driver.deadlines().next(), Some(60));
    driver.due(60, &mut noted, &mut room).unwrap();
    assert_eq!(noted.sent.len(), 200);
    assert_eq!(driver.deadlines().active, Some(110));
}

#[test]
fn a_peer_that_may_not_be_sent_to_yet() {
    let (mut driver, mut noted, mut room) = opened();
    noted.until = Some(30);
    driver.feed(0, &Event::Fetch(&[wanted(1)]), &mut noted, &mut room).unwrap();
    assert_eq!((noted.sent.len(), noted.checked), (0, 2));
    assert_eq!(driver.deadlines().next(), Some(30));
    // The moment that is waited for never lies behind: nothing is asked twice at one moment.
    driver.due(30, &mut noted, &mut room).unwrap();
    assert_eq!((noted.sent.len(), noted.checked), (0, 4));
    noted.until = None;
    driver.due(31, &mut noted, &mut room).unwrap();
    assert_eq!(noted.sent.len(), 1);
}

#[test]
fn a_way_that_takes_nothing() {
    let (mut driver, mut noted, mut room) = opened();
    noted.refuses = true;
    driver.feed(0, &Event::Fetch(&[wanted(1)]), &mut noted, &mut room).unwrap();
    assert_eq!(noted.sent.len(), 2, "both peers are tried");
    assert_eq!(driver.deadlines().next(), Some(10));
    assert_eq!(driver.metrics().unwrap().fetch_active, 0);
    noted.refuses = false;
    driver.due(10, &mut noted, &mut room).unwrap();
    assert_eq!(noted.sent.len(), 3);
}

#[test]
fn nobody_to_ask_is_no_deadline() {
    let (mut driver, mut noted, mut room) = opened();
    let all = [Name::numbered(3), Name::numbered(4)];
    driver.feed(0, &Event::Blocked(&all), &mut noted, &mut room).unwrap();
    driver.feed(0, &Event::Fetch(&[wanted(1)]), &mut noted, &mut room).unwrap();
    assert_eq!(driver.deadlines().pending, Some(u128::MAX));
    assert_eq!(driver.deadlines().next(), None);
    driver.due(1000, &mut noted, &mut room).unwrap();
    assert_eq!(noted.checked, 0);
}

#[test]
fn subscribers_that_a_closure_lets_go() {
    let (mut driver, mut noted, mut room) = opened();
    let subscribers = [(10, 7), (11, 8)];
    let mut both = wanted(2);
    both.subscribers = &subscribers;
    driver.feed(0, &Event::Fetch(&[wanted(1), both]), &mut noted, &mut room).unwrap();
    let mut asked = Vec::new();
    let keep = |key: &Name, subscriber: u64| {
        asked.push((*key, subscriber));
        subscriber == 11
    };
    driver.retain(5, &mut noted, &mut room, keep).unwrap();
    let (one, two) = (Name::numbered(1), Name::numbered(2));
    assert_eq!(asked, [(one, 10), (two, 10), (two, 11)]);
    let rows: Vec<_> = driver.rows(&mut room).unwrap().collect();
    assert_eq!(rows.len(), 1);
    assert_eq!(rows[0].key, two);
    assert!(rows[0].subscribers.iter().eq([(11, 8)]));
}

fn count_delivered(effects: Effects<'_>) -> usize {
    effects.filter(|effect| matches!(effect, Effect::Deliver { .. })).count()
}

// What a step wants done is handed over by the next call where the way broke down meanwhile, and
// what was asked is answered then.
#[test]
fn a_way_that_breaks_down() {
    let (mut driver, mut noted, mut room) = opened();
    driver.feed(0, &Event::Fetch(&[wanted(1)]), &mut noted, &mut room).unwrap();
    driver.feed(0, &Event::Fetch(&[wanted(2), wanted(3)]), &mut noted, &mut room).unwrap();
    let (peer, bytes, _) = noted.sent[0].clone();
    let bytes = response(request(&bytes).0, b"hi");
    noted.panics = true;
    let event = Event::Net { peer, bytes: &bytes };
    let broken = AssertUnwindSafe(|| driver.feed(20, &event, &mut noted, &mut room).map(drop));
    assert!(catch_unwind(broken).is_err());
    noted.panics = false;
    let told = driver.due(20, &mut noted, &mut room).unwrap();
    assert_eq!(count_delivered(told), 1);
    assert_eq!(noted.sent.len(), 3);
    assert_eq!(driver.rows(&mut room).unwrap().count(), 3);
}

#[test]
fn a_refused_event_is_told() {
    let (mut driver, mut noted, mut room) = opened();
    let late = driver.feed(1 << 94, &Event::PendingDue, &mut noted, &mut room).map(drop);
    assert_eq!(late, Err(Fault::Misspelled));
    driver.feed(0, &Event::End, &mut noted, &mut room).unwrap();
    let ended = driver.feed(0, &Event::PendingDue, &mut noted, &mut room).map(drop);
    assert_eq!(ended, Err(Fault::Ended));
    let mut core = driver.into_core();
    assert_eq!(core.rows(&mut room).unwrap().count(), 0);
}

/// A node in a network in memory: its number is its peers' name of it.
struct Node {
    driver: Driver<Seeded>,
    room: Room,
    blocked: Vec<Name>,
    stored: usize,
}

/// Messages under way: from, to, and the bytes.
#[derive(Default)]
struct Wire {
    from: u64,
    under_way: Vec<(u64, u64, Vec<u8>)>,
}

impl Transport for Wire {
    fn check(&mut self, _: Name) -> Check {
        Check::Clear
    }

    fn send(&mut self, peer: Name, bytes: &[u8], _: bool) -> bool {
        self.under_way.push((self.from, number(&peer), bytes.to_vec()));
        true
    }
}

fn number(name: &Name) -> u64 {
    u64::from_be_bytes(*name.0.last_chunk().unwrap())
}

/// The value of a key: its number.
fn value(key: &Name) -> [u8; 8] {
    number(key).to_be_bytes()
}

impl Node {
    fn new(me: u64) -> Node {
        let settings = Settings { me: Some(Name::numbered(me)), peer_limit: 4, ..SETTINGS };
        Node {
            driver: Driver::new(Core::new(&settings).unwrap(), Seeded::new(me)),
            room: Room::new(),
            blocked: Vec::new(),
            stored: 0,
        }
    }

    /// Feeds an event, and all that comes of it.
    fn feed(&mut self, now: u128, event: &Event<'_>, wire: &mut Wire, lies: bool) {
        let mut verdicts = Vec::new();
        let mut served = Vec::new();
        let effects = self.driver.feed(now, event, wire, &mut self.room).unwrap();
        for effect in effects {
            match effect {
                Effect::Ask(_) => unreachable!("the driver answers"),
                Effect::Deliver { number, key, value: told, .. } => {
                    let is_right = told == value(&key);
                    self.stored += usize::from(is_right);
                    let outcome = if is_right { Outcome::Complete } else { Outcome::Invalid };
                    verdicts.push((number, Some(outcome)));
                }
                Effect::Produce { serve, key } => served.push((serve, value(&key))),
                Effect::Reply { peer, bytes, priority } => {
                    wire.send(peer, bytes, priority);
                }
                Effect::Block { peer, .. } => self.blocked.push(peer),
                Effect::Cancel { .. } | Effect::Credit { .. } => {}
            }
        }
        for (number, outcome) in verdicts {
            self.feed(now, &Event::Verdict { number, outcome }, wire, lies);
            let blocked = self.blocked.clone();
            self.feed(now, &Event::Blocked(&blocked), wire, lies);
        }
        for (serve, right) in served {
            let value = if lies { &b"no"[..] } else { &right };
            self.feed(now, &Event::Served { serve, value: Some(value) }, wire, lies);
        }
    }
}

// One of three nodes wants a hundred keys. Another one lies about each.
#[test]
fn three_nodes_of_which_one_lies() {
    let mut nodes: Vec<Node> = (0..3).map(Node::new).collect();
    let mut wire = Wire::default();
    let peers: Vec<Name> = (0..3).map(Name::numbered).collect();
    for (me, node) in nodes.iter_mut().enumerate() {
        wire.from = me as u64;
        node.feed(0, &Event::PeerSet { index: 1, peers: &peers }, &mut wire, false);
    }
    wire.from = 0;
    let all: Vec<Wanted<'_>> = (0..100).map(wanted).collect();
    nodes[0].feed(0, &Event::Fetch(&all), &mut wire, false);
    for now in 1..1000 {
        wire.from = 0;
        let Node { driver, room, .. } = &mut nodes[0];
        driver.due(now, &mut wire, room).unwrap();
        for (from, to, bytes) in std::mem::take(&mut wire.under_way) {
            wire.from = to;
            let event = Event::Net { peer: Name::numbered(from), bytes: &bytes };
            nodes[to as usize].feed(now, &event, &mut wire, to == 2);
        }
    }
    assert_eq!(nodes[0].stored, 100);
    assert!(nodes[0].blocked.iter().all(|peer| *peer == Name::numbered(2)));
    assert!(!nodes[0].blocked.is_empty());
    assert_eq!(nodes[0].driver.rows(&mut Room::new()).unwrap().count(), 0);
}

/// Counts what is sent.
struct Counted(usize);

impl Transport<8> for Counted {
    fn check(&mut self, _: Name<8>) -> Check {
        Check::Clear
    }

    fn send(&mut self, _: Name<8>, bytes: &[u8], _: bool) -> bool {
        self.0 += 1;
        bytes.len() == 8 + 1 + 8
    }
}

#[test]
fn names_of_eight_bytes() {
    let core = match Core::<8>::new(&Settings::default()) {
        Err(Fault::Misspelled) => {
            println!("the archive has no machines over names of 8 bytes");
            return;
        }
        core => core.unwrap(),
    };
    let mut driver = Driver::new(core, Seeded::new(1));
    let (mut counted, mut room) = (Counted(0), Room::new());
    let peers = [Name::from(3_u64.to_be_bytes())];
    driver.feed(0, &Event::PeerSet { index: 1, peers: &peers }, &mut counted, &mut room).unwrap();
    let wanted = Wanted { key: Name::numbered(1), subscribers: &[(10, 7)], targets: None };
    driver.feed(0, &Event::Fetch(&[wanted]), &mut counted, &mut room).unwrap();
    assert_eq!(counted.0, 1);
    assert_eq!(driver.deadlines().active, Some(1_000_000_000));
}
