//! A content store that fetches chunks by their hash from twelve peers in memory, of which none may have more than
//! four requests at once. Two files share some chunks, which are fetched once; a third file is given up.
//! It has a clock of its own, so it ends at once.
//!
//!     cargo run --release --example store

use resolver::wire::{Message, Payload};
use resolver::{
    Check, Core, Driver, Effect, Event, Fault, Name, Outcome, Room, Seeded, Settings, Transport,
    Wanted,
};
use std::cmp::Reverse;
use std::collections::{BTreeMap, BinaryHeap, HashMap};
use std::mem::take;

const PEERS: usize = 12;
const LIMIT: usize = 4;
/// Nanoseconds in a millisecond.
const MS: u128 = 1_000_000;

/// Hashes a chunk. It is no cryptographic hash: who can choose chunks finds two with the same one. A store that is to
/// trust no peer takes one that is.
fn hash(chunk: &[u8]) -> Name {
    let mut lanes = [1_u64, 2, 3, 4];
    for (at, byte) in chunk.iter().enumerate() {
        let lane = at % 4;
        let mixed = (lanes[lane] ^ u64::from(*byte)).wrapping_mul(0x9e37_79b9_7f4a_7c15);
        lanes[lane] = mixed ^ mixed >> 29;
        lanes[(lane + 1) % 4] ^= mixed.rotate_left(23);
    }
    let mut name = [0; 32];
    for (bytes, lane) in name.chunks_mut(8).zip(lanes) {
        bytes.copy_from_slice(&lane.to_be_bytes());
    }
    Name(name)
}

/// What comes back later.
type Coming = Reverse<(u128, usize, Name, Vec<u8>)>;

/// The network: what each peer has, and what is under way.
struct Network {
    now: u128,
    seeded: Seeded,
    names: Vec<Name>,
    chunks: Vec<HashMap<Name, Vec<u8>>>,
    coming: BinaryHeap<Coming>,
    sent: usize,
    /// How many requests each peer has, and had at the most.
    open: Vec<usize>,
    most: usize,
    served: Vec<usize>,
}

impl Network {
    /// Gives each peer three of five chunks.
    fn of(files: &[&Vec<Vec<u8>>]) -> Network {
        let mut seeded = Seeded::new(7);
        let mut chunks = vec![HashMap::new(); PEERS];
        for chunk in files.iter().flat_map(|file| file.iter()) {
            for has in chunks.iter_mut() {
                if seeded.word() % 5 < 3 {
                    has.insert(hash(chunk), chunk.clone());
                }
            }
        }
        Network {
            now: 0,
            seeded,
            names: (0..PEERS as u64).map(Name::numbered).collect(),
            chunks,
            coming: BinaryHeap::new(),
            sent: 0,
            open: vec![0; PEERS],
            most: 0,
            served: vec![0; PEERS],
        }
    }

    /// The next message that comes, with its peer, if it comes before this moment.
    fn next(&mut self, before: u128) -> Option<(Name, Vec<u8>)> {
        let Reverse((due, ..)) = self.coming.peek()?;
        if *due > before {
            return None;
        }
        let Reverse((due, _, peer, bytes)) = self.coming.pop()?;
        self.now = due;
        let place = self.place(&peer);
        self.open[place] -= 1;
        Some((peer, bytes))
    }

    fn place(&self, peer: &Name) -> usize {
        self.names.iter().position(|name| name == peer).expect("a peer")
    }
}

impl Transport for Network {
    fn check(&mut self, _: Name) -> Check {
        Check::Clear
    }

    /// The answer is on its way at once, and takes 5 to 24 milliseconds.
    fn send(&mut self, peer: Name, bytes: &[u8], _: bool) -> bool {
        let Ok(Message { id, payload: Payload::Request(key) }) = Message::read(bytes) else {
            return false;
        };
        let place = self.place(&peer);
        let payload = match self.chunks[place].get(&key) {
            Some(chunk) => Payload::Response(chunk),
            None => Payload::Error,
        };
        self.served[place] += usize::from(payload != Payload::Error);
        let mut answer = Vec::new();
        if (Message::<32> { id, payload }).write(&mut answer).is_err() {
            return false;
        }
        let due = self.now + MS * u128::from(5 + self.seeded.word() % 20);
        self.sent += 1;
        self.coming.push(Reverse((due, self.sent, peer, answer)));
        self.open[place] += 1;
        self.most = self.most.max(self.open[place]);
        true
    }
}

/// The store: a machine, what it fetched, and how many chunks each file still wants.
struct Store {
    driver: Driver<Seeded>,
    network: Network,
    room: Room,
    chunks: HashMap<Name, Vec<u8>>,
    missing: BTreeMap<u64, usize>,
}

impl Store {
    fn open(network: Network) -> Result<Store, Fault> {
        let settings =
            Settings { peer_limit: LIMIT as u32, retry_delay: 2 * MS, ..Settings::default() };
        let mut store = Store {
            driver: Driver::new(Core::new(&settings)?, Seeded::new(1)),
            room: Room::new(),
            chunks: HashMap::new(),
            missing: BTreeMap::new(),
            network,
        };
        let peers = store.network.names.clone();
        store.feed(&Event::PeerSet { index: 1, peers: &peers })?;
        Ok(store)
    }

    /// A file wants its chunks, of any peer. The file is the subscriber.
    fn want(&mut self, file: u64, chunks: &[Vec<u8>]) -> Result<(), Fault> {
        let subscribers = [(file, 0)];
        let wanted =
            |chunk: &Vec<u8>| Wanted { key: hash(chunk), subscribers: &subscribers, targets: None };
        let items: Vec<Wanted<'_>> = chunks.iter().map(wanted).collect();
        self.missing.insert(file, items.len());
        self.feed(&Event::Fetch(&items))
    }

    /// A file wants nothing more. What others want, too, is fetched on.
    fn give_up(&mut self, file: u64) -> Result<(), Fault> {
        let (now, mut room) = (self.network.now, take(&mut self.room));
        self.driver
            .retain(now, &mut self.network, &mut room, |_, subscriber| subscriber != file)?;
        self.missing.remove(&file);
        self.room = room;
        Ok(())
    }

    /// Feeds an event, and then a verdict for each chunk that came.
    fn feed(&mut self, event: &Event<'_>) -> Result<(), Fault> {
        let (now, mut room) = (self.network.now, take(&mut self.room));
        let mut verdicts = Vec::new();
        for effect in self.driver.feed(now, event, &mut self.network, &mut room)? {
            if let Effect::Deliver { number, key, subscribers, value, .. } = effect {
                let is_right = hash(value) == key;
                if is_right {
                    self.chunks.insert(key, value.to_vec());
                    for (file, _) in subscribers.iter() {
                        self.missing.entry(file).and_modify(|left| *left -= 1);
                    }
                }
                verdicts
                    .push((number, if is_right { Outcome::Complete } else { Outcome::Invalid }));
            }
        }
        self.room = room;
        for (number, outcome) in verdicts {
            self.feed(&Event::Verdict { number, outcome: Some(outcome) })?;
        }
        Ok(())
    }

    /// Lets time go on, until so many messages came or nothing is wanted any more.
    fn run(&mut self, messages: usize) -> Result<usize, Fault> {
        for count in 0..messages {
            let now = self.network.now;
            let mut room = take(&mut self.room);
            self.driver.due(now, &mut self.network, &mut room)?;
            self.room = room;
            let due = self.driver.deadlines().next();
            match self.network.next(due.unwrap_or(u128::MAX)) {
                Some((peer, bytes)) => self.feed(&Event::Net { peer, bytes: &bytes })?,
                None => match due {
                    Some(due) => self.network.now = due,
                    None => return Ok(count),
                },
            }
        }
        Ok(messages)
    }
}

/// Chunks of 100 to 1,000 bytes.
fn chunks(seed: u64, count: usize) -> Vec<Vec<u8>> {
    let mut seeded = Seeded::new(seed);
    let mut chunk = |_| {
        let length = 100 + seeded.word() % 900;
        (0..length).map(|_| seeded.word() as u8).collect()
    };
    (0..count).map(&mut chunk).collect()
}

fn main() -> Result<(), Fault> {
    let first = chunks(1, 300);
    let second = [&first[200..], &chunks(2, 200)[..]].concat();
    let third = chunks(3, 400);
    let mut store = Store::open(Network::of(&[&first, &second, &third]))?;
    store.want(1, &first)?;
    store.want(2, &second)?;
    store.want(3, &third)?;
    store.run(200)?;
    let Network { most, .. } = store.network;
    println!("200 messages: {} chunks, {most} requests a peer at the most", store.chunks.len());
    println!("missing by file: {:?}", store.missing);
    assert!(most <= LIMIT);
    // A chunk that nobody wants frees its place at the peer, which may answer still.
    store.give_up(3)?;
    store.run(usize::MAX)?;
    println!("file 3 is given up; missing by file: {:?}", store.missing);
    let Network { now, sent, served, .. } = &store.network;
    println!("{} chunks by {sent} requests in {} ms", store.chunks.len(), now / MS);
    println!("chunks by peer: {served:?}");
    let metrics = store.driver.metrics()?;
    println!("credits {}, keys called off {}", metrics.fetch.success, metrics.cancel.success);
    assert!(store.missing.values().all(|left| *left == 0));
    assert!(first.iter().chain(&second).all(|chunk| store.chunks[&hash(chunk)] == *chunk));
    assert_eq!(store.driver.rows(&mut store.room)?.count(), 0);
    Ok(())
}
