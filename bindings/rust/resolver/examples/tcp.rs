//! Three nodes over TCP in one process, each with its own core and threads: node 0 wants 1,000 blocks, node 1 is slow
//! and has them all, and node 2 is fast and lies about each tenth. It prints how far node 0 is, and a summary.
//!
//!     cargo run --release --example tcp

use resolver::{
    Check, Core, Driver, Effect, Event, Name, Outcome, Room, Seeded, Settings, Transport, Wanted,
};
use std::collections::HashMap;
use std::io::{Read, Write};
use std::mem::take;
use std::net::{TcpListener, TcpStream};
use std::sync::mpsc::{Receiver, Sender, channel};
use std::thread::{self, sleep};
use std::time::{Duration, Instant};

const BLOCKS: u64 = 1_000;
const SLOW: usize = 1;
const LIAR: usize = 2;
/// What a block takes the slow node.
const SLOWNESS: Duration = Duration::from_micros(300);
const LONGEST_REST: Duration = Duration::from_millis(50);

/// What a node hears: a message from a peer, or that it may stop.
enum Heard {
    Message(Name, Vec<u8>),
    Stop,
}

/// What is to be fed once a step is over.
enum Next {
    Verdict(u64, Outcome),
    Served(u64, Option<Vec<u8>>),
    Blocked,
}

/// The ways to the peers. Each message goes behind its length, and a thread at the other end reads it at once.
struct Links(HashMap<Name, TcpStream>);

impl Transport for Links {
    fn check(&mut self, _: Name) -> Check {
        Check::Clear
    }

    fn send(&mut self, peer: Name, bytes: &[u8], _: bool) -> bool {
        let Some(link) = self.0.get_mut(&peer) else {
            return false;
        };
        let framed = [&(bytes.len() as u32).to_be_bytes(), bytes].concat();
        link.write_all(&framed).is_ok()
    }
}

/// A digest that is no cryptographic one: a node that is to trust no peer takes a real one.
fn digest(block: &[u8]) -> Name {
    let mut name = [0; 32];
    for (lane, bytes) in name.chunks_mut(8).enumerate() {
        let seed = 0xcbf2_9ce4_8422_2325 ^ lane as u64;
        let mix = |sum: u64, byte: &u8| (sum ^ u64::from(*byte)).wrapping_mul(0x100_0000_01b3);
        let sum = block.iter().fold(seed, mix);
        bytes.copy_from_slice(&sum.to_be_bytes());
    }
    Name(name)
}

struct Node {
    number: usize,
    driver: Driver<Seeded>,
    links: Links,
    room: Room,
    started: Instant,
    store: HashMap<Name, Vec<u8>>,
    next: Vec<Next>,
    blocked: Vec<Name>,
    wrong: usize,
    /// Blocks that are to be fetched.
    wanted: Vec<Name>,
}

impl Node {
    fn now(&self) -> u128 {
        self.started.elapsed().as_nanos()
    }

    /// Feeds an event, or what is due, and carries out what comes of it.
    fn feed(&mut self, event: Option<&Event<'_>>) {
        let (now, mut room) = (self.now(), take(&mut self.room));
        let effects = match event {
            Some(event) => self.driver.feed(now, event, &mut self.links, &mut room),
            None => self.driver.due(now, &mut self.links, &mut room),
        };
        for effect in effects.expect("a node that runs") {
            self.carry_out(effect);
        }
        self.room = room;
    }

    fn carry_out(&mut self, effect: Effect<'_>) {
        match effect {
            Effect::Deliver { number, key, value, .. } => self.judge(number, key, value),
            Effect::Produce { serve, key } => {
                sleep(if self.number == SLOW { SLOWNESS } else { Duration::ZERO });
                self.next.push(Next::Served(serve, self.store.get(&key).cloned()));
            }
            Effect::Reply { peer, bytes, priority } => {
                self.links.send(peer, bytes, priority);
            }
            Effect::Block { peer, .. } if !self.blocked.contains(&peer) => {
                self.blocked.push(peer);
                self.next.push(Next::Blocked);
            }
            Effect::Block { .. } | Effect::Credit { .. } | Effect::Cancel { .. } => {}
            Effect::Ask(_) => unreachable!("the driver answers"),
        }
    }

    fn judge(&mut self, number: u64, key: Name, block: &[u8]) {
        if digest(block) != key {
            self.wrong += 1;
            self.next.push(Next::Verdict(number, Outcome::Invalid));
            return;
        }
        self.store.insert(key, block.to_vec());
        self.next.push(Next::Verdict(number, Outcome::Complete));
        if self.store.len().is_multiple_of(200) {
            println!("{:?}: {} blocks", self.started.elapsed(), self.store.len());
        }
    }

    /// Feeds what the last steps left to be fed.
    fn settle(&mut self) {
        while let Some(next) = self.next.pop() {
            match next {
                Next::Verdict(number, outcome) => {
                    self.feed(Some(&Event::Verdict { number, outcome: Some(outcome) }));
                }
                Next::Served(serve, block) => {
                    self.feed(Some(&Event::Served { serve, value: block.as_deref() }));
                }
                Next::Blocked => self.feed(Some(&Event::Blocked(&self.blocked.clone()))),
            }
        }
    }

    fn fetch_all(&mut self) {
        let wanted = |key: &Name| Wanted { key: *key, subscribers: &[(1, 0)], targets: None };
        let items: Vec<Wanted<'_>> = self.wanted.iter().map(wanted).collect();
        self.feed(Some(&Event::Fetch(&items)));
    }

    /// Runs until it has all that it wants, or, where it wants nothing, until it is stopped.
    fn run(mut self, peers: &[Name], heard: Receiver<Heard>) -> Node {
        self.feed(Some(&Event::PeerSet { index: 1, peers }));
        self.fetch_all();
        loop {
            self.settle();
            self.feed(None);
            if !self.wanted.is_empty() && self.store.len() == self.wanted.len() {
                return self;
            }
            let next = self.driver.deadlines().next().unwrap_or(u128::MAX);
            let rest = next.saturating_sub(self.now()).min(LONGEST_REST.as_nanos());
            match heard.recv_timeout(Duration::from_nanos(rest as u64)) {
                Ok(Heard::Message(peer, bytes)) => {
                    self.feed(Some(&Event::Net { peer, bytes: &bytes }));
                }
                Ok(Heard::Stop) => return self,
                Err(_) => {}
            }
        }
    }
}

/// Reads what a peer sends, in a thread of its own.
fn listen(peer: Name, mut link: TcpStream, to: Sender<Heard>) {
    thread::spawn(move || {
        let mut length = [0; 4];
        while link.read_exact(&mut length).is_ok() {
            let mut bytes = vec![0; u32::from_be_bytes(length) as usize];
            let is_read = link.read_exact(&mut bytes).is_ok();
            if !is_read || to.send(Heard::Message(peer, bytes)).is_err() {
                return;
            }
        }
    });
}

/// A connection between each two nodes, with a thread that reads at either end.
fn connect(names: &[Name], senders: &[Sender<Heard>]) -> std::io::Result<Vec<Links>> {
    let mut links: Vec<Links> = names.iter().map(|_| Links(HashMap::new())).collect();
    for a in 0..names.len() {
        for b in 0..a {
            let listener = TcpListener::bind("127.0.0.1:0")?;
            let here = TcpStream::connect(listener.local_addr()?)?;
            let (there, _) = listener.accept()?;
            here.set_nodelay(true)?;
            there.set_nodelay(true)?;
            listen(names[b], here.try_clone()?, senders[a].clone());
            listen(names[a], there.try_clone()?, senders[b].clone());
            links[a].0.insert(names[b], here);
            links[b].0.insert(names[a], there);
        }
    }
    Ok(links)
}

fn main() -> Result<(), Box<dyn std::error::Error>> {
    let names: Vec<Name> = (0..3).map(Name::numbered).collect();
    let blocks: Vec<Vec<u8>> =
        (0..BLOCKS).map(|n| n.to_be_bytes().repeat(1 + n as usize % 500)).collect();
    let keys: Vec<Name> = blocks.iter().map(|block| digest(block)).collect();
    let (senders, heard): (Vec<_>, Vec<_>) = names.iter().map(|_| channel()).unzip();
    let started = Instant::now();
    let mut threads = Vec::new();
    for (number, (links, heard)) in connect(&names, &senders)?.into_iter().zip(heard).enumerate() {
        let settings = Settings { me: Some(names[number]), ..Settings::default() };
        let lies = |n: usize| number == LIAR && n % 10 == 9;
        let block = |n: usize| if lies(n) { b"a lie".to_vec() } else { blocks[n].clone() };
        let all = keys.iter().enumerate().map(|(n, key)| (*key, block(n)));
        let node = Node {
            number,
            driver: Driver::new(Core::new(&settings)?, Seeded::from_std()),
            links,
            room: Room::new(),
            started,
            store: if number == 0 { HashMap::new() } else { all.collect() },
            next: Vec::new(),
            blocked: Vec::new(),
            wrong: 0,
            wanted: if number == 0 { keys.clone() } else { Vec::new() },
        };
        let peers = names.clone();
        threads.push(thread::spawn(move || node.run(&peers, heard)));
    }
    let mut first = threads.remove(0).join().expect("node 0");
    senders[1..].iter().try_for_each(|sender| sender.send(Heard::Stop))?;
    threads.into_iter().for_each(|thread| drop(thread.join().expect("a node")));
    let metrics = first.driver.metrics()?;
    println!(
        "{} of {BLOCKS} blocks in {:?}: {} requests, {} wrong blocks, {} blocked peers",
        first.store.len(),
        started.elapsed(),
        metrics.requests_sent.success,
        first.wrong,
        first.blocked.len(),
    );
    Ok(())
}
