//! The peer machine in plain Rust over the standard maps: one row a key, two ordered sets of waiting keys, and
//! what is open by its number. Its inputs, its effects and its refusals are those of `resolver::p2p::Core`; it has
//! no metrics.

pub mod pool;
mod scan;
pub mod script;
pub mod wire;

use pool::{Peers, charged, elapsed_since};
use scan::Scan;
use std::collections::btree_map::Entry;
use std::collections::{BTreeMap, BTreeSet, HashMap};
use std::rc::Rc;
use wire::{Key, Payload};

/// What a machine is made with. Durations are in nanoseconds.
pub struct Config<P> {
    pub me: Option<P>,
    pub timeout: u128,
    pub delay: u128,
    pub limit: Option<usize>,
}

pub struct Fetch<K, P, S> {
    pub key: K,
    pub subscribers: Vec<(S, u64)>,
    pub targets: Option<Vec<P>>,
}

#[derive(Clone, Copy, PartialEq, Eq)]
pub enum Outcome {
    Complete,
    Partial,
    Unresolved,
    Invalid,
    Ignored,
}

/// What happens. `Q` says which subscribers of which keys a retain keeps.
pub enum Event<K, P, S, Q> {
    Fetch(Vec<Fetch<K, P, S>>),
    Retain(Q),
    PeerSet(u64, Vec<P>),
    Blocked(Vec<P>),
    ActiveDue,
    PendingDue,
    Verdict(u64, Option<Outcome>),
    Served(u64, Option<Vec<u8>>),
    Net(P, Vec<u8>),
    End,
}

/// What an open scan is answered.
#[derive(Clone, Copy)]
pub enum Answer {
    Drawn(u128),
    /// The moment before which the peer may not be sent to, if there is one.
    Checked(Option<u128>),
    Sent(bool),
}

pub enum Effect<K, P, S> {
    Draw(u128),
    Check(P),
    Request { peer: P, id: u64, key: K },
    Deliver { number: u64, response: u64, key: K, subscribers: Rc<[(S, u64)]>, value: Rc<[u8]> },
    Cancel(u64),
    Produce(u64, K),
    Reply(P, Vec<u8>),
    Credit { response: u64, peer: P, elapsed: u128, bytes: u64 },
    Block { response: u64, peer: P },
}

#[derive(Clone, Copy, PartialEq, Eq)]
pub enum Refusal {
    Ended = 3,
    Busy = 4,
    Unasked = 5,
    OutOfRange = 6,
}

pub enum Phase {
    Waiting { is_retry: bool, due: u128 },
    Asked(u64),
    Judged(u64),
}

/// The peers that may be asked for a key, in the order in which they were given, and in their own.
pub struct Targets<P> {
    pub listed: Vec<P>,
    names: BTreeSet<P>,
}

impl<P: Ord + Clone> Targets<P> {
    fn of(peers: Vec<P>) -> Self {
        let mut targets = Targets { listed: Vec::new(), names: BTreeSet::new() };
        targets.add(peers);
        targets
    }

    fn add(&mut self, peers: Vec<P>) {
        for peer in peers {
            if self.names.insert(peer.clone()) {
                self.listed.push(peer);
            }
        }
    }
}

/// A key that is wanted.
pub struct Row<P, S> {
    pub subscribers: BTreeMap<S, u64>,
    pub targets: Option<Targets<P>>,
    pub retries: u32,
    pub phase: Phase,
}

pub struct Request<K, P> {
    pub key: K,
    pub peer: P,
    pub start: u128,
    pub deadline: u128,
}

/// What a peer sent for a key, named by the first delivery that carried it.
struct Response<P> {
    name: u64,
    peer: P,
    elapsed: u128,
    value: Rc<[u8]>,
}

struct Delivery<K, P, S> {
    key: K,
    subscribers: Rc<[(S, u64)]>,
    response: Response<P>,
    is_accepted: bool,
}

pub struct Machine<K, P, S> {
    timeout: u128,
    delay: u128,
    rows: BTreeMap<K, Row<P, S>>,
    fresh: BTreeSet<(u128, K)>,
    retried: BTreeSet<(u128, K)>,
    requests: HashMap<u64, Request<K, P>>,
    deadlines: BTreeSet<(u128, u64)>,
    deliveries: HashMap<u64, Delivery<K, P, S>>,
    serves: HashMap<u64, (P, u64)>,
    peers: Peers<P>,
    last_index: Option<u64>,
    last_id: Option<u64>,
    next_number: u64,
    next_serve: u64,
    /// No scan begins before this moment; 0 where it is clear.
    waiter: u128,
    scan: Option<Scan<K>>,
    has_ended: bool,
}

type Effects<K, P, S> = Vec<Effect<K, P, S>>;

impl<K: Key, P: Ord + Clone, S: Ord + Clone> Machine<K, P, S> {
    pub fn new(config: Config<P>) -> Self {
        Machine {
            timeout: config.timeout,
            delay: config.delay,
            rows: BTreeMap::new(),
            fresh: BTreeSet::new(),
            retried: BTreeSet::new(),
            requests: HashMap::new(),
            deadlines: BTreeSet::new(),
            deliveries: HashMap::new(),
            serves: HashMap::new(),
            peers: Peers::new(config.me, config.limit),
            last_index: None,
            last_id: None,
            next_number: 0,
            next_serve: 0,
            waiter: 0,
            scan: None,
            has_ended: false,
        }
    }

    /// The keys that are wanted, in their order.
    pub fn rows(&self) -> &BTreeMap<K, Row<P, S>> {
        &self.rows
    }

    pub fn request(&self, id: u64) -> &Request<K, P> {
        &self.requests[&id]
    }

    /// When a scan may do something, if a key waits.
    pub fn wake_up(&self) -> Option<u128> {
        let (due, _) = self.fresh.first().or_else(|| self.retried.first())?;
        Some((*due).max(self.waiter))
    }

    /// Takes an event, and begins the scan that it gives rise to.
    pub fn happen<Q: Fn(&K, &S) -> bool>(
        &mut self,
        now: u128,
        event: Event<K, P, S, Q>,
    ) -> Result<Effects<K, P, S>, Refusal> {
        if self.has_ended {
            return Err(Refusal::Ended);
        }
        if self.scan.is_some() {
            return Err(Refusal::Busy);
        }
        let mut effects = Vec::new();
        self.advance(now, event, &mut effects);
        if self.wake_up().is_some_and(|due| due <= now) {
            effects.extend(self.begin_scan(now));
        }
        Ok(effects)
    }

    /// Takes an answer to what the open scan asked.
    pub fn answer(&mut self, answer: Answer) -> Result<Effects<K, P, S>, Refusal> {
        if self.has_ended {
            return Err(Refusal::Ended);
        }
        Ok(self.answer_scan(answer)?.into_iter().collect())
    }

    fn advance<Q: Fn(&K, &S) -> bool>(
        &mut self,
        now: u128,
        event: Event<K, P, S, Q>,
        effects: &mut Effects<K, P, S>,
    ) {
        match event {
            Event::Fetch(items) => items.into_iter().for_each(|item| self.fetch(now, item)),
            Event::Retain(keep) => self.retain(keep, effects),
            Event::PeerSet(index, peers) => self.replace_peers(index, peers),
            Event::Blocked(peers) => {
                self.peers.block(peers);
                self.waiter = 0;
            }
            Event::ActiveDue => self.time_out(now),
            Event::PendingDue => {}
            Event::Verdict(number, outcome) => self.judge(now, number, outcome, effects),
            Event::Served(serve, value) => {
                if let Some((peer, id)) = self.serves.remove(&serve) {
                    effects.push(Effect::Reply(peer, wire::reply(id, value.as_deref())));
                }
            }
            Event::Net(peer, bytes) => self.receive(now, peer, &bytes, effects),
            Event::End => self.end(effects),
        }
    }

    fn fetch(&mut self, now: u128, item: Fetch<K, P, S>) {
        match self.rows.entry(item.key) {
            Entry::Vacant(place) => {
                self.fresh.insert((now, place.key().clone()));
                place.insert(Row {
                    subscribers: marked(item.subscribers),
                    targets: item.targets.map(Targets::of),
                    retries: 0,
                    phase: Phase::Waiting { is_retry: false, due: now },
                });
                self.waiter = 0;
            }
            Entry::Occupied(mut place) => {
                let row = place.get_mut();
                attach(&mut row.subscribers, item.subscribers);
                match (item.targets, &mut row.targets) {
                    (None, targets) => *targets = None,
                    (Some(more), Some(targets)) => targets.add(more),
                    (Some(_), None) => return,
                }
                self.waiter = 0;
            }
        }
    }

    fn retain<Q: Fn(&K, &S) -> bool>(&mut self, keep: Q, effects: &mut Effects<K, P, S>) {
        let mut emptied = Vec::new();
        for (key, row) in &mut self.rows {
            row.subscribers.retain(|subscriber, _| keep(key, subscriber));
            if row.subscribers.is_empty() {
                emptied.push(key.clone());
            }
        }
        for key in emptied {
            self.let_go(key, effects);
        }
        self.waiter = 0;
    }

    /// Nobody wants a key any more.
    fn let_go(&mut self, key: K, effects: &mut Effects<K, P, S>) {
        match self.rows.remove(&key).map(|row| row.phase) {
            None => {}
            Some(Phase::Waiting { is_retry, due }) => {
                self.queue(is_retry).remove(&(due, key));
            }
            Some(Phase::Asked(id)) => {
                self.take_request(id);
            }
            Some(Phase::Judged(number)) => effects.push(Effect::Cancel(number)),
        }
    }

    fn end(&mut self, effects: &mut Effects<K, P, S>) {
        for row in self.rows.values() {
            if let Phase::Judged(number) = row.phase {
                effects.push(Effect::Cancel(number));
            }
        }
        self.rows.clear();
        self.fresh.clear();
        self.retried.clear();
        self.requests.clear();
        self.deadlines.clear();
        self.deliveries.clear();
        self.serves.clear();
        self.has_ended = true;
    }

    fn replace_peers(&mut self, index: u64, peers: Vec<P>) {
        if self.last_index.is_none_or(|last| index > last) {
            self.last_index = Some(index);
            self.peers.replace(peers);
            self.waiter = 0;
        }
    }

    fn time_out(&mut self, now: u128) {
        match self.deadlines.first() {
            Some(&(deadline, id)) if deadline <= now => {
                let time = charged(self.timeout, self.delay);
                let request = self.take_request(id);
                self.peers.record(&request.peer, time, 0);
                self.retry(now, request.key);
            }
            _ => {}
        }
    }

    fn receive(&mut self, now: u128, peer: P, bytes: &[u8], effects: &mut Effects<K, P, S>) {
        match wire::decode(bytes) {
            None => {}
            Some((id, Payload::Request(key))) => {
                let serve = self.next_serve;
                self.next_serve += 1;
                self.serves.insert(serve, (peer, id));
                effects.push(Effect::Produce(serve, key));
            }
            Some((id, Payload::Response(value))) => self.respond(now, &peer, id, value, effects),
            Some((id, Payload::Error)) => self.miss(now, &peer, id),
        }
    }

    fn respond(
        &mut self,
        now: u128,
        peer: &P,
        id: u64,
        value: &[u8],
        effects: &mut Effects<K, P, S>,
    ) {
        if !self.is_asked(id, peer) {
            return;
        }
        let request = self.take_request(id);
        if self.peers.is_limited() {
            self.waiter = 0;
        }
        let response = Response {
            name: self.next_number,
            peer: request.peer,
            elapsed: elapsed_since(request.start, now),
            value: value.into(),
        };
        let row = self.rows.get_mut(&request.key).expect("an asked key is wanted");
        let delivery = Delivery {
            key: request.key,
            subscribers: listed(&row.subscribers),
            response,
            is_accepted: false,
        };
        row.phase = Phase::Judged(self.next_number);
        self.deliver(delivery, effects);
    }

    /// Hands a response out under the next number, which its row has.
    fn deliver(&mut self, delivery: Delivery<K, P, S>, effects: &mut Effects<K, P, S>) {
        let number = self.next_number;
        self.next_number += 1;
        effects.push(Effect::Deliver {
            number,
            response: delivery.response.name,
            key: delivery.key.clone(),
            subscribers: delivery.subscribers.clone(),
            value: delivery.response.value.clone(),
        });
        self.deliveries.insert(number, delivery);
    }

    fn miss(&mut self, now: u128, peer: &P, id: u64) {
        if self.is_asked(id, peer) {
            let request = self.take_request(id);
            let time = charged(elapsed_since(request.start, now), self.delay);
            self.peers.record(&request.peer, time, 0);
            self.retry(now, request.key);
        }
    }

    fn judge(
        &mut self,
        now: u128,
        number: u64,
        outcome: Option<Outcome>,
        effects: &mut Effects<K, P, S>,
    ) {
        let Some(delivery) = self.deliveries.remove(&number) else {
            return;
        };
        if !delivery.is_accepted {
            effects.extend(self.account(&delivery.response, outcome));
        }
        let row = self.rows.get(&delivery.key);
        if row.is_some_and(|row| matches!(row.phase, Phase::Judged(judged) if judged == number)) {
            self.rule(now, delivery, outcome, effects);
        }
    }

    /// Does what an outcome says of a key that is judged.
    fn rule(
        &mut self,
        now: u128,
        delivery: Delivery<K, P, S>,
        outcome: Option<Outcome>,
        effects: &mut Effects<K, P, S>,
    ) {
        match outcome {
            None | Some(Outcome::Complete) => self.serve(delivery, outcome.is_some(), effects),
            Some(Outcome::Partial | Outcome::Unresolved) => self.retry(now, delivery.key),
            Some(Outcome::Invalid) if !delivery.is_accepted => self.retry(now, delivery.key),
            Some(Outcome::Invalid | Outcome::Ignored) => {
                self.rows.remove(&delivery.key);
            }
        }
    }

    /// Those that a delivery names have what they want. The rest are handed the same.
    fn serve(
        &mut self,
        delivery: Delivery<K, P, S>,
        accepts: bool,
        effects: &mut Effects<K, P, S>,
    ) {
        let Entry::Occupied(mut place) = self.rows.entry(delivery.key.clone()) else {
            return;
        };
        let row = place.get_mut();
        for (subscriber, _) in delivery.subscribers.iter() {
            row.subscribers.remove(subscriber);
        }
        if row.subscribers.is_empty() {
            place.remove();
            return;
        }
        row.phase = Phase::Judged(self.next_number);
        let rest = Delivery {
            subscribers: listed(&row.subscribers),
            is_accepted: delivery.is_accepted || accepts,
            ..delivery
        };
        self.deliver(rest, effects);
    }

    /// What a response earns its peer.
    fn account(
        &mut self,
        response: &Response<P>,
        outcome: Option<Outcome>,
    ) -> Option<Effect<K, P, S>> {
        let (name, peer) = (response.name, response.peer.clone());
        match outcome? {
            Outcome::Complete | Outcome::Partial => {
                let (elapsed, bytes) = (response.elapsed, response.value.len() as u64);
                self.peers.record(&peer, elapsed, bytes);
                Some(Effect::Credit { response: name, peer, elapsed, bytes })
            }
            Outcome::Invalid => Some(Effect::Block { response: name, peer }),
            Outcome::Unresolved | Outcome::Ignored => None,
        }
    }

    /// A key is tried again once the delay is over.
    fn retry(&mut self, now: u128, key: K) {
        let due = now + self.delay;
        let row = self.rows.get_mut(&key).expect("a key that is tried is wanted");
        row.retries = row.retries.saturating_add(1);
        row.phase = Phase::Waiting { is_retry: true, due };
        self.retried.insert((due, key));
        self.waiter = 0;
    }

    fn queue(&mut self, is_retry: bool) -> &mut BTreeSet<(u128, K)> {
        if is_retry { &mut self.retried } else { &mut self.fresh }
    }

    fn is_asked(&self, id: u64, peer: &P) -> bool {
        self.requests.get(&id).is_some_and(|request| request.peer == *peer)
    }

    /// Takes a request out that is there.
    fn take_request(&mut self, id: u64) -> Request<K, P> {
        let request = self.requests.remove(&id).expect("the request is there");
        self.deadlines.remove(&(request.deadline, id));
        self.peers.free(&request.peer);
        request
    }
}

/// Subscribers with their marks, where the first mark of each stands.
fn marked<S: Ord>(subscribers: Vec<(S, u64)>) -> BTreeMap<S, u64> {
    let mut marked = BTreeMap::new();
    attach(&mut marked, subscribers);
    marked
}

/// Adds subscribers. One that is there keeps its mark.
fn attach<S: Ord>(there: &mut BTreeMap<S, u64>, subscribers: Vec<(S, u64)>) {
    for (subscriber, mark) in subscribers {
        there.entry(subscriber).or_insert(mark);
    }
}

fn listed<S: Clone>(subscribers: &BTreeMap<S, u64>) -> Rc<[(S, u64)]> {
    let pairs = subscribers.iter().map(|(subscriber, mark)| (subscriber.clone(), *mark));
    pairs.collect()
}
