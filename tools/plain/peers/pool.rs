//! The peers that may be asked, and what each weighs in a draw.

use std::collections::{BTreeMap, BTreeSet};

/// The longest time that counts, in nanoseconds.
const DURATION_MAX: u128 = 18_446_744_073_709_551_615_999_999_999;

const NANOSECONDS_PER_SECOND: u128 = 1_000_000_000;

/// How many units a byte has in an average.
const UNITS_PER_BYTE: u128 = 1 << 32;

/// How long ago something began; nothing where the clock went back.
pub fn elapsed_since(start: u128, now: u128) -> u128 {
    now.saturating_sub(start).min(DURATION_MAX)
}

/// What a peer is charged that did not help for some time.
pub fn charged(time: u128, delay: u128) -> u128 {
    (time + delay).min(DURATION_MAX)
}

/// How fast a peer has been: averages of useful bytes and of the time that they took.
#[derive(Clone, Copy, Default)]
struct Score(Option<(u128, u128)>);

impl Score {
    fn record(&mut self, elapsed: u128, bytes: u64) {
        let bytes = u128::from(bytes) * UNITS_PER_BYTE;
        let elapsed = elapsed.clamp(1, DURATION_MAX);
        self.0 = Some(match self.0 {
            None => (bytes, elapsed),
            Some((old_bytes, old_elapsed)) => {
                ((old_bytes + bytes) / 2, (old_elapsed + elapsed) / 2)
            }
        });
    }

    fn weight(&self) -> u64 {
        let Some((bytes, elapsed)) = self.0 else {
            return 1;
        };
        let rate = bytes * NANOSECONDS_PER_SECOND / (elapsed * UNITS_PER_BYTE);
        u64::try_from(rate + 1).unwrap_or(u64::MAX)
    }
}

/// What some places weigh together, and how many of them weigh anything.
#[derive(Clone, Copy, Default)]
struct Sum {
    weight: u128,
    count: usize,
}

impl Sum {
    fn of(weight: u64) -> Sum {
        Sum { weight: u128::from(weight), count: usize::from(weight > 0) }
    }

    fn and(self, other: Sum) -> Sum {
        Sum { weight: self.weight + other.weight, count: self.count + other.count }
    }
}

/// A list of weights under a tree of their sums. The root is node 1, below node i are 2i and 2i + 1.
#[derive(Default)]
struct Sums {
    nodes: Vec<Sum>,
    leaves: usize,
}

impl Sums {
    fn new(weights: impl ExactSizeIterator<Item = u64>) -> Sums {
        let leaves = weights.len().next_power_of_two();
        let mut nodes = vec![Sum::default(); 2 * leaves];
        for (node, weight) in nodes[leaves..].iter_mut().zip(weights) {
            *node = Sum::of(weight);
        }
        for node in (1..leaves).rev() {
            nodes[node] = nodes[2 * node].and(nodes[2 * node + 1]);
        }
        Sums { nodes, leaves }
    }

    fn whole(&self) -> Sum {
        self.nodes.get(1).copied().unwrap_or_default()
    }

    fn weight(&self, place: usize) -> u64 {
        self.nodes[self.leaves + place].weight as u64
    }

    fn set(&mut self, place: usize, weight: u64) {
        let mut node = self.leaves + place;
        self.nodes[node] = Sum::of(weight);
        while node > 1 {
            node /= 2;
            self.nodes[node] = self.nodes[2 * node].and(self.nodes[2 * node + 1]);
        }
    }

    /// The place in whose interval of the weights a number lies.
    fn by_weight(&self, mut number: u128) -> usize {
        let mut node = 1;
        while node < self.leaves {
            node *= 2;
            let left = self.nodes[node].weight;
            if number >= left {
                number -= left;
                node += 1;
            }
        }
        node - self.leaves
    }

    /// The place that has so many places before it that weigh anything.
    fn by_count(&self, mut number: usize) -> usize {
        let mut node = 1;
        while node < self.leaves {
            node *= 2;
            let left = self.nodes[node].count;
            if number >= left {
                number -= left;
                node += 1;
            }
        }
        node - self.leaves
    }
}

/// The latest set of peers with their scores, and which of them may be asked.
pub struct Peers<P> {
    local: Option<P>,
    limit: Option<usize>,
    blocked: BTreeSet<P>,
    /// How many requests a peer has, where they are limited.
    loads: BTreeMap<P, usize>,
    names: Vec<P>,
    scores: Vec<Score>,
    sums: Sums,
    /// The places that the open scan tried for its key, and what they weigh.
    tried: Vec<(usize, u64)>,
}

impl<P: Ord + Clone> Peers<P> {
    pub fn new(local: Option<P>, limit: Option<usize>) -> Self {
        Peers {
            local,
            limit,
            blocked: BTreeSet::new(),
            loads: BTreeMap::new(),
            names: Vec::new(),
            scores: Vec::new(),
            sums: Sums::default(),
            tried: Vec::new(),
        }
    }

    pub fn is_limited(&self) -> bool {
        self.limit.is_some()
    }

    pub fn name(&self, place: usize) -> &P {
        &self.names[place]
    }

    /// What all that may be asked weigh.
    pub fn total(&self) -> u128 {
        self.sums.whole().weight
    }

    /// How many may be asked.
    pub fn count(&self) -> usize {
        self.sums.whole().count
    }

    pub fn by_weight(&self, number: u128) -> usize {
        self.sums.by_weight(number)
    }

    pub fn by_place(&self, number: usize) -> usize {
        self.sums.by_count(number)
    }

    /// The place and the weight of a peer, if it may be asked.
    pub fn askable(&self, name: &P) -> Option<(usize, u64)> {
        let place = self.names.binary_search(name).ok()?;
        let weight = self.sums.weight(place);
        (weight > 0).then_some((place, weight))
    }

    /// The peer is tried no more in this scan for its key.
    pub fn pass(&mut self, place: usize) {
        self.tried.push((place, self.sums.weight(place)));
        self.sums.set(place, 0);
    }

    /// All may be tried again.
    pub fn restore(&mut self) {
        for (place, weight) in self.tried.drain(..) {
            self.sums.set(place, weight);
        }
    }

    /// Takes another set. Peers that stay keep their scores.
    pub fn replace(&mut self, mut names: Vec<P>) {
        names.sort_unstable();
        names.dedup();
        let score = |name| self.names.binary_search(name).map(|place| self.scores[place]);
        self.scores = names.iter().map(|name| score(name).unwrap_or_default()).collect();
        self.names = names;
        self.weigh_all();
    }

    pub fn block(&mut self, names: Vec<P>) {
        self.blocked = names.into_iter().collect();
        self.weigh_all();
    }

    /// Takes in what a request to a peer took and gave, if it is in the set.
    pub fn record(&mut self, name: &P, elapsed: u128, bytes: u64) {
        let Ok(place) = self.names.binary_search(name) else {
            return;
        };
        self.scores[place].record(elapsed, bytes);
        if self.sums.weight(place) > 0 {
            self.sums.set(place, self.scores[place].weight());
        }
    }

    /// A peer has one request more.
    pub fn load(&mut self, name: &P) {
        let Some(limit) = self.limit else {
            return;
        };
        let load = self.loads.entry(name.clone()).or_default();
        *load += 1;
        if *load == limit {
            self.weigh(name);
        }
    }

    /// A peer has one request fewer.
    pub fn free(&mut self, name: &P) {
        let Some(limit) = self.limit else {
            return;
        };
        let Some(load) = self.loads.get_mut(name) else {
            return;
        };
        *load -= 1;
        let was_full = *load + 1 == limit;
        if *load == 0 {
            self.loads.remove(name);
        }
        if was_full {
            self.weigh(name);
        }
    }

    fn weigh(&mut self, name: &P) {
        if let Ok(place) = self.names.binary_search(name) {
            self.sums.set(place, self.weight_at(place));
        }
    }

    fn weigh_all(&mut self) {
        self.sums = Sums::new((0..self.names.len()).map(|place| self.weight_at(place)));
    }

    /// What the peer at a place weighs: nothing where it may not be asked.
    fn weight_at(&self, place: usize) -> u64 {
        let name = &self.names[place];
        let is_full = match self.limit {
            Some(limit) => self.loads.get(name).is_some_and(|load| *load >= limit),
            None => false,
        };
        if is_full || self.local.as_ref() == Some(name) || self.blocked.contains(name) {
            return 0;
        }
        self.scores[place].weight()
    }
}
