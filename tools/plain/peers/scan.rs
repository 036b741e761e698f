//! Which waiting key is asked for, and of which peer.

use super::wire::Key;
use super::{Answer, Effect, Machine, Phase, Refusal, Request};
use std::collections::BTreeSet;
use std::ops::Bound;

/// Where an open scan stands.
pub(super) struct Scan<K> {
    /// The moment at which it began.
    moment: u128,
    trial: Trial<K>,
    expects: Expected,
    /// The least moment until which a peer that was tried may not be sent to, if there was one.
    limit: Option<u128>,
}

/// A key, and the peers that are left to be tried for it.
struct Trial<K> {
    is_retry: bool,
    due: u128,
    key: K,
    retries: u32,
    left: Left,
}

enum Left {
    /// All that may be asked.
    All,
    /// These places with their weights, of a key with targets.
    Few(Vec<(usize, u64)>),
}

/// What a scan is to be answered. A peer goes by its place in the set.
#[derive(Clone, Copy)]
enum Expected {
    Mode,
    ByWeight,
    ByPlace,
    Checking(usize),
    FirstId(usize),
    Sending(usize, u64),
}

type Asked<K, P, S> = Option<Effect<K, P, S>>;

impl<K: Key, P: Ord + Clone, S: Ord + Clone> Machine<K, P, S> {
    pub(super) fn begin_scan(&mut self, moment: u128) -> Asked<K, P, S> {
        self.waiter = 0;
        let found = self.first_fresh(moment, Bound::Unbounded);
        match found.or_else(|| self.first_retried(moment, Bound::Unbounded)) {
            Some(trial) => {
                self.try_key(Scan { moment, trial, expects: Expected::Mode, limit: None })
            }
            None => self.wait(moment, None),
        }
    }

    pub(super) fn answer_scan(&mut self, answer: Answer) -> Result<Asked<K, P, S>, Refusal> {
        let Some(scan) = &self.scan else {
            return Err(Refusal::Unasked);
        };
        let bound = self.bound(scan);
        match (scan.expects, answer) {
            (Expected::Checking(place), Answer::Checked(None)) => Ok(self.take_id(place)),
            (Expected::Checking(place), Answer::Checked(limit)) => Ok(self.fail(place, limit)),
            (Expected::Sending(place, id), Answer::Sent(true)) => Ok(self.accept(place, id)),
            (Expected::Sending(place, _), Answer::Sent(false)) => Ok(self.fail(place, None)),
            (expects, Answer::Drawn(number)) => match bound {
                None => Err(Refusal::Unasked),
                Some(bound) if number >= bound => Err(Refusal::OutOfRange),
                Some(_) => Ok(self.draw(expects, number)),
            },
            _ => Err(Refusal::Unasked),
        }
    }

    /// Below what a number is asked for, if one is.
    fn bound(&self, scan: &Scan<K>) -> Option<u128> {
        match (scan.expects, &scan.trial.left) {
            (Expected::Mode, _) => Some(u128::from(scan.trial.retries) + 4),
            (Expected::ByWeight, Left::All) => Some(self.peers.total()),
            (Expected::ByWeight, Left::Few(few)) => {
                Some(few.iter().map(|(_, weight)| u128::from(*weight)).sum())
            }
            (Expected::ByPlace, Left::All) => Some(self.peers.count() as u128),
            (Expected::ByPlace, Left::Few(few)) => Some(few.len() as u128),
            (Expected::FirstId(_), _) => Some(1 << 64),
            (Expected::Checking(_) | Expected::Sending(..), _) => None,
        }
    }

    /// Takes a number that is below its bound.
    fn draw(&mut self, expects: Expected, number: u128) -> Asked<K, P, S> {
        match expects {
            Expected::Mode if number < 4 => self.expect(Expected::ByWeight),
            Expected::Mode => self.expect(Expected::ByPlace),
            Expected::FirstId(place) => self.send(place, number as u64),
            _ => {
                let place = self.chosen(expects, number)?;
                self.expect(Expected::Checking(place))
            }
        }
    }

    /// The place of the peer that a number chooses.
    fn chosen(&self, expects: Expected, number: u128) -> Option<usize> {
        match (expects, &self.scan.as_ref()?.trial.left) {
            (Expected::ByWeight, Left::All) => Some(self.peers.by_weight(number)),
            (_, Left::All) => Some(self.peers.by_place(number as usize)),
            (Expected::ByWeight, Left::Few(few)) => by_weight(few, number),
            (_, Left::Few(few)) => few.get(number as usize).map(|(place, _)| *place),
        }
    }

    /// The scan goes on to what it expects next, and asks for that.
    fn expect(&mut self, expects: Expected) -> Asked<K, P, S> {
        let scan = self.scan.as_mut()?;
        scan.expects = expects;
        match expects {
            Expected::Checking(place) => Some(Effect::Check(self.peers.name(place).clone())),
            Expected::Sending(place, id) => Some(Effect::Request {
                peer: self.peers.name(place).clone(),
                id,
                key: scan.trial.key.clone(),
            }),
            _ => {
                let scan = self.scan.as_ref()?;
                self.bound(scan).map(Effect::Draw)
            }
        }
    }

    /// The peer may be sent to: the first id is drawn, a later one is the next that no request has.
    fn take_id(&mut self, place: usize) -> Asked<K, P, S> {
        let Some(last) = self.last_id else {
            return self.expect(Expected::FirstId(place));
        };
        let mut id = last.wrapping_add(1);
        while self.requests.contains_key(&id) {
            id = id.wrapping_add(1);
        }
        self.send(place, id)
    }

    fn send(&mut self, place: usize, id: u64) -> Asked<K, P, S> {
        self.last_id = Some(id);
        self.expect(Expected::Sending(place, id))
    }

    /// The request is on its way, and the scan is over.
    fn accept(&mut self, place: usize, id: u64) -> Asked<K, P, S> {
        let Scan { moment, trial, .. } = self.scan.take()?;
        self.peers.restore();
        let peer = self.peers.name(place).clone();
        self.peers.load(&peer);
        let row = self.rows.get_mut(&trial.key).expect("a waiting key is wanted");
        row.phase = Phase::Asked(id);
        let place = (trial.due, trial.key);
        self.queue(trial.is_retry).remove(&place);
        let request =
            Request { key: place.1, peer, start: moment, deadline: moment + self.timeout };
        self.deadlines.insert((request.deadline, id));
        self.requests.insert(id, request);
        None
    }

    /// A peer was tried in vain.
    fn fail(&mut self, place: usize, limit: Option<u128>) -> Asked<K, P, S> {
        let mut scan = self.scan.take()?;
        scan.limit = least(scan.limit, limit);
        let is_left = match &mut scan.trial.left {
            Left::All => {
                self.peers.pass(place);
                self.peers.count() > 0
            }
            Left::Few(few) => {
                few.retain(|(other, _)| *other != place);
                !few.is_empty()
            }
        };
        if is_left {
            return self.try_key(scan);
        }
        self.peers.restore();
        let Scan { moment, trial, expects, limit } = scan;
        match self.next_trial(moment, trial) {
            Some(trial) => self.try_key(Scan { moment, trial, expects, limit }),
            None => self.wait(moment, Some(limit.unwrap_or(moment + self.delay))),
        }
    }

    /// Asks how a peer is drawn for the key of a scan.
    fn try_key(&mut self, scan: Scan<K>) -> Asked<K, P, S> {
        self.scan = Some(scan);
        self.expect(Expected::Mode)
    }

    /// A scan is over in vain. The next one may do something once a key becomes due, or when what was tried may be
    /// tried again.
    fn wait(&mut self, moment: u128, again: Option<u128>) -> Asked<K, P, S> {
        let due = least(self.due_after(&self.fresh, moment), self.due_after(&self.retried, moment));
        self.waiter = least(again, due).unwrap_or(u128::MAX);
        None
    }

    /// The first due in a queue that is later than a moment.
    fn due_after(&self, queue: &BTreeSet<(u128, K)>, moment: u128) -> Option<u128> {
        let (last, _) = self.rows.last_key_value()?;
        let behind = Bound::Excluded((moment, last.clone()));
        queue.range((behind, Bound::Unbounded)).next().map(|(due, _)| *due)
    }

    /// What is tried once a key has no peer left.
    fn next_trial(&self, moment: u128, trial: Trial<K>) -> Option<Trial<K>> {
        let behind = Bound::Excluded((trial.due, trial.key));
        if trial.is_retry {
            return self.first_retried(moment, behind);
        }
        let found = self.first_fresh(moment, behind);
        found.or_else(|| self.first_retried(moment, Bound::Unbounded))
    }

    fn first_fresh(&self, moment: u128, from: Bound<(u128, K)>) -> Option<Trial<K>> {
        self.first_in(&self.fresh, false, moment, from)
    }

    fn first_retried(&self, moment: u128, from: Bound<(u128, K)>) -> Option<Trial<K>> {
        self.first_in(&self.retried, true, moment, from)
    }

    /// The first key of a queue from here on that is due and has a peer.
    fn first_in(
        &self,
        queue: &BTreeSet<(u128, K)>,
        is_retry: bool,
        moment: u128,
        from: Bound<(u128, K)>,
    ) -> Option<Trial<K>> {
        if self.peers.count() == 0 {
            return None;
        }
        let behind = queue.range((from, Bound::Unbounded));
        behind.take_while(|(due, _)| *due <= moment).find_map(|(due, key)| {
            let row = &self.rows[key];
            let left = match &row.targets {
                None => Left::All,
                Some(targets) => {
                    let few = targets.names.iter().filter_map(|name| self.peers.askable(name));
                    Left::Few(few.collect())
                }
            };
            let is_any = !matches!(&left, Left::Few(few) if few.is_empty());
            is_any.then(|| Trial {
                is_retry,
                due: *due,
                key: key.clone(),
                retries: row.retries,
                left,
            })
        })
    }
}

/// The place in whose interval of the weights a number lies.
fn by_weight(few: &[(usize, u64)], number: u128) -> Option<usize> {
    let mut end = 0;
    let chosen = few.iter().find(|(_, weight)| {
        end += u128::from(*weight);
        number < end
    });
    chosen.map(|(place, _)| *place)
}

/// The lesser of two moments, or the one that there is.
fn least(one: Option<u128>, other: Option<u128>) -> Option<u128> {
    one.into_iter().chain(other).min()
}
