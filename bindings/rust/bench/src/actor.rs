//! What an actor does for a key that is fetched, comes and is judged complete, in plain Rust over the standard
//! maps. It has no more of an actor than that.

use crate::{Driven, SUBSCRIBERS, key};
use std::collections::{BTreeMap, HashMap};
use std::rc::Rc;

type Name = [u8; 32];

enum Phase {
    Asked,
    Judged(u64),
}

struct Row {
    subscribers: BTreeMap<u64, u64>,
    phase: Phase,
    value: Option<Rc<[u8]>>,
}

/// What a step tells. It is read by nobody here.
#[allow(dead_code)]
enum Effect {
    Start(u64, Name),
    Deliver { number: u64, key: Name, subscribers: Vec<(u64, u64)>, value: Rc<[u8]> },
}

/// A machine.
#[derive(Default)]
pub struct Actor {
    rows: BTreeMap<Name, Row>,
    attempts: HashMap<u64, Name>,
    deliveries: HashMap<u64, (Name, Vec<u64>)>,
    next_attempt: u64,
    next_number: u64,
}

impl Actor {
    fn fetch_for(&mut self, key: Name, subscribers: Vec<(u64, u64)>) -> Vec<Effect> {
        let mut told = Vec::new();
        let row = self.rows.entry(key).or_insert_with(|| {
            let attempt = self.next_attempt;
            self.next_attempt += 1;
            self.attempts.insert(attempt, key);
            told.push(Effect::Start(attempt, key));
            Row { subscribers: BTreeMap::new(), phase: Phase::Asked, value: None }
        });
        for (subscriber, mark) in subscribers {
            row.subscribers.entry(subscriber).or_insert(mark);
        }
        told
    }

    fn hand_out(&mut self, key: Name) -> Vec<Effect> {
        let number = self.next_number;
        self.next_number += 1;
        let Some(row) = self.rows.get_mut(&key) else {
            return Vec::new();
        };
        row.phase = Phase::Judged(number);
        let subscribers: Vec<(u64, u64)> =
            row.subscribers.iter().map(|(name, mark)| (*name, *mark)).collect();
        let names = subscribers.iter().map(|one| one.0).collect();
        self.deliveries.insert(number, (key, names));
        let value = row.value.clone().unwrap_or_default();
        vec![Effect::Deliver { number, key, subscribers, value }]
    }

    fn fetched(&mut self, attempt: u64, value: Vec<u8>) -> Vec<Effect> {
        let Some(key) = self.attempts.remove(&attempt) else {
            return Vec::new();
        };
        if let Some(row) = self.rows.get_mut(&key) {
            row.value = Some(value.into());
        }
        self.hand_out(key)
    }

    fn completed(&mut self, number: u64) -> Vec<Effect> {
        let Some((key, names)) = self.deliveries.remove(&number) else {
            return Vec::new();
        };
        let Some(row) = self.rows.get_mut(&key) else {
            return Vec::new();
        };
        if !matches!(row.phase, Phase::Judged(judged) if judged == number) {
            return Vec::new();
        }
        for name in &names {
            row.subscribers.remove(name);
        }
        if !row.subscribers.is_empty() {
            return self.hand_out(key);
        }
        self.rows.remove(&key);
        Vec::new()
    }
}

impl Driven for Actor {
    fn fetch(&mut self, number: u64) -> u64 {
        assert_eq!(self.fetch_for(key(number), SUBSCRIBERS.to_vec()).len(), 1);
        1
    }

    fn value(&mut self, number: u64) -> u64 {
        assert_eq!(self.fetched(number, vec![1]).len(), 1);
        1
    }

    fn complete(&mut self, number: u64) -> u64 {
        assert_eq!(self.completed(number).len(), 0);
        1
    }
}
