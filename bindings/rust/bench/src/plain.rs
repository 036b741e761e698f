//! The peer machine in plain Rust, of tools/plain, with names of 32 bytes.

use crate::peers::wire::Key;
use crate::peers::{Answer, Config, Effect, Event, Fetch, Machine, Outcome};
use crate::{Driven, PEERS, SUBSCRIBERS, key, response, scattered};

/// A name of 32 bytes.
#[derive(Clone, Copy, PartialEq, Eq, PartialOrd, Ord)]
pub struct Name([u8; 32]);

impl Key for Name {
    const SIZE: usize = 32;

    fn read(bytes: &[u8]) -> Option<Name> {
        Some(Name(bytes.try_into().ok()?))
    }
}

type Keep = fn(&Name, &u64) -> bool;
type Told = Vec<Effect<Name, Name, u64>>;

/// The machine, and the peer and the id of each request.
pub struct Core {
    machine: Machine<Name, Name, u64>,
    requests: Vec<(Name, u64)>,
}

impl Core {
    /// A machine that knows its peers.
    pub fn open() -> Core {
        let config = Config { me: None, timeout: 1_000_000_000, delay: 100_000_000, limit: None };
        let mut core = Core { machine: Machine::new(config), requests: Vec::new() };
        let peer = |number: u64| {
            let mut name = [0; 32];
            name[24..].copy_from_slice(&number.to_be_bytes());
            Name(name)
        };
        core.happens(Event::PeerSet(1, (0..PEERS).map(peer).collect()));
        core
    }

    fn happens(&mut self, event: Event<Name, Name, u64, Keep>) -> Told {
        self.machine.happen(0, event).unwrap_or_default()
    }
}

impl Driven for Core {
    fn fetch(&mut self, number: u64) -> u64 {
        let subscribers = SUBSCRIBERS.to_vec();
        let item = Fetch { key: Name(key(number)), subscribers, targets: None };
        let mut told = self.happens(Event::Fetch(vec![item]));
        let mut inputs = 1;
        while let Some(asked) = told.last() {
            let answer = match asked {
                Effect::Draw(bound) => Answer::Drawn(u128::from(scattered(number)) % bound),
                Effect::Check(_) => Answer::Checked(None),
                Effect::Request { peer, id, .. } => {
                    self.requests.push((*peer, *id));
                    Answer::Sent(true)
                }
                _ => break,
            };
            told = self.machine.answer(answer).unwrap_or_default();
            inputs += 1;
        }
        inputs
    }

    fn value(&mut self, number: u64) -> u64 {
        let (peer, id) = self.requests[number as usize];
        assert_eq!(self.happens(Event::Net(peer, response(id).to_vec())).len(), 1);
        1
    }

    fn complete(&mut self, number: u64) -> u64 {
        let told = self.happens(Event::Verdict(number, Some(Outcome::Complete)));
        assert_eq!(told.len(), 1);
        1
    }
}
