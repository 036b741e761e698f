//! Both machines through the archive, by the crate `resolver`: their inputs are spelled, and each effect is read.

use crate::{Driven, PEERS, SUBSCRIBERS, key, response, scattered};
use resolver::source::{self, Actor as Machine};
use resolver::{
    Answer, Ask, Check, Core as Engine, Effect, Event, Name, Outcome, Room, Settings, Wanted,
};

/// The core, and the peer and the id of each request.
pub struct Core {
    engine: Engine,
    room: Room,
    requests: Vec<(Name, u64)>,
}

impl Core {
    /// A core that knows its peers.
    pub fn open() -> Core {
        let settings = Settings { peer_limit: 0, ..Settings::default() };
        let mut engine = Engine::new(&settings).expect("a core");
        let mut room = Room::new();
        let peers: Vec<Name> = (0..PEERS).map(Name::numbered).collect();
        let event = Event::PeerSet { index: 1, peers: &peers };
        engine.happens(0, &event, &mut room).expect("a step");
        Core { engine, room, requests: Vec::new() }
    }

    /// Reads what a step told, and answers its last effect.
    fn happens(&mut self, event: &Event<'_>) -> u64 {
        let effects = self.engine.happens(0, event, &mut self.room).expect("a step");
        u64::from(effects.last().is_some())
    }
}

impl Driven for Core {
    fn fetch(&mut self, number: u64) -> u64 {
        let wanted = Wanted { key: Name(key(number)), subscribers: &SUBSCRIBERS, targets: None };
        let Core { engine, room, requests } = self;
        let event = Event::Fetch(&[wanted]);
        let mut last = engine.happens(0, &event, room).expect("a step").last();
        let mut inputs = 1;
        while let Some(Effect::Ask(ask)) = last {
            let answer = match ask {
                Ask::Draw(bound) => Answer::Drawn(u128::from(scattered(number)) % bound),
                Ask::Check(_) => Answer::Checked(Check::Clear),
                Ask::Request { peer, id, .. } => {
                    requests.push((peer, id));
                    Answer::Sent(true)
                }
            };
            last = engine.answers(answer, room).expect("a step").last();
            inputs += 1;
        }
        inputs
    }

    fn value(&mut self, number: u64) -> u64 {
        let (peer, id) = self.requests[number as usize];
        assert_eq!(self.happens(&Event::Net { peer, bytes: &response(id) }), 1);
        1
    }

    fn complete(&mut self, number: u64) -> u64 {
        let outcome = Some(Outcome::Complete);
        assert_eq!(self.happens(&Event::Verdict { number, outcome }), 1);
        1
    }
}

/// The actor.
pub struct Actor {
    machine: Machine,
    room: Room,
}

impl Actor {
    /// An actor without demand.
    pub fn open() -> Actor {
        Actor { machine: Machine::new(100).expect("an actor"), room: Room::new() }
    }

    /// Reads what a step told.
    fn happens(&mut self, event: &source::Event<'_>, told: usize) -> u64 {
        let effects = self.machine.happens(0, event, &mut self.room).expect("a step");
        assert_eq!(effects.count(), told);
        1
    }
}

impl Driven for Actor {
    fn fetch(&mut self, number: u64) -> u64 {
        let wanted = source::Wanted { key: Name(key(number)), subscribers: &SUBSCRIBERS };
        self.happens(&source::Event::Fetch(&[wanted]), 1)
    }

    fn value(&mut self, number: u64) -> u64 {
        self.happens(&source::Event::Fetched { attempt: number, value: Some(&[1]) }, 1)
    }

    fn complete(&mut self, number: u64) -> u64 {
        let outcome = Some(Outcome::Complete);
        self.happens(&source::Event::Verdict { number, outcome }, 0)
    }
}
