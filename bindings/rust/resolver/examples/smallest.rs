//! The smallest node: it fetches one key from one peer, which is in memory here and answers at once.
//!
//!     cargo run --example smallest

use resolver::wire::{Message, Payload};
use resolver::{
    Check, Core, Driver, Effect, Event, Fault, Name, Outcome, Room, Seeded, Settings, Transport,
    Wanted,
};

/// The way to the peer, and what came back.
struct Peer {
    inbox: Vec<Vec<u8>>,
}

impl Transport for Peer {
    fn check(&mut self, _peer: Name) -> Check {
        Check::Clear
    }

    fn send(&mut self, _peer: Name, request: &[u8], _priority: bool) -> bool {
        let Ok(Message { id, .. }) = Message::<32>::read(request) else {
            return false;
        };
        let mut answer = Vec::new();
        let value = Payload::Response(b"the value");
        let spelled = Message::<32> { id, payload: value }.write(&mut answer);
        self.inbox.push(answer);
        spelled.is_ok()
    }
}

fn main() -> Result<(), Fault> {
    let core: Core = Core::new(&Settings::default())?;
    let mut driver = Driver::new(core, Seeded::from_std());
    let (mut peer, mut room) = (Peer { inbox: Vec::new() }, Room::new());

    let peers = [Name::numbered(4)];
    driver.feed(0, &Event::PeerSet { index: 1, peers: &peers }, &mut peer, &mut room)?;
    let wanted = Wanted { key: Name::numbered(1), subscribers: &[(10, 7)], targets: None };
    driver.feed(0, &Event::Fetch(&[wanted]), &mut peer, &mut room)?;

    while let Some(bytes) = peer.inbox.pop() {
        let event = Event::Net { peer: peers[0], bytes: &bytes };
        let mut verdicts = Vec::new();
        for effect in driver.feed(20, &event, &mut peer, &mut room)? {
            if let Effect::Deliver { number, key, value, .. } = effect {
                println!("{key}: {}", String::from_utf8_lossy(value));
                verdicts.push(Event::Verdict { number, outcome: Some(Outcome::Complete) });
            }
        }
        for verdict in verdicts {
            driver.feed(20, &verdict, &mut peer, &mut room)?;
        }
    }
    assert_eq!(driver.rows(&mut room)?.count(), 0);
    Ok(())
}
