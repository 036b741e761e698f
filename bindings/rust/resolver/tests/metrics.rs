//! Each number that a core counts, in a run in which no two of them are alike.

use resolver::wire::{Message, Payload};
use resolver::{
    Answer, Ask, Check, Core, Durations, Effect, Event, Fault, Metrics, Name, Outcome, Room,
    Settings, Tally, Wanted,
};

/// A core of one peer, and the requests that it sent.
struct Run {
    core: Core,
    room: Room,
    /// Whether requests are taken to be sent.
    takes: bool,
    requests: Vec<u64>,
    number: u64,
    serve: u64,
}

const PEER: Name = Name::numbered(4);

impl Run {
    fn new() -> Run {
        let settings = Settings { fetch_timeout: 1000, retry_delay: 1000, ..Settings::default() };
        let mut run = Run {
            core: Core::new(&Settings { peer_limit: 0, ..settings }).unwrap(),
            room: Room::new(),
            takes: true,
            requests: Vec::new(),
            number: 0,
            serve: 0,
        };
        run.feed(0, &Event::PeerSet { index: 1, peers: &[PEER] });
        run
    }

    /// Feeds an event, and answers what its scan asks.
    fn feed(&mut self, now: u128, event: &Event<'_>) {
        let mut last = self.core.happens(now, event, &mut self.room).unwrap().last();
        while let Some(Effect::Ask(ask)) = last {
            let answer = match ask {
                Ask::Draw(_) => Answer::Drawn(0),
                Ask::Check(_) => Answer::Checked(Check::Clear),
                Ask::Request { id, .. } => {
                    self.requests.push(id);
                    Answer::Sent(self.takes)
                }
            };
            last = self.core.answers(answer, &mut self.room).unwrap().last();
        }
    }

    /// A key is fetched, and asked for where that is possible.
    fn fetch(&mut self, now: u128, key: u64) {
        let wanted = Wanted { key: Name::numbered(key), subscribers: &[(10, 7)], targets: None };
        self.feed(now, &Event::Fetch(&[wanted]));
    }

    /// A key is fetched and comes after 20 nanoseconds, and is judged after 25.
    fn judge(&mut self, now: u128, key: u64, outcome: Option<Outcome>) {
        self.fetch(now, key);
        let (id, payload) = (*self.requests.last().unwrap(), Payload::Response(b"hi"));
        let mut bytes = Vec::new();
        Message::<32> { id, payload }.write(&mut bytes).unwrap();
        self.feed(now + 20, &Event::Net { peer: PEER, bytes: &bytes });
        let number = self.number;
        self.number += 1;
        self.feed(now + 25, &Event::Verdict { number, outcome });
    }

    /// The peer asks for a key, and has an answer after 7 nanoseconds.
    fn serve(&mut self, now: u128, value: Option<&[u8]>) {
        self.ask(now);
        let serve = self.serve - 1;
        self.feed(now + 7, &Event::Served { serve, value });
    }

    /// The peer asks for a key.
    fn ask(&mut self, now: u128) {
        let (id, payload) = (self.serve, Payload::Request(Name::numbered(1)));
        let mut bytes = Vec::new();
        Message::<32> { id, payload }.write(&mut bytes).unwrap();
        self.feed(now, &Event::Net { peer: PEER, bytes: &bytes });
        self.serve += 1;
    }
}

#[test]
fn each_number() {
    let mut run = Run::new();
    (0..3).for_each(|key| run.judge(0, key, Some(Outcome::Complete)));
    (10..15).for_each(|key| run.judge(30, key, Some(Outcome::Unresolved)));
    (20..27).for_each(|key| run.judge(60, key, Some(Outcome::Invalid)));
    (30..32).for_each(|key| run.judge(90, key, Some(Outcome::Ignored)));
    (0..9).for_each(|_| run.serve(100, Some(b"hi")));
    (0..11).for_each(|_| run.serve(110, None));
    (0..13).for_each(|_| run.ask(120));
    (50..54).for_each(|key| run.fetch(130, key));
    for _ in 0..6 {
        run.core.retain(132, &mut run.room, |_, _| true).unwrap();
    }
    let waits = |key: &Name| (10..15).chain(20..27).any(|n| *key == Name::numbered(n));
    run.core.retain(133, &mut run.room, |key, _| !waits(key)).unwrap();
    run.takes = false;
    run.fetch(134, 60);
    let metrics = run.core.metrics().unwrap();
    println!("{metrics:?}");
    assert_eq!(metrics.fetch, Tally { success: 3, ambiguous: 5, failure: 7, dropped: 2 });
    assert_eq!(metrics.serve, Tally { success: 9, ambiguous: 0, failure: 11, dropped: 0 });
    assert_eq!(metrics.cancel.success, 12);
    assert_eq!(metrics.requests_sent.success, 3 + 5 + 7 + 2 + 4);
    assert_eq!(metrics.serve_processing, 13);
    assert_eq!(metrics.fetch_active, 4);
    assert_eq!(metrics.fetch_pending, 1);
    assert_eq!(metrics.resolves, Durations { count: 3, nanoseconds: 3 * 20 });
    assert_eq!(metrics.fetch_duration, Durations { count: 3, nanoseconds: 3 * 25 });
    assert_eq!(metrics.serve_duration, Durations { count: 9, nanoseconds: 9 * 7 });
    assert_eq!(metrics.cancel.dropped, 6);
    assert_eq!(metrics.requests_sent.dropped, 1);
}

#[test]
fn nothing_at_first() {
    let mut core: Core = Core::new(&Settings::default()).unwrap();
    assert_eq!(core.metrics(), Ok::<_, Fault>(Metrics::default()));
}
