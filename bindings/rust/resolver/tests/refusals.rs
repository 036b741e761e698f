//! Memory that is refused to a machine: each growth of a run in turn. No answer is another than the one
//! that the refusal's name says, and nothing else is lost.
//!
//!     cargo test --features refusals --test refusals
#![cfg(feature = "refusals")]

use resolver::wire::{Message, Payload};
use resolver::{
    Answer, Ask, Check, Core, Effect, Event, Fault, Name, Outcome, Room, Settings, Wanted,
};
use resolver_sys::refusals::{is_ahead, refuse};

/// How often each refusal came.
#[derive(Debug, Default)]
struct Came {
    unopened: usize,
    unread: usize,
    untold: usize,
    failed: usize,
}

fn opened() -> Result<Core, Fault> {
    Core::new(&Settings { peer_limit: 3, retry_delay: 5, ..Settings::default() })
}

fn spelled(now: u128, event: Event<'_>) -> Vec<u8> {
    let mut input = Vec::new();
    event.spell(now, &mut input);
    input
}

/// The inputs of a run in which keys are fetched, asked for, answered, judged and let go, with what each
/// step tells.
fn recorded() -> Vec<(Vec<u8>, Vec<u8>)> {
    let mut core = opened().expect("a core");
    let mut room = Room::new();
    let mut steps = Vec::new();
    let peers = [Name::numbered(3), Name::numbered(4)];
    let mut next = vec![spelled(0, Event::PeerSet { index: 1, peers: &peers })];
    for key in 0..6 {
        let subscribers = [(1, 7), (2, key), (key, 9)];
        let wanted =
            Wanted { key: Name::numbered(key), subscribers: &subscribers, targets: Some(&peers) };
        next.push(spelled(1, Event::Fetch(&[wanted])));
    }
    next.push(spelled(30, Event::Retain(&[(Name::numbered(5), 1), (Name::numbered(5), 2)])));
    next.push(spelled(31, Event::Blocked(&peers[1..])));
    let asked = [&[0; 8][..], &[0], &Name::<32>::numbered(9).0].concat();
    next.push(spelled(32, Event::Net { peer: peers[0], bytes: &asked }));
    next.push(spelled(33, Event::Served { serve: 0, value: Some(b"served") }));
    next.push(spelled(u128::MAX >> 34, Event::ActiveDue));
    next.push(spelled(u128::MAX >> 34, Event::End));
    next.reverse();
    while let Some(input) = next.pop() {
        let effects = core.step(&input, &mut room).expect("a step");
        for effect in effects {
            next.extend(answer(effect));
        }
        steps.push((input, effects.bytes().to_vec()));
    }
    steps
}

/// What an effect is answered with.
fn answer(effect: Effect<'_>) -> Vec<Vec<u8>> {
    let mut input = Vec::new();
    match effect {
        Effect::Ask(ask) => {
            match ask {
                Ask::Draw(_) => Answer::Drawn(0),
                Ask::Check(_) => Answer::Checked(Check::Clear),
                Ask::Request { .. } => Answer::Sent(true),
            }
            .spell(&mut input);
            if let Ask::Request { peer, id, .. } = ask {
                let mut bytes = Vec::new();
                let payload = Payload::Response(b"a value");
                Message::<32> { id, payload }.write(&mut bytes).expect("a short value");
                return vec![spelled(20, Event::Net { peer, bytes: &bytes }), input];
            }
        }
        Effect::Deliver { number, .. } => {
            let outcome = Some(if number == 2 { Outcome::Invalid } else { Outcome::Complete });
            let event: Event<'_> = Event::Verdict { number, outcome };
            event.spell(25, &mut input);
        }
        _ => return Vec::new(),
    }
    vec![input]
}

/// The rows, which are asked for again where memory was wanting for them.
fn rows(core: &mut Core, room: &mut Room, came: &mut Came) -> Vec<u8> {
    match core.rows(room).map(|rows| rows.bytes().to_vec()) {
        Err(Fault::Untold) => {
            came.untold += 1;
            core.rows(room).expect("rows").bytes().to_vec()
        }
        rows => rows.expect("rows"),
    }
}

/// Takes a step, which is taken again where it wasn't read. What it tells, or nothing where the machine failed.
fn take(core: &mut Core, input: &[u8], room: &mut Room, came: &mut Came) -> Option<Vec<u8>> {
    match core.step(input, room).map(|told| told.bytes().to_vec()) {
        Ok(told) => Some(told),
        Err(Fault::Unread) => {
            came.unread += 1;
            assert_eq!(core.told(room).expect("nothing").count(), 0);
            Some(core.step(input, room).expect("the step").bytes().to_vec())
        }
        Err(Fault::Untold) => {
            came.untold += 1;
            Some(core.told(room).expect("what was kept").bytes().to_vec())
        }
        Err(Fault::OutOfMemory) => {
            came.failed += 1;
            let refused = core.step(input, room).map(drop);
            assert_eq!(refused, Err(Fault::Failed));
            assert_eq!(core.rows(room).map(drop), Err(Fault::Failed));
            assert_eq!(core.retain(0, room, |_, _| true).map(drop), Err(Fault::Failed));
            None
        }
        Err(other) => panic!("{other:?}"),
    }
}

/// Takes all steps, of which one growth is refused.
fn run(steps: &[(Vec<u8>, Vec<u8>)], listed: &[Vec<u8>], came: &mut Came) {
    let mut room = Room::new();
    let mut core = match opened() {
        Ok(core) => core,
        Err(fault) => {
            assert_eq!(fault, Fault::OutOfMemory);
            came.unopened += 1;
            return;
        }
    };
    for ((input, told), wanted) in steps.iter().zip(listed) {
        match take(&mut core, input, &mut room, came) {
            Some(came) => assert_eq!(&came, told),
            None => return,
        }
        assert_eq!(&rows(&mut core, &mut room, came), wanted);
    }
}

#[test]
fn each_growth_is_refused_in_turn() {
    let steps = recorded();
    let mut core = opened().expect("a core");
    let mut room = Room::new();
    let mut listed = Vec::new();
    for (input, _) in &steps {
        core.step(input, &mut room).expect("a step");
        listed.push(core.rows(&mut room).expect("rows").bytes().to_vec());
    }
    let mut came = Came::default();
    for number in 1.. {
        refuse(number);
        run(&steps, &listed, &mut came);
        if is_ahead() {
            break;
        }
    }
    refuse(0);
    println!("{} steps: {came:?}", steps.len());
    assert!(steps.len() > 30);
}
