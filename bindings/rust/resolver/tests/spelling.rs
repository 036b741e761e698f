//! Every kind of input is read as it is spelled, and every kind of effect is spelled as it is read.

mod common;

use common::Piece::{Number, Octet, Subscribers, Value, Wide};
use common::{Item, Piece, Taken, actor_input, core_input, put};
use resolver::wire::{Message, Payload};
use resolver::{
    Answer, Ask, Check, Effect, Event, Fault, Name, Outcome, Records, Row, Settings, Wanted, Width,
    source,
};

const NOW: u128 = (1 << 94) - 1;

const OUTCOMES: [Option<Outcome>; 6] = [
    None,
    Some(Outcome::Complete),
    Some(Outcome::Partial),
    Some(Outcome::Invalid),
    Some(Outcome::Unresolved),
    Some(Outcome::Ignored),
];

fn assert_core<const N: usize>(event: &Event<'_, N>, taken: Taken<N>) {
    let mut bytes = Vec::new();
    event.spell(NOW, &mut bytes);
    assert_eq!(core_input(&bytes), Some((Some(NOW), taken)), "{event:?}");
}

fn assert_actor<const N: usize>(event: &source::Event<'_, N>, taken: Taken<N>) {
    let mut bytes = Vec::new();
    event.spell(NOW, &mut bytes);
    assert_eq!(actor_input(&bytes), Some((NOW, taken)), "{event:?}");
}

fn assert_answer(answer: Answer, taken: Taken<32>) {
    let mut bytes = Vec::new();
    answer.spell(&mut bytes);
    assert_eq!(core_input(&bytes), Some((None, taken)), "{answer:?}");
}

/// Two subscribers, the second with the greatest numbers.
const SUBSCRIBERS: [(u64, u64); 2] = [(10, 7), (u64::MAX, u64::MAX)];

fn all_events<const N: usize>()
where
    Name<N>: Width,
{
    let (key, peer) = (Name::numbered(1), Name::numbered(u64::MAX));
    let peers = [peer, Name::numbered(3)];
    for targets in [None, Some(&peers[..])] {
        let wanted = Wanted { key, subscribers: &SUBSCRIBERS, targets };
        let item =
            Item { key, subscribers: SUBSCRIBERS.to_vec(), targets: targets.map(<[_]>::to_vec) };
        assert_core(&Event::Fetch(&[wanted]), Taken::Fetch(vec![item.clone()]));
        assert_core(&Event::Fetch(&[wanted; 3]), Taken::Fetch(vec![item; 3]));
    }
    assert_core::<N>(&Event::Fetch(&[]), Taken::Fetch(vec![]));
    let pairs = [(key, 10), (peer, u64::MAX)];
    assert_core(&Event::Retain(&pairs), Taken::Retain(pairs.to_vec()));
    let event = Event::PeerSet { index: u64::MAX, peers: &peers };
    assert_core(&event, Taken::PeerSet(u64::MAX, peers.to_vec()));
    assert_core(&Event::Blocked(&peers), Taken::Blocked(peers.to_vec()));
    assert_core(&Event::<'_, N>::ActiveDue, Taken::ActiveDue);
    assert_core(&Event::<'_, N>::PendingDue, Taken::PendingDue);
    for outcome in OUTCOMES {
        let event: Event<'_, N> = Event::Verdict { number: 5, outcome };
        assert_core(&event, Taken::Verdict(5, outcome));
    }
    for value in [None, Some(&b""[..]), Some(b"hi")] {
        let event: Event<'_, N> = Event::Served { serve: 6, value };
        assert_core(&event, Taken::Served(6, value.map(<[u8]>::to_vec)));
    }
    for bytes in [&b""[..], b"hi"] {
        assert_core(&Event::Net { peer, bytes }, Taken::Net(peer, bytes.to_vec()));
    }
    assert_core(&Event::<'_, N>::End, Taken::End);
}

#[test]
fn events_of_a_core() {
    all_events::<32>();
    all_events::<8>();
}

#[test]
fn events_of_an_actor() {
    let key = Name::<32>::numbered(1);
    let wanted = source::Wanted { key, subscribers: &SUBSCRIBERS };
    let item = Item { key, subscribers: SUBSCRIBERS.to_vec(), targets: None };
    assert_actor(&source::Event::Fetch(&[wanted; 2]), Taken::Fetch(vec![item; 2]));
    let pairs = [(key, 10), (Name::numbered(2), 11)];
    assert_actor(&source::Event::Retain(&pairs), Taken::Retain(pairs.to_vec()));
    for value in [None, Some(&b""[..]), Some(b"hi")] {
        let event: source::Event<'_> = source::Event::Fetched { attempt: 6, value };
        assert_actor(&event, Taken::Fetched(6, value.map(<[u8]>::to_vec)));
    }
    for outcome in OUTCOMES {
        let event: source::Event<'_> = source::Event::Verdict { number: 5, outcome };
        assert_actor(&event, Taken::Verdict(5, outcome));
    }
    assert_actor(&source::Event::<'_, 32>::RetriesDue, Taken::RetriesDue);
    assert_actor(&source::Event::<'_, 32>::End, Taken::End);
}

#[test]
fn answers() {
    assert_answer(Answer::Drawn(u128::MAX), Taken::Drawn(u128::MAX));
    assert_answer(Answer::Checked(Check::Clear), Taken::Checked(None));
    assert_answer(Answer::Checked(Check::Until(NOW)), Taken::Checked(Some(NOW)));
    assert_answer(Answer::Sent(true), Taken::Sent(true));
    assert_answer(Answer::Sent(false), Taken::Sent(false));
}

#[test]
fn settings() {
    let mut bytes = Vec::new();
    let settings = Settings {
        me: Some(Name([7; 8])),
        fetch_timeout: 1,
        retry_delay: 2,
        peer_limit: 3,
        priority_requests: true,
        priority_responses: false,
    };
    settings.spell(&mut bytes);
    let mut wanted = vec![1];
    wanted.extend_from_slice(&[7; 8]);
    wanted.extend_from_slice(&1_u128.to_le_bytes());
    wanted.extend_from_slice(&2_u128.to_le_bytes());
    wanted.extend_from_slice(&[3, 0, 0, 0, 1, 0]);
    assert_eq!(bytes, wanted);
}

/// What these pieces spell is this effect, and no beginning of it is one.
fn assert_effect(pieces: &[Piece<'_>], check: impl Fn(Effect<'_>) -> bool) {
    let mut bytes = Vec::new();
    put(&mut bytes, pieces);
    let mut effects = Records::<Effect<'_>>::of(&bytes).expect("an effect");
    assert!(check(effects.next().unwrap()), "{bytes:?}");
    assert_eq!(effects.next(), None);
    for end in 1..bytes.len() {
        assert!(Records::<Effect<'_>>::of(&bytes[..end]).is_none());
    }
}

#[test]
fn effects_of_a_core() {
    let (key, peer) = (Name::<32>([1; 32]), Name::<32>([2; 32]));
    let wide = u128::MAX - 1;
    assert_effect(&[Octet(0), Wide(wide)], |e| e == Effect::Ask(Ask::Draw(wide)));
    let check = [Octet(1), Piece::Name(&peer.0)];
    assert_effect(&check, |e| e == Effect::Ask(Ask::Check(peer)));
    let request = [Octet(2), Octet(1), Piece::Name(&peer.0), Number(5), Piece::Name(&key.0)];
    let ask = Ask::Request { peer, id: 5, key, priority: true };
    assert_effect(&request, |e| e == Effect::Ask(ask));
    for value in [&b""[..], b"hi"] {
        let pieces = [
            Octet(3),
            Number(4),
            Number(3),
            Piece::Name(&key.0),
            Subscribers(&SUBSCRIBERS),
            Value(value),
        ];
        assert_effect(&pieces, |effect| match effect {
            Effect::Deliver { number: 4, response: 3, key: named, subscribers, value: told } => {
                named == key && told == value && subscribers.iter().eq(SUBSCRIBERS)
            }
            _ => false,
        });
    }
    assert_effect(&[Octet(4), Number(9)], |e| e == Effect::Cancel { number: 9 });
    let produce = [Octet(5), Number(9), Piece::Name(&key.0)];
    assert_effect(&produce, |e| e == Effect::Produce { serve: 9, key });
    let reply = [Octet(6), Octet(0), Piece::Name(&peer.0), Value(b"hi")];
    let replied = Effect::Reply { peer, bytes: b"hi", priority: false };
    assert_effect(&reply, |e| e == replied);
    let credit = [Octet(7), Number(9), Piece::Name(&peer.0), Wide(wide), Number(2)];
    let credited = Effect::Credit { response: 9, peer, elapsed: wide, bytes: 2 };
    assert_effect(&credit, |e| e == credited);
    let block = [Octet(8), Number(9), Piece::Name(&peer.0)];
    assert_effect(&block, |e| e == Effect::Block { response: 9, peer });
    assert!(Records::<Effect<'_>>::of(&[9]).is_none());
}

#[test]
fn effects_of_an_actor() {
    let key = Name::<32>([1; 32]);
    let mut bytes = Vec::new();
    put(&mut bytes, &[Octet(0), Number(4), Piece::Name(&key.0), Octet(1), Number(5)]);
    put(&mut bytes, &[Octet(2), Number(6), Number(6), Piece::Name(&key.0)]);
    put(&mut bytes, &[Subscribers(&SUBSCRIBERS), Value(b"hi"), Octet(3), Number(7)]);
    let told: Vec<source::Effect<'_>> = Records::of(&bytes).expect("effects").collect();
    assert_eq!(told[0], source::Effect::Start { attempt: 4, key });
    assert_eq!(told[1], source::Effect::Abort { attempt: 5 });
    assert!(matches!(
        told[2],
        source::Effect::Deliver { number: 6, response: 6, value: b"hi", subscribers, .. }
            if subscribers.len() == 2
    ));
    assert_eq!(told[3], source::Effect::Cancel { number: 7 });
    assert_eq!(told.len(), 4);
    assert!(Records::<source::Effect<'_>>::of(&[4]).is_none());
}

#[test]
fn rows() {
    let key = Name::<8>([1; 8]);
    let mut bytes = Vec::new();
    put(&mut bytes, &[Piece::Name(&key.0), Subscribers(&SUBSCRIBERS)]);
    let mut rows = Records::<Row<'_, 8>>::of(&bytes).expect("a row");
    let row = rows.next().unwrap();
    assert_eq!(row.key, key);
    assert!(row.subscribers.iter().eq(SUBSCRIBERS));
    assert_eq!(rows.next(), None);
    assert!(Records::<Row<'_, 8>>::of(&bytes[1..]).is_none());
}

/// A message is read as it is written, and no beginning of it is one.
fn assert_message(payload: Payload<'_, 8>, rest: &[u8]) {
    let message = Message { id: 0x0102_0304_0506_0708, payload };
    let mut bytes = Vec::new();
    message.write(&mut bytes).unwrap();
    assert_eq!(bytes, [&[1, 2, 3, 4, 5, 6, 7, 8], rest].concat());
    assert_eq!(Message::read(&bytes), Ok(message));
    for end in 0..bytes.len() {
        assert_eq!(Message::<8>::read(&bytes[..end]), Err(Fault::EndOfBuffer));
    }
    bytes.push(0);
    assert_eq!(Message::<8>::read(&bytes), Err(Fault::ExtraData));
}

#[test]
fn messages() {
    assert_message(Payload::Request(Name([9; 8])), &[0, 9, 9, 9, 9, 9, 9, 9, 9]);
    assert_message(Payload::Error, &[2]);
    assert_message(Payload::Response(b""), &[1, 0]);
    assert_message(Payload::Response(b"hi"), &[1, 2, b'h', b'i']);
    for (count, length) in [(127, &[127][..]), (128, &[128, 1]), (16384, &[128, 128, 1])] {
        let value = vec![0; count];
        assert_message(Payload::Response(&value), &[&[1], length, &value].concat());
    }
}

#[test]
fn messages_that_are_none() {
    for (rest, fault) in [
        (&[3][..], Fault::InvalidTag),
        (&[255], Fault::InvalidTag),
        (&[1, 128, 0], Fault::InvalidVarint),
        (&[1, 255, 255, 255, 255, 16], Fault::InvalidVarint),
        (&[1, 255, 255, 255, 255, 128], Fault::InvalidVarint),
        (&[1, 255, 255, 255, 255, 15], Fault::EndOfBuffer),
        (&[1, 128], Fault::EndOfBuffer),
        (&[1, 1], Fault::EndOfBuffer),
        (&[2, 0], Fault::ExtraData),
    ] {
        let bytes = [&[0; 8], rest].concat();
        assert_eq!(Message::<8>::read(&bytes), Err(fault), "{rest:?}");
    }
}

#[test]
fn faults_keep_their_numbers() {
    for number in 1..=u8::MAX {
        assert_eq!(Fault::numbered(number).number(), number);
        assert!(!Fault::numbered(number).to_string().is_empty());
    }
    assert_eq!(Fault::numbered(200), Fault::Unknown(200));
}
