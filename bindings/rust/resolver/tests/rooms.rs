//! What a machine tells in too little room, and what it may be opened with.

use resolver::{Actor, Core, Event, Fault, Name, Room, Settings, Wanted, source};
use resolver_sys as sys;

/// A step with two effects, and its machine.
fn told(slot: &mut sys::Slot) {
    let delay = 100_u128.to_le_bytes();
    // SAFETY: the slot is empty, and the settings are lent for the call.
    let opened = unsafe { sys::resolver_open(slot, 1, delay.as_ptr(), delay.len()) };
    assert_eq!(opened, 0);
    let mut input = Vec::new();
    let wanted =
        |key| source::Wanted { key: Name::<32>::numbered(key), subscribers: &[(10, 7), (11, 8)] };
    source::Event::Fetch(&[wanted(1), wanted(2)]).spell(0, &mut input);
    // SAFETY: the slot has a machine, and the input is lent for the call.
    let taken = unsafe { sys::resolver_step(slot, input.as_ptr(), input.len()) };
    assert_eq!(taken, 0);
}

type Lists = unsafe extern "C" fn(&mut sys::Slot, *mut u8, usize, &mut usize) -> u8;

/// What is listed into so many bytes: the answer, the length that is said, and the bytes.
fn list(slot: &mut sys::Slot, lists: Lists, room: usize) -> (u8, usize, Vec<u8>) {
    let (mut out, mut length) = (vec![0xee; room], usize::MAX);
    // SAFETY: the slot has a machine, and the bytes are lent for the call.
    let code = unsafe { lists(slot, out.as_mut_ptr(), out.len(), &mut length) };
    (code, length, out)
}

/// Every shorter room is refused with the length that is needed, and loses nothing.
fn assert_listed(slot: &mut sys::Slot, lists: Lists, wanted: usize) {
    let (code, length, whole) = list(slot, lists, wanted);
    assert_eq!((code, length), (0, wanted));
    for room in 0..wanted {
        let (code, length, _) = list(slot, lists, room);
        assert_eq!((code, length), (66, wanted), "in {room}");
        assert_eq!(list(slot, lists, wanted), (0, wanted, whole.clone()));
    }
    let (code, length, more) = list(slot, lists, wanted + 9);
    assert_eq!((code, length), (0, wanted));
    assert_eq!(&more[..wanted], whole);
    assert_eq!(&more[wanted..], [0xee; 9], "nothing is written behind the list");
}

#[test]
fn every_shorter_room_loses_nothing() {
    let mut slot = sys::Slot::EMPTY;
    told(&mut slot);
    assert_listed(&mut slot, sys::resolver_told, 2 * (1 + 8 + 32));
    assert_listed(&mut slot, sys::resolver_rows, 2 * (32 + 8 + 2 * 16));
    let mut counts = sys::Counts::default();
    // SAFETY: the slot has a machine.
    assert_eq!(unsafe { sys::resolver_metrics(&mut slot, &mut counts) }, 67);
    // SAFETY: the slot has a machine.
    unsafe { sys::resolver_close(&mut slot) };
    assert!(slot.at.is_null());
}

#[test]
fn a_slot_is_used_again() {
    let mut slot = sys::Slot::EMPTY;
    for _ in 0..3 {
        told(&mut slot);
        // SAFETY: the slot has a machine.
        unsafe { sys::resolver_close(&mut slot) };
    }
}

// A room of every size takes what is told, and grows to it.
#[test]
fn rooms_of_every_size() {
    let mut actor: Actor = Actor::new(100).unwrap();
    let wanted = source::Wanted { key: Name::numbered(1), subscribers: &[(10, 7)] };
    let event = source::Event::Fetch(&[wanted]);
    let told = actor.happens(0, &event, &mut Room::new()).unwrap().bytes().to_vec();
    assert_eq!(told.len(), 41);
    for size in 0..=told.len() {
        let mut room = Room::with_capacity(size);
        assert_eq!(actor.told(&mut room).unwrap().bytes(), told);
        assert!(room.capacity() >= told.len());
    }
}

/// Whether a core can be opened with these settings.
fn opens(settings: Settings) -> Result<(), Fault> {
    Core::new(&settings).map(drop)
}

#[test]
fn settings_that_are_out_of_range() {
    let all = Settings::default();
    let top = (1 << 94) - 1;
    assert_eq!(opens(all), Ok(()));
    for fetch_timeout in [1, top] {
        assert_eq!(opens(Settings { fetch_timeout, ..all }), Ok(()));
    }
    for fetch_timeout in [0, top + 1, u128::MAX] {
        assert_eq!(opens(Settings { fetch_timeout, ..all }), Err(Fault::Misspelled));
    }
    for (retry_delay, opened) in [(0, Ok(())), (top, Ok(())), (top + 1, Err(Fault::Misspelled))] {
        assert_eq!(opens(Settings { retry_delay, ..all }), opened);
        assert_eq!(Actor::<32>::new(retry_delay).map(drop), opened);
    }
    let me = Some(Name([255; 32]));
    let peer_limit = u32::MAX;
    assert_eq!(opens(Settings { me, peer_limit, ..all }), Ok(()));
}

#[test]
fn moments_that_are_out_of_range() {
    let mut core: Core = Core::new(&Settings::default()).unwrap();
    let mut room = Room::new();
    let mut taken = |now| core.happens(now, &Event::PendingDue, &mut room).map(drop);
    assert_eq!(taken((1 << 94) - 1), Ok(()));
    assert_eq!(taken(1 << 94), Err(Fault::Misspelled));
    assert_eq!(taken(u128::MAX), Err(Fault::Misspelled));
}

// Nobody, or no peer, is no list that may be given.
#[test]
fn lists_that_may_not_be_empty() {
    let mut core: Core = Core::new(&Settings::default()).unwrap();
    let mut room = Room::new();
    let key = Name::numbered(1);
    for (subscribers, targets) in [(&[][..], None), (&[(1, 1)][..], Some(&[][..]))] {
        let wanted = Wanted { key, subscribers, targets };
        let refused = core.happens(0, &Event::Fetch(&[wanted]), &mut room).map(drop);
        assert_eq!(refused, Err(Fault::Misspelled));
    }
    assert_eq!(core.rows(&mut room).unwrap().count(), 0);
}

// A machine goes to another thread, and comes back.
#[test]
fn a_machine_goes_to_another_thread() {
    let mut core: Core = Core::new(&Settings::default()).unwrap();
    let mut room = Room::new();
    let wanted = Wanted { key: Name::numbered(1), subscribers: &[(10, 7)], targets: None };
    core.happens(0, &Event::Fetch(&[wanted]), &mut room).unwrap();
    let thread = std::thread::spawn(move || {
        let mut room = Room::new();
        assert_eq!(core.rows(&mut room).unwrap().count(), 1);
        core.happens(1, &Event::End, &mut room).unwrap();
        core
    });
    let mut core = thread.join().unwrap();
    assert_eq!(core.rows(&mut room).unwrap().count(), 0);
    assert_eq!(core.metrics().unwrap().fetch_pending, 0);
}
