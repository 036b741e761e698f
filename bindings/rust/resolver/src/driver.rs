//! A core whose scans are answered.

use crate::Moment;
use crate::draws::{Draws, below};
use crate::fault::Fault;
use crate::machine::Rows;
use crate::metrics::Metrics;
use crate::name::{Name, Width};
use crate::peers::{Answer, Ask, Check, Core, Deadlines, Effect, Effects, Event};
use crate::room::Room;
use crate::spelled::Records;
use crate::wire::{Message, Payload};
use std::mem::swap;

/// The way to the peers.
pub trait Transport<const N: usize = 32> {
    /// Whether a peer may be sent to now. Where a limit of its own holds it up, until when.
    fn check(&mut self, peer: Name<N>) -> Check;

    /// Takes a message to be sent, and answers whether it did. It must not wait for the peer.
    fn send(&mut self, peer: Name<N>, bytes: &[u8], priority: bool) -> bool;
}

/// How far the open scan is.
#[derive(Clone, Copy, Debug)]
enum Scan<const N: usize> {
    /// None is open.
    Over,
    /// The effects of the last step weren't told yet.
    Untold,
    /// It asks.
    Asks(Ask<N>),
    /// What it asked has its answer, which the core has not.
    Answered(Answer),
}

/// A core whose scans are answered: by what is drawn, and by the way to the peers. What else the core
/// wants done is handed over, all of it in order, and never an [`Effect::Ask`].
///
/// A call that is refused hands nothing over, and what was to be handed over comes first at the next
/// one. After [`Fault::Untold`] the event is taken; after each other refusal it isn't.
///
/// ```
/// use resolver::{Check, Core, Driver, Effect, Event, Name, Room, Seeded, Settings, Transport, Wanted};
///
/// /// What was sent, and to whom.
/// struct Sent(Vec<(Name, Vec<u8>)>);
///
/// impl Transport for Sent {
///     fn check(&mut self, _: Name) -> Check {
///         Check::Clear
///     }
///
///     fn send(&mut self, peer: Name, bytes: &[u8], _: bool) -> bool {
///         self.0.push((peer, bytes.to_vec()));
///         true
///     }
/// }
///
/// # fn main() -> Result<(), resolver::Fault> {
/// let core: Core = Core::new(&Settings::default())?;
/// let mut driver = Driver::new(core, Seeded::new(1));
/// let (mut sent, mut room) = (Sent(Vec::new()), Room::new());
/// let peers = [Name::numbered(3), Name::numbered(4)];
/// driver.feed(0, &Event::PeerSet { index: 1, peers: &peers }, &mut sent, &mut room)?;
/// let wanted = Wanted { key: Name::numbered(1), subscribers: &[(10, 7)], targets: None };
/// driver.feed(0, &Event::Fetch(&[wanted]), &mut sent, &mut room)?;
/// let (peer, request) = sent.0.pop().expect("the key was asked for");
///
/// // The answer has the id of the request, the tag 1, the length 2, and the value.
/// let answer = [&request[..8], &[1, 2], b"hi"].concat();
/// let event = Event::Net { peer, bytes: &answer };
/// let first = driver.feed(20, &event, &mut sent, &mut room)?.next();
/// assert!(matches!(first, Some(Effect::Deliver { number: 0, value: b"hi", .. })));
/// # Ok(())
/// # }
/// ```
#[derive(Debug)]
pub struct Driver<D, const N: usize = 32> {
    core: Core<N>,
    draws: D,
    scan: Scan<N>,
    /// What is to be handed over.
    told: Room,
    message: Vec<u8>,
    /// How many requests were taken to be sent.
    taken: u64,
}

impl<D: Draws, const N: usize> Driver<D, N>
where
    Name<N>: Width,
{
    /// Drives a core. What its open scan asked, if there is one, is answered before the first event.
    pub fn new(core: Core<N>, draws: D) -> Self {
        Driver { core, draws, scan: Scan::Untold, told: Room::new(), message: Vec::new(), taken: 0 }
    }

    /// Feeds an event, and answers what its scan asks until it is over.
    pub fn feed<'a>(
        &mut self,
        now: Moment,
        event: &Event<'_, N>,
        transport: &mut impl Transport<N>,
        room: &'a mut Room,
    ) -> Result<Effects<'a, N>, Fault> {
        self.begin(transport)?;
        self.core.put_event(now, event);
        self.carry_on(transport)?;
        Ok(self.hand_over(room))
    }

    /// Feeds what is due at this moment, until the next deadline is later.
    pub fn due<'a>(
        &mut self,
        now: Moment,
        transport: &mut impl Transport<N>,
        room: &'a mut Room,
    ) -> Result<Effects<'a, N>, Fault> {
        self.begin(transport)?;
        let is_due = |deadline: Option<Moment>| deadline.is_some_and(|due| due <= now);
        while is_due(self.deadlines().active) {
            self.core.put_event(now, &Event::ActiveDue);
            self.carry_on(transport)?;
        }
        while is_due(self.deadlines().pending) {
            let before = self.taken;
            self.core.put_event(now, &Event::PendingDue);
            self.carry_on(transport)?;
            // A scan without a request has tried all that is due, and would do so again.
            if self.taken == before {
                break;
            }
        }
        Ok(self.hand_over(room))
    }

    /// Lets go of every subscriber of a key that isn't kept, as [`Core::retain`] does.
    pub fn retain<'a>(
        &mut self,
        now: Moment,
        transport: &mut impl Transport<N>,
        room: &'a mut Room,
        keep: impl FnMut(&Name<N>, u64) -> bool,
    ) -> Result<Effects<'a, N>, Fault> {
        self.begin(transport)?;
        self.core.put_retain(now, keep)?;
        self.carry_on(transport)?;
        Ok(self.hand_over(room))
    }

    /// When [`Driver::due`] has something to feed: at the earlier of both.
    pub fn deadlines(&mut self) -> Deadlines {
        self.core.deadlines()
    }

    /// The demanded keys in their order, each with its subscribers.
    pub fn rows<'a>(&mut self, room: &'a mut Room) -> Result<Rows<'a, N>, Fault> {
        self.core.rows(room)
    }

    /// What was counted.
    pub fn metrics(&mut self) -> Result<Metrics, Fault> {
        self.core.metrics()
    }

    /// The core, with no scan open unless a call was refused.
    pub fn into_core(self) -> Core<N> {
        self.core
    }

    /// What an earlier call left open comes first. Where memory is wanting for that, no event is taken.
    fn begin(&mut self, transport: &mut impl Transport<N>) -> Result<(), Fault> {
        match self.settle(transport) {
            Err(Fault::Untold) => Err(Fault::Unread),
            settled => settled,
        }
    }

    /// Takes the input that is spelled, with its scan.
    fn carry_on(&mut self, transport: &mut impl Transport<N>) -> Result<(), Fault> {
        self.core.machine.take()?;
        self.scan = Scan::Untold;
        self.settle(transport)
    }

    /// Answers what is asked, until nothing is. The event is taken, so memory that is wanting for an
    /// answer leaves the rest to be told later.
    fn settle(&mut self, transport: &mut impl Transport<N>) -> Result<(), Fault> {
        loop {
            self.scan = match self.scan {
                Scan::Over => return Ok(()),
                Scan::Untold => self.hear()?,
                Scan::Asks(ask) => Scan::Answered(self.answer(ask, transport)),
                Scan::Answered(answer) => {
                    self.core.put_answer(answer);
                    match self.core.machine.take() {
                        Err(Fault::Unread) => return Err(Fault::Untold),
                        taken => taken?,
                    }
                    Scan::Untold
                }
            };
        }
    }

    /// Has the effects of the last step told behind those that are there, but for a question.
    fn hear(&mut self) -> Result<Scan<N>, Fault> {
        let start = self.told.used();
        self.core.machine.held.told(&mut self.told)?;
        let mut effects: Effects<'_, N> = Records::told(self.told.told_from(start));
        let mut left = effects.bytes().len();
        while let Some(effect) = effects.next() {
            if let Effect::Ask(ask) = effect {
                self.told.cut(self.told.used() - left);
                return Ok(Scan::Asks(ask));
            }
            left = effects.bytes().len();
        }
        Ok(Scan::Over)
    }

    /// The caller's room takes the place of the one with what is to be handed over.
    fn hand_over<'a>(&mut self, room: &'a mut Room) -> Effects<'a, N> {
        swap(&mut self.told, room);
        self.told.clear();
        Records::told(room.told())
    }

    fn answer(&mut self, ask: Ask<N>, transport: &mut impl Transport<N>) -> Answer {
        match ask {
            Ask::Draw(bound) => Answer::Drawn(below(&mut self.draws, bound)),
            Ask::Check(peer) => Answer::Checked(transport.check(peer)),
            Ask::Request { peer, id, key, priority } => {
                self.message.clear();
                let payload = Payload::Request(key);
                let is_spelled = Message { id, payload }.write(&mut self.message).is_ok();
                let is_taken = is_spelled && transport.send(peer, &self.message, priority);
                self.taken += u64::from(is_taken);
                Answer::Sent(is_taken)
            }
        }
    }
}
