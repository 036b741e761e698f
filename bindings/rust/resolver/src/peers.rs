//! The core of a node that fetches from peers.

use crate::Moment;
use crate::fault::Fault;
use crate::machine::{Machine, Outcome, Rows, moment, verdict};
use crate::metrics::Metrics;
use crate::name::{Name, Width};
use crate::room::Room;
use crate::spelled::{
    Reader, Record, Records, Subscribers, put_count, put_names, put_number, put_pairs,
    put_subscribers, put_value, put_wide, sealed,
};

/// How a core is to work.
///
/// ```
/// use resolver::Settings;
///
/// let settings: Settings = Settings { peer_limit: 8, ..Settings::default() };
/// assert_eq!(settings.me, None);
/// ```
#[derive(Clone, Copy, Debug, PartialEq, Eq)]
pub struct Settings<const N: usize = 32> {
    /// The local name, which is never asked, if there is one.
    pub me: Option<Name<N>>,
    /// How long a request may take, in nanoseconds: from 1 to below 2^94.
    pub fetch_timeout: Moment,
    /// How long a key waits before it is tried again, after a timeout, a wrong value or an answer
    /// without data, in nanoseconds: below 2^94. Who had no data may be asked again.
    pub retry_delay: Moment,
    /// How many requests one peer may have without an answer at once; 0: any number.
    pub peer_limit: u32,
    /// Whether requests go before other messages.
    pub priority_requests: bool,
    /// Whether replies do.
    pub priority_responses: bool,
}

/// A second for a request, a tenth of one before it is tried again, and 16 requests a peer.
impl<const N: usize> Default for Settings<N> {
    fn default() -> Self {
        Settings {
            me: None,
            fetch_timeout: 1_000_000_000,
            retry_delay: 100_000_000,
            peer_limit: 16,
            priority_requests: false,
            priority_responses: false,
        }
    }
}

impl<const N: usize> Settings<N> {
    /// Appends the bytes that a core is opened with.
    pub fn spell(&self, out: &mut Vec<u8>) {
        out.push(u8::from(self.me.is_some()));
        if let Some(me) = &self.me {
            out.extend_from_slice(&me.0);
        }
        put_wide(out, self.fetch_timeout);
        put_wide(out, self.retry_delay);
        out.extend_from_slice(&self.peer_limit.to_le_bytes());
        out.push(u8::from(self.priority_requests));
        out.push(u8::from(self.priority_responses));
    }
}

/// A key that is wanted.
#[derive(Clone, Copy, Debug, PartialEq, Eq)]
pub struct Wanted<'a, const N: usize = 32> {
    /// The key.
    pub key: Name<N>,
    /// Who wants it, each with a mark of its own that is given back in the rows: at least one.
    pub subscribers: &'a [(u64, u64)],
    /// The peers that may be asked for it, at least one; without them any may.
    pub targets: Option<&'a [Name<N>]>,
}

/// What happens around a core.
#[derive(Clone, Copy, Debug, PartialEq, Eq)]
pub enum Event<'a, const N: usize = 32> {
    /// These keys are wanted.
    Fetch(&'a [Wanted<'a, N>]),
    /// These subscribers no longer want these keys. [`Core::retain`] finds them by a closure.
    Retain(&'a [(Name<N>, u64)]),
    /// The peers, in place of those of a set with a lower index. A set with another index is passed over.
    PeerSet {
        /// Which set it is.
        index: u64,
        /// Its peers.
        peers: &'a [Name<N>],
    },
    /// All peers that are blocked. None of them is asked from now on; what one answers to an earlier
    /// request is still judged.
    Blocked(&'a [Name<N>]),
    /// The time of a request may be over.
    ActiveDue,
    /// It is time to look for keys to ask for.
    PendingDue,
    /// What the consumer says of a delivery; without an outcome it was dropped.
    Verdict {
        /// The number of the delivery.
        number: u64,
        /// What is said of it.
        outcome: Option<Outcome>,
    },
    /// What the producer has for a request of a peer.
    Served {
        /// The number of [`Effect::Produce`].
        serve: u64,
        /// The bytes, if there are any.
        value: Option<&'a [u8]>,
    },
    /// A peer sent a message.
    Net {
        /// The peer.
        peer: Name<N>,
        /// What it sent.
        bytes: &'a [u8],
    },
    /// No key is wanted any more, and every later event is refused as [`Fault::Ended`].
    End,
}

impl<const N: usize> Wanted<'_, N> {
    fn spell(&self, out: &mut Vec<u8>) {
        out.extend_from_slice(&self.key.0);
        put_subscribers(out, self.subscribers);
        out.push(u8::from(self.targets.is_some()));
        if let Some(targets) = self.targets {
            put_names(out, targets);
        }
    }
}

impl<const N: usize> Event<'_, N> {
    fn tag(&self) -> u8 {
        match self {
            Event::Fetch(_) => 0,
            Event::Retain(_) => RETAIN,
            Event::PeerSet { .. } => 2,
            Event::Blocked(_) => 3,
            Event::ActiveDue => 4,
            Event::PendingDue => 5,
            Event::Verdict { .. } => 6,
            Event::Served { .. } => 7,
            Event::Net { .. } => 8,
            Event::End => 9,
        }
    }

    /// Appends the bytes that [`Core::step`] takes for this event at this moment.
    pub fn spell(&self, now: Moment, out: &mut Vec<u8>) {
        put_head(out, self.tag(), now);
        match self {
            Event::Fetch(items) => {
                put_count(out, items.len());
                items.iter().for_each(|item| item.spell(out));
            }
            Event::Retain(pairs) => put_pairs(out, pairs),
            Event::PeerSet { index, peers } => {
                put_number(out, *index);
                put_names(out, peers);
            }
            Event::Blocked(peers) => put_names(out, peers),
            Event::ActiveDue | Event::PendingDue | Event::End => {}
            Event::Verdict { number, outcome } => {
                put_number(out, *number);
                out.push(verdict(*outcome));
            }
            Event::Served { serve, value } => {
                put_number(out, *serve);
                put_value(out, *value);
            }
            Event::Net { peer, bytes } => {
                out.extend_from_slice(&peer.0);
                out.extend_from_slice(bytes);
            }
        }
    }
}

const RETAIN: u8 = 1;

fn put_head(out: &mut Vec<u8>, tag: u8, now: Moment) {
    out.push(tag);
    put_wide(out, now);
}

/// Whether a peer may be sent to now.
#[derive(Clone, Copy, Debug, PartialEq, Eq)]
pub enum Check {
    /// It may.
    Clear,
    /// Not before this moment, which is below 2^94.
    Until(Moment),
}

/// What a scan is answered.
#[derive(Clone, Copy, Debug, PartialEq, Eq)]
pub enum Answer {
    /// The number that was drawn.
    Drawn(u128),
    /// Whether the peer may be sent to.
    Checked(Check),
    /// Whether the request was taken to be sent.
    Sent(bool),
}

impl Answer {
    /// Appends the bytes that [`Core::step`] takes for this answer. It has the moment at which its
    /// scan began.
    pub fn spell(&self, out: &mut Vec<u8>) {
        match self {
            Answer::Drawn(number) => {
                out.push(16);
                put_wide(out, *number);
            }
            Answer::Checked(Check::Clear) => out.push(17),
            Answer::Checked(Check::Until(moment)) => put_head(out, 18, *moment),
            Answer::Sent(is_taken) => out.extend_from_slice(&[19, u8::from(*is_taken)]),
        }
    }
}

/// What a scan asks. Until it is answered every event is refused as [`Fault::Busy`].
#[derive(Clone, Copy, Debug, PartialEq, Eq)]
pub enum Ask<const N: usize = 32> {
    /// A number below this one, each as likely as any other. It may be past 2^64.
    Draw(u128),
    /// Whether this peer may be sent to now.
    Check(Name<N>),
    /// That a request is sent, as [`wire::Message`](crate::wire::Message) spells it.
    Request {
        /// The peer that is asked.
        peer: Name<N>,
        /// The id of the request.
        id: u64,
        /// The key that is asked for.
        key: Name<N>,
        /// Whether it goes before other messages.
        priority: bool,
    },
}

/// What a core wants done. Values lie in the room of the step.
#[derive(Clone, Copy, Debug, PartialEq, Eq)]
pub enum Effect<'a, const N: usize = 32> {
    /// A scan asks. It is the last effect of its step, and is answered by [`Core::answers`]. A
    /// [`Driver`](crate::Driver) answers it by itself and never hands it over.
    Ask(Ask<N>),
    /// The consumer is to judge a value. [`Event::Verdict`] answers it, at any time.
    Deliver {
        /// The number of the delivery.
        number: u64,
        /// The delivery that carried this response first: the same number, or an earlier one.
        response: u64,
        /// The key that was asked for.
        key: Name<N>,
        /// Whom it is for, with their marks.
        subscribers: Subscribers<'a>,
        /// The value.
        value: &'a [u8],
    },
    /// A delivery is of no more use. Its verdict is still wanted, and does nothing else.
    Cancel {
        /// The number of the delivery.
        number: u64,
    },
    /// A peer asks for a key. [`Event::Served`] answers it.
    Produce {
        /// The number of the request.
        serve: u64,
        /// The key.
        key: Name<N>,
    },
    /// A message is to be sent to a peer, as it is.
    Reply {
        /// The peer.
        peer: Name<N>,
        /// The message.
        bytes: &'a [u8],
        /// Whether it goes before other messages.
        priority: bool,
    },
    /// A response was right. The peer's score has it already.
    Credit {
        /// The delivery that carried the response first.
        response: u64,
        /// The peer that sent it.
        peer: Name<N>,
        /// How long it took, in nanoseconds.
        elapsed: Moment,
        /// How many bytes the value had.
        bytes: u64,
    },
    /// A response was wrong, and its peer is to be blocked: [`Event::Blocked`] says so once it is.
    /// It comes for each wrong response, so a peer may be named more than once.
    Block {
        /// The delivery that carried the response first.
        response: u64,
        /// The peer that sent it.
        peer: Name<N>,
    },
}

impl<const N: usize> sealed::Sealed for Effect<'_, N> {}

impl<'a, const N: usize> Record<'a> for Effect<'a, N> {
    fn read(reader: &mut Reader<'a>) -> Option<Self> {
        Some(match reader.octet()? {
            0 => Effect::Ask(Ask::Draw(reader.wide()?)),
            1 => Effect::Ask(Ask::Check(reader.name()?)),
            2 => Effect::Ask(Ask::Request {
                priority: reader.flag()?,
                peer: reader.name()?,
                id: reader.number()?,
                key: reader.name()?,
            }),
            3 => Effect::Deliver {
                number: reader.number()?,
                response: reader.number()?,
                key: reader.name()?,
                subscribers: reader.subscribers()?,
                value: reader.value()?,
            },
            4 => Effect::Cancel { number: reader.number()? },
            5 => Effect::Produce { serve: reader.number()?, key: reader.name()? },
            6 => Effect::Reply {
                priority: reader.flag()?,
                peer: reader.name()?,
                bytes: reader.value()?,
            },
            7 => Effect::Credit {
                response: reader.number()?,
                peer: reader.name()?,
                elapsed: reader.wide()?,
                bytes: reader.number()?,
            },
            8 => Effect::Block { response: reader.number()?, peer: reader.name()? },
            _ => return None,
        })
    }
}

/// What a core wants done, in order.
pub type Effects<'a, const N: usize = 32> = Records<'a, Effect<'a, N>>;

/// When a core is to be fed by itself. A moment of `u128::MAX` says that only another event can help.
#[derive(Clone, Copy, Debug, Default, PartialEq, Eq)]
pub struct Deadlines {
    /// When [`Event::PendingDue`] is due, if a key waits.
    pub pending: Option<Moment>,
    /// When [`Event::ActiveDue`] is due, if there is a request.
    pub active: Option<Moment>,
}

impl Deadlines {
    /// The earlier of both, if there is one that time alone can reach.
    pub fn next(&self) -> Option<Moment> {
        let both = [self.pending, self.active].into_iter().flatten();
        both.filter(|due| *due != Moment::MAX).min()
    }
}

/// Fetches keys from peers, each from one peer at a time, until no subscriber wants it.
///
/// It takes an event with its moment, and answers with effects. It has no clock, no socket and no
/// thread, and may go from one thread to another. A [`Driver`](crate::Driver) answers what its scans ask; by hand
/// it goes so:
///
/// ```
/// use resolver::{Answer, Ask, Check, Core, Effect, Event, Name, Room, Settings, Wanted};
///
/// # fn main() -> Result<(), resolver::Fault> {
/// let mut core: Core = Core::new(&Settings::default())?;
/// let mut room = Room::new();
/// let peer = Name::numbered(4);
/// core.happens(0, &Event::PeerSet { index: 1, peers: &[peer] }, &mut room)?;
/// let wanted = Wanted { key: Name::numbered(1), subscribers: &[(10, 7)], targets: None };
/// let mut asked = core.happens(0, &Event::Fetch(&[wanted]), &mut room)?.last();
/// let mut requests = 0;
/// while let Some(Effect::Ask(ask)) = asked {
///     let answer = match ask {
///         Ask::Draw(_) => Answer::Drawn(0),
///         Ask::Check(_) => Answer::Checked(Check::Clear),
///         Ask::Request { .. } => {
///             requests += 1;
///             Answer::Sent(true)
///         }
///     };
///     asked = core.answers(answer, &mut room)?.last();
/// }
/// assert_eq!(requests, 1);
/// # Ok(())
/// # }
/// ```
#[derive(Debug)]
pub struct Core<const N: usize = 32> {
    pub(crate) machine: Machine,
}

impl<const N: usize> Core<N>
where
    Name<N>: Width,
{
    /// A core without demand, that knows no peer. [`Fault::Misspelled`]: a setting is out of range.
    pub fn new(settings: &Settings<N>) -> Result<Core<N>, Fault> {
        let mut bytes = Vec::new();
        settings.spell(&mut bytes);
        Ok(Core { machine: Machine::open(Name::<N>::CORE, &bytes)? })
    }

    /// Something happened at this moment, which is below 2^94 nanoseconds. A refusal has no effects.
    pub fn happens<'a>(
        &mut self,
        now: Moment,
        event: &Event<'_, N>,
        room: &'a mut Room,
    ) -> Result<Effects<'a, N>, Fault> {
        self.put_event(now, event);
        self.machine.step(room)
    }

    /// What the open scan asked is answered.
    pub fn answers<'a>(
        &mut self,
        answer: Answer,
        room: &'a mut Room,
    ) -> Result<Effects<'a, N>, Fault> {
        self.put_answer(answer);
        self.machine.step(room)
    }

    /// Takes an input that is spelled already, as from a log.
    pub fn step<'a>(&mut self, input: &[u8], room: &'a mut Room) -> Result<Effects<'a, N>, Fault> {
        self.machine.held.step(input)?;
        self.machine.told(room)
    }

    /// The effects of the last step once more. They are none after a refusal.
    pub fn told<'a>(&mut self, room: &'a mut Room) -> Result<Effects<'a, N>, Fault> {
        self.machine.told(room)
    }

    /// Lets go of every subscriber of a key that isn't kept, as [`Event::Retain`] with all of them
    /// does. The closure is asked of each subscriber of each demanded key, in their order.
    pub fn retain<'a>(
        &mut self,
        now: Moment,
        room: &'a mut Room,
        keep: impl FnMut(&Name<N>, u64) -> bool,
    ) -> Result<Effects<'a, N>, Fault> {
        self.put_retain(now, keep)?;
        self.machine.step(room)
    }

    /// The demanded keys in their order, each with its subscribers: while a scan is open, as they were
    /// before it.
    pub fn rows<'a>(&mut self, room: &'a mut Room) -> Result<Rows<'a, N>, Fault> {
        self.machine.rows(room)
    }

    /// What was counted.
    pub fn metrics(&mut self) -> Result<Metrics, Fault> {
        self.machine.held.metrics().map(Metrics::of)
    }

    /// When the core is to be fed by itself.
    pub fn deadlines(&mut self) -> Deadlines {
        let (pending, active) = self.machine.held.deadlines();
        Deadlines { pending: moment(pending), active: moment(active) }
    }

    pub(crate) fn put_event(&mut self, now: Moment, event: &Event<'_, N>) {
        self.machine.input.clear();
        event.spell(now, &mut self.machine.input);
    }

    pub(crate) fn put_answer(&mut self, answer: Answer) {
        self.machine.input.clear();
        answer.spell(&mut self.machine.input);
    }

    pub(crate) fn put_retain(
        &mut self,
        now: Moment,
        keep: impl FnMut(&Name<N>, u64) -> bool,
    ) -> Result<(), Fault> {
        self.machine.input.clear();
        put_head(&mut self.machine.input, RETAIN, now);
        self.machine.put_leaving(keep)
    }
}
