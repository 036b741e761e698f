//! What a core counts.

use resolver_sys as sys;

/// How often something ended in each way.
#[derive(Clone, Copy, Debug, Default, PartialEq, Eq)]
pub struct Tally {
    /// With what was wanted.
    pub success: u64,
    /// In neither way.
    pub ambiguous: u64,
    /// Without it.
    pub failure: u64,
    /// Not at all.
    pub dropped: u64,
}

/// How long something took.
#[derive(Clone, Copy, Debug, Default, PartialEq, Eq)]
pub struct Durations {
    /// How often it was measured.
    pub count: u64,
    /// The sum, in nanoseconds.
    pub nanoseconds: u128,
}

/// What a core has counted since it was opened.
#[derive(Clone, Copy, Debug, Default, PartialEq, Eq)]
pub struct Metrics {
    /// The keys that wait.
    pub fetch_pending: u64,
    /// The requests without an answer.
    pub fetch_active: u64,
    /// The peers' requests that the producer has.
    pub serve_processing: u64,
    /// Success: a credit. Ambiguous: `Unresolved`, of a response that was not accepted. Failure:
    /// `Invalid`, a request's time that was over, and data that a peer has not. Dropped: `Ignored`
    /// on a delivery that was not called off; and a key that is retired as the consumer dropped its
    /// delivery, whose response was not accepted.
    pub fetch: Tally,
    /// Success: a key that a retain called off. Dropped: a retain that called off none.
    pub cancel: Tally,
    /// Success: a peer's request that the producer had bytes for. Failure: one that it dropped.
    pub serve: Tally,
    /// Success: a request that was accepted to be sent. Dropped: one that was refused.
    pub requests_sent: Tally,
    /// From a peer's request to the bytes of the producer.
    pub serve_duration: Durations,
    /// From a key's first fetch to its first `Complete`, that was not called off before.
    pub fetch_duration: Durations,
    /// From the request to the response, of each credit.
    pub resolves: Durations,
}

fn tally(counts: sys::Tally) -> Tally {
    Tally {
        success: counts.success,
        ambiguous: counts.ambiguous,
        failure: counts.failure,
        dropped: counts.dropped,
    }
}

fn durations(sum: sys::Durations) -> Durations {
    let high = u128::from(sum.nanoseconds_high) << 64;
    Durations { count: sum.count, nanoseconds: high | u128::from(sum.nanoseconds_low) }
}

impl Metrics {
    pub(crate) fn of(counts: sys::Counts) -> Metrics {
        Metrics {
            fetch_pending: counts.fetch_pending,
            fetch_active: counts.fetch_active,
            serve_processing: counts.serve_processing,
            fetch: tally(counts.fetch),
            cancel: tally(counts.cancel),
            serve: tally(counts.serve),
            requests_sent: tally(counts.requests_sent),
            serve_duration: durations(counts.serve_duration),
            fetch_duration: durations(counts.fetch_duration),
            resolves: durations(counts.resolves),
        }
    }
}
