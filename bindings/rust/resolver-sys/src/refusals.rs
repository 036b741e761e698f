//! Memory that is refused to the archive once, for tests of what a refusal leaves.

use core::sync::atomic::{AtomicUsize, Ordering};

/// How many growths are granted before one is refused; 0: none is refused.
static NEXT: AtomicUsize = AtomicUsize::new(0);

/// Refuses the growth of this number from now on, counted from 1, and no other. 0: refuses none.
pub fn refuse(number: usize) {
    NEXT.store(number, Ordering::Relaxed);
}

/// Whether the growth that was to be refused hasn't come yet.
pub fn is_ahead() -> bool {
    NEXT.load(Ordering::Relaxed) > 0
}

/// Counts a growth, and answers whether it is the one.
pub(crate) fn is_next() -> bool {
    let less = |next: usize| next.checked_sub(1);
    NEXT.fetch_update(Ordering::Relaxed, Ordering::Relaxed, less) == Ok(1)
}
