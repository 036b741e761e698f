//! Numbers that are drawn.

/// A source of 128 bits, each as likely as any other. How far peers can foresee them is how far they can
/// foresee which of them is asked.
///
/// A closure is one:
///
/// ```
/// use resolver::{Draws, Seeded, below};
///
/// let mut seeded = Seeded::new(7);
/// let mut closure = || seeded.draw();
/// assert!(below(&mut closure, 1 << 100) < 1 << 100);
/// ```
pub trait Draws {
    /// The next 128 bits.
    fn draw(&mut self) -> u128;
}

impl<F: FnMut() -> u128> Draws for F {
    fn draw(&mut self) -> u128 {
        self()
    }
}

/// A number below the bound, each as likely as any other. Bits that would make some likelier are drawn
/// anew, which takes less than two draws on the average. Below 0 there is none, and 0 is answered.
pub fn below(draws: &mut impl Draws, bound: u128) -> u128 {
    if bound == 0 {
        return 0;
    }
    // How many numbers of 128 bits are left over behind the last whole multiple of the bound.
    let over = (u128::MAX % bound + 1) % bound;
    loop {
        let drawn = draws.draw();
        if drawn <= u128::MAX - over {
            return drawn % bound;
        }
    }
}

/// Bits that follow from a seed: for tests, and where nobody gains by foreseeing them. It is no
/// cryptographic generator.
#[derive(Clone, Debug)]
pub struct Seeded(u64);

impl Seeded {
    /// The bits of this seed.
    pub fn new(seed: u64) -> Seeded {
        Seeded(seed)
    }

    /// The bits of a seed that differs from run to run, as std's maps have one.
    pub fn from_std() -> Seeded {
        use std::hash::{BuildHasher, Hasher, RandomState};
        Seeded(RandomState::new().build_hasher().finish())
    }

    /// The next 64 bits, as splitmix64 makes them.
    pub fn word(&mut self) -> u64 {
        self.0 = self.0.wrapping_add(0x9e37_79b9_7f4a_7c15);
        let mixed = (self.0 ^ self.0 >> 30).wrapping_mul(0xbf58_476d_1ce4_e5b9);
        let mixed = (mixed ^ mixed >> 27).wrapping_mul(0x94d0_49bb_1331_11eb);
        mixed ^ mixed >> 31
    }
}

impl Draws for Seeded {
    fn draw(&mut self) -> u128 {
        u128::from(self.word()) << 64 | u128::from(self.word())
    }
}

#[cfg(test)]
mod tests {
    use super::{Draws, Seeded, below};

    #[test]
    fn every_bound_is_kept() {
        let mut seeded = Seeded::new(1);
        for bit in 0..128 {
            let bound = 1_u128 << bit;
            for bound in [bound, bound + 1, bound.saturating_sub(1).max(1), u128::MAX] {
                assert!(below(&mut seeded, bound) < bound);
            }
        }
        assert_eq!(below(&mut seeded, 0), 0);
    }

    // What is left over behind the last whole multiple of 3 is drawn anew: 2^128 is 1 more than one.
    #[test]
    fn no_number_is_likelier() {
        let mut rest = [5, u128::MAX - 1, u128::MAX].to_vec();
        let mut source = || rest.pop().unwrap();
        assert_eq!(below(&mut source, 3), (u128::MAX - 1) % 3);
        assert_eq!(below(&mut source, 3), 2);
    }

    #[test]
    fn a_bound_past_64_bits_is_reached() {
        let mut seeded = Seeded::new(2);
        let bound = 1_u128 << 70;
        let high = (0..1000).filter(|_| below(&mut seeded, bound) > bound / 2);
        assert!((400..600).contains(&high.count()));
        assert_ne!(seeded.draw() >> 64, 0);
    }
}
