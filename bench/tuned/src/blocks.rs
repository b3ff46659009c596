//! The used bits of scratch: bit k is 1 where block k is some made scope's.

use crate::access::{get, put};

/// Words of a block.
pub const BLOCK: usize = 16;
const BITS: usize = u64::BITS as usize;

#[derive(Clone, Default)]
pub struct UsedBits([u64; 16]);

impl UsedBits {
    /// The lowest start of n adjacent clear bits among the first ones: the jumping search of source 000, Figure 6. The
    /// last bit of a window is looked at by itself, since a jump may follow at once.
    #[inline(always)]
    pub fn lowest_run(&self, bits: usize, n: usize) -> Option<usize> {
        let mut end = n;
        while end <= bits {
            let (start, last) = (end - n, end - 1);
            if get(&self.0, last / BITS) >> (last % BITS) & 1 != 0 {
                end += n;
                continue;
            }
            match self.last_set(start, last) {
                None => return Some(start),
                Some(used) => end = used + 1 + n,
            }
        }
        None
    }

    /// The last set bit from one bit on and below another one, looked for from above: of a word at once, the next bit on
    /// top.
    #[inline(always)]
    fn last_set(&self, start: usize, end: usize) -> Option<usize> {
        let mut above = end;
        while above > start {
            let bit = above - 1;
            let word = get(&self.0, bit / BITS) << (BITS - 1 - bit % BITS);
            if word != 0 {
                let used = bit - word.leading_zeros() as usize;
                return (used >= start).then_some(used);
            }
            above = bit / BITS * BITS;
        }
        None
    }

    /// Turns n bits from one on, which are all clear or all set: a word at a time, by one mask.
    #[inline(always)]
    pub fn flip(&mut self, first: usize, n: usize) {
        let (place, low) = (first / BITS, first % BITS);
        if low + n <= BITS {
            self.flip_in(place, u64::MAX >> (BITS - n) << low);
            return;
        }
        self.flip_in(place, u64::MAX << low);
        self.flip_from(place + 1, n - (BITS - low));
    }

    /// Turns n bits from a word's first one on.
    #[inline(always)]
    fn flip_from(&mut self, mut place: usize, mut n: usize) {
        while n >= BITS {
            self.flip_in(place, u64::MAX);
            place += 1;
            n -= BITS;
        }
        if n > 0 {
            self.flip_in(place, !(u64::MAX << n));
        }
    }

    #[inline(always)]
    fn flip_in(&mut self, place: usize, mask: u64) {
        let word = get(&self.0, place);
        put(&mut self.0, place, word ^ mask);
    }
}
