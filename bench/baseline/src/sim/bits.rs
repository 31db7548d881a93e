//! Sets of places.

use super::node::{NEIGHBOURS, NODES};

/// A set of at most 512 places.
#[derive(Clone, Copy, Default)]
pub(super) struct Bits(pub(super) [u64; NODES * NEIGHBOURS / 64]);
impl Bits {
    #[inline]
    pub(super) fn add(&mut self, e: usize) {
        self.0[e / 64] |= 1 << (e % 64);
    }
    #[inline]
    pub(super) fn drop(&mut self, e: usize) {
        self.0[e / 64] &= !(1 << (e % 64));
    }
    #[inline]
    pub(super) fn set(&mut self, e: usize, on: bool) {
        if on {
            self.add(e)
        } else {
            self.drop(e)
        }
    }
}
/// Runs the body for each place of the set as it was, in ascending order.
macro_rules! each {
    ($set:expr, $e:ident, $body:block) => {
        for w in 0..$set.0.len() {
            let mut left = $set.0[w];
            while left != 0 {
                let $e = 64 * w + left.trailing_zeros() as usize;
                left &= left - 1;
                $body
            }
        }
    };
}
