//! Steps, grid values, cells and the admission of a slot: document 01, "Choice, sums and grid"; M-108: the cells are by r.

use super::book::Book;
use super::ratio;

/// Up to this e the admission of a slot is decided by trying every pair of whole numbers.
const SEARCHED: i64 = 12;

/// A slot's limit S, step L, bound R and number of loads N.
#[derive(Clone, Copy, Debug)]
pub struct Slot {
    limit: i64,
    loads: i64,
    pub step: i64,
    pub bound: i64,
}

impl Slot {
    pub fn new(limit: i64, loads: usize, fineness: u64) -> Slot {
        let loads = loads as i64;
        let step = (limit / (loads * fineness as i64)).max(1);
        Slot {
            limit,
            loads,
            step,
            bound: limit / step,
        }
    }

    /// A power divided by L, rounded toward minus infinity.
    pub fn grid_value(&self, power: i64) -> i64 {
        power.div_euclid(self.step)
    }

    /// How many grid pairs it has.
    fn pairs(&self, r: i64) -> u128 {
        ratio::pairs(r, self.bound, self.loads) as u128
    }

    /// Whether some (p, q) with aL ≤ p ≤ aL + e and bL ≤ q ≤ bL + e has p² + q² ≤ S².
    pub fn admits(&self, a: i64, b: i64) -> bool {
        if self.spread() <= SEARCHED {
            self.admits_some(a, b)
        } else {
            self.admits_nearest(a, b)
        }
    }

    /// e = N × (L - 1).
    fn spread(&self) -> i64 {
        self.loads * (self.step - 1)
    }

    fn within_limit(&self, p: i64, q: i64) -> bool {
        p * p + q * q <= self.limit * self.limit
    }

    fn admits_some(&self, a: i64, b: i64) -> bool {
        let (p, q, e) = (a * self.step, b * self.step, self.spread());
        (p..=p + e).any(|p| (q..=q + e).any(|q| self.within_limit(p, q)))
    }

    fn admits_nearest(&self, a: i64, b: i64) -> bool {
        let (p, q, e) = (a * self.step, b * self.step, self.spread());
        self.within_limit(p, 0.clamp(q, q + e))
    }
}

pub fn slots(book: &Book) -> Vec<Slot> {
    let slot = |&limit: &i64| Slot::new(limit, book.loads.len(), book.fineness);
    book.limits.iter().map(slot).collect()
}

/// The product over the slots; below 2^104, so it fits.
pub fn cells(slots: &[Slot], r: i64) -> u128 {
    slots.iter().map(|slot| slot.pairs(r)).product()
}

/// The cells of a book.
pub fn cells_of(book: &Book) -> u128 {
    cells(&slots(book), ratio::of(book.ratio))
}

#[cfg(test)]
mod tests {
    use super::*;

    #[test]
    fn steps_at_the_bench() {
        assert_eq!(Slot::new(23, 3, 4).step, 1);
        assert_eq!(Slot::new(24, 3, 4).step, 2);
    }

    #[test]
    fn grid_values_at_the_bench() {
        let slot = Slot::new(100, 2, 1);
        assert_eq!(slot.step, 50);
        assert_eq!([-1, -50, -51].map(|q| slot.grid_value(q)), [-1, -1, -2]);
    }

    /// "As a ≥ 0, only p = aL and the q nearest to 0 need be tried."
    #[test]
    fn the_nearest_pair_decides() {
        for (limit, loads, fineness) in [(0, 1, 1), (7, 3, 1), (20, 2, 2), (61, 5, 1), (90, 3, 4)] {
            let slot = Slot::new(limit, loads, fineness);
            for a in 0..=slot.bound + 2 {
                for b in -slot.bound - 8..=slot.bound + 8 {
                    assert_eq!(slot.admits_some(a, b), slot.admits_nearest(a, b));
                }
            }
        }
    }
}
