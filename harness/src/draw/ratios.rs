//! Random books of M-108: with a |Q| at or above r × P, with another ratio, and with loads whose Q cancel.

use super::{book, part_of_share, powers_of, Bounds};
use crate::random::Random;
use crate::reference::book::Book;
use crate::reference::ratio::{self, Ratio};

/// Headers that state a ratio above 1.
pub const ABOVE_ONE: &[Ratio] = &[Some(2), Some(3)];

/// Every header, that of kind `01` first.
pub const EVERY: [Ratio; 4] = [None, Some(1), Some(2), Some(3)];

/// P and Q of 16 bits with |Q| = r × P + `beyond`, of either sign; P is lowered where Q would not fit.
pub fn at(random: &mut Random, p: i64, r: i64, beyond: i64) -> (i64, i64) {
    let (sign, most) = random.pick(&[(1, 32_767), (-1, 32_768)]);
    let p = p.min((most - beyond) / r);
    (p, sign * (r * p + beyond))
}

/// The book with one pair, of an option or of standing, at |Q| = r × P + `beyond`: where that is above 0, it is slack.
pub fn near(random: &mut Random, book: &Book, beyond: i64) -> Book {
    let mut book = book.clone();
    let (k, slot) = (random.below(book.loads.len()), random.below(book.limits.len()));
    let mut pairs: Vec<&mut (i64, i64)> = powers_of(&mut book.loads[k]).map(|powers| &mut powers[slot]).collect();
    let i = random.below(pairs.len());
    let p = random.pick(&[pairs[i].0, pairs[i].0, 0, 1, 4, 255, 65_535]);
    *pairs[i] = at(random, p, ratio::of(book.ratio), beyond);
    book
}

/// The book with this ratio; where a |Q| is above it, Q is cut.
pub fn with_ratio(book: &Book, ratio: Ratio) -> Book {
    let mut book = Book { ratio, ..book.clone() };
    let r = ratio::of(ratio);
    for (p, q) in book.loads.iter_mut().flat_map(powers_of).flatten() {
        *q = (*q).clamp(-r * *p, r * *p);
    }
    book
}

/// A book within the bounds, with a ratio above 1, of motors and of capacitor banks: |Q| is about r × P, and the Q of banks is
/// negative. Motors by themselves exceed the limits soon.
pub fn cancelling(random: &mut Random, bounds: Bounds) -> Book {
    let ratios = ABOVE_ONE;
    let mut book = book(random, Bounds { ratios, ..bounds });
    let (limits, loads) = (book.limits.clone(), book.loads.len() as i64);
    for load in &mut book.loads {
        let sign = random.pick(&[1, -1]);
        for powers in powers_of(load) {
            for (pair, &limit) in powers.iter_mut().zip(&limits) {
                let eighths = random.within(1..=10);
                let p = part_of_share(random, eighths, limit, loads).min(65_535);
                let most = (ratio::of(book.ratio) * p).min(32_767);
                *pair = (p, sign * (most - random.pick(&[0, 0, most.min(1), most / 4])));
            }
        }
    }
    book
}

#[cfg(test)]
mod tests {
    use super::*;
    use crate::draw::text;
    use crate::kinds::SMALL;
    use crate::reference::Case;

    #[test]
    fn pairs_at_the_ratio_and_beyond() {
        let random = &mut Random::new(12);
        for _ in 0..1_000 {
            let (r, beyond) = (random.within(ratio::RANGE), random.pick(&[0, 1, 256, 32_767]));
            let (p, q) = at(random, 65_535, r, beyond);
            assert_eq!(q.abs(), r * p + beyond);
            assert!((0..=65_535).contains(&p) && (-32_768..=32_767).contains(&q));
        }
    }

    /// A book at its ratio is read, and one beyond it is slack.
    #[test]
    fn books_near_their_ratio() {
        let random = &mut Random::new(13);
        for _ in 0..300 {
            let drawn = book(random, SMALL);
            let right = near(random, &drawn, 0);
            assert_eq!(Case::new(text(&right)).book, Ok(right));
            let slack = Case::new(text(&near(random, &drawn, 1)));
            assert!(slack.book.is_err_and(|refusal| refusal.number == 7));
        }
    }

    #[test]
    fn other_ratios_are_kept() {
        let random = &mut Random::new(14);
        for _ in 0..300 {
            let drawn = [book(random, SMALL), cancelling(random, SMALL)];
            for (book, ratio) in drawn.iter().flat_map(|book| EVERY.map(|ratio| (book, ratio))) {
                let book = with_ratio(book, ratio);
                assert_eq!(Case::new(text(&book)).book, Ok(book));
            }
        }
    }
}
