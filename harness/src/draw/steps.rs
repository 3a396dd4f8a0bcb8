//! Random books of M-109: with powers at the ends of steps, and with levels that share their steps.

use super::{book, part_of_share, powers_of, reactive, Bounds};
use crate::random::Random;
use crate::reference::book::{Book, Load};
use crate::reference::{grid, ratio};

/// A book within the bounds of which each load draws about its share of the limits, at the end of a step or close to it: rounding
/// hides the most of that.
pub fn at_ends(random: &mut Random, bounds: Bounds) -> Book {
    let mut book = rounded(random, bounds);
    let (shares, slots) = (Shares::new(random, &book), grid::slots(&book));
    for powers in book.loads.iter_mut().flat_map(powers_of) {
        *powers = shares.drawn(random);
        for ((p, _), slot) in powers.iter_mut().zip(&slots) {
            let short = random.pick(&[0, 0, 0, 1.min(slot.step - 1), slot.step / 4]);
            *p = (slot.grid_value(*p) * slot.step + slot.step - 1 - short).clamp(*p, 65_535);
        }
    }
    book
}

/// A book within the bounds of which each load draws about its share of the limits, in the same steps at each of its levels, and
/// standing where its line says what it draws then. Levels that draw more are mostly worth more.
pub fn shared(random: &mut Random, bounds: Bounds) -> Book {
    let mut book = rounded(random, bounds);
    let (shares, slots) = (Shares::new(random, &book), grid::slots(&book));
    let must_run = random.pick(&[0, 4, 8]);
    for load in &mut book.loads {
        load.must_run = random.below(8) < must_run;
        if load.must_run {
            load.standing = None;
        }
        let share = shares.drawn(random);
        for powers in powers_of(load) {
            let places = share.iter().zip(&slots);
            let powers_in = places.map(|(pair, slot)| in_steps_of(random, *pair, slot, shares.ratio));
            *powers = powers_in.collect();
        }
        if !random.one_in(4) {
            order_worths(load);
        }
    }
    book
}

/// A book within the bounds with a slot whose steps are longer than 1, mostly by much.
fn rounded(random: &mut Random, bounds: Bounds) -> Book {
    loop {
        let (book, least) = (book(random, bounds), random.pick(&[2, 10, 10]));
        if grid::slots(&book).iter().any(|slot| slot.step >= least) {
            return book;
        }
    }
}

/// A load's share of the limits of a book.
struct Shares {
    limits: Vec<i64>,
    loads: i64,
    ratio: i64,
    /// The style of `reactive`.
    style: usize,
}

impl Shares {
    fn new(random: &mut Random, book: &Book) -> Shares {
        Shares {
            limits: book.limits.clone(),
            loads: book.loads.len() as i64,
            ratio: ratio::of(book.ratio),
            style: random.below(7),
        }
    }

    /// P and Q of each slot, of about such a share.
    fn drawn(&self, random: &mut Random) -> Vec<(i64, i64)> {
        let power = |&limit: &i64| {
            let eighths = random.within(3..=10);
            let p = part_of_share(random, eighths, limit, self.loads).min(65_535);
            (p, reactive(random, p, self.ratio, self.style))
        };
        self.limits.iter().map(power).collect()
    }
}

/// Any P and Q of 16 bits in the steps of these, with |Q| ≤ r × P; or these, where no Q goes with the P that was drawn.
fn in_steps_of(random: &mut Random, (p, q): (i64, i64), slot: &grid::Slot, r: i64) -> (i64, i64) {
    let start = |power| slot.grid_value(power) * slot.step;
    let last = slot.step - 1;
    let any = random.within(0..=last);
    let other = (start(p) + random.pick(&[0, last, any])).min(65_535);
    let (least, most) = (start(q).max(-r * other), (start(q) + last).min(r * other));
    match random.one_in(3) || least > most {
        true if q.abs() <= r * other => (other, q),
        true => (p, q),
        false => (other, random.within(least..=most).clamp(-32_768, 32_767)),
    }
}

/// Gives the levels that draw more the greater worths.
fn order_worths(load: &mut Load) {
    let mut worths: Vec<u64> = load.levels.iter().map(|level| level.worth).collect();
    worths.sort_unstable();
    let drawn = |k: &usize| -> i64 { load.levels[*k].powers.iter().map(|(p, q)| p * p + q * q).sum() };
    let mut order: Vec<usize> = (0..worths.len()).collect();
    order.sort_by_key(drawn);
    for (k, worth) in order.into_iter().zip(worths) {
        load.levels[k].worth = worth;
    }
}

#[cfg(test)]
mod tests {
    use super::*;
    use crate::draw::text;
    use crate::kinds::FINE;
    use crate::reference::Case;

    #[test]
    fn drawn_books_are_read_back() {
        let random = &mut Random::new(15);
        for _ in 0..300 {
            for drawn in [at_ends(random, FINE), shared(random, FINE)] {
                assert_eq!(Case::new(text(&drawn)).book, Ok(drawn));
            }
        }
    }

    /// Settings of a load have the same grid values.
    #[test]
    fn steps_are_shared() {
        let random = &mut Random::new(16);
        for _ in 0..300 {
            let book = shared(random, FINE);
            let slots = grid::slots(&book);
            for load in &book.loads {
                for (s, slot) in slots.iter().enumerate() {
                    let values = |level: usize| {
                        let (p, q) = load.power(level, s);
                        (slot.grid_value(p), slot.grid_value(q))
                    };
                    assert!((1..=load.levels.len()).all(|level| values(level) == values(1)));
                }
            }
        }
    }

    /// Of either kind of book, some have a strict plan that is worth less than the plan, and some have none though they have a plan.
    #[test]
    fn plans_differ() {
        let random = &mut Random::new(17);
        for draw in [at_ends, shared] {
            let cases: Vec<Case> = (0..2_000).map(|_| Case::new(text(&draw(random, FINE)))).collect();
            let planned = cases
                .iter()
                .filter_map(|case| Some((case.planned().plan.as_ref()?, case.strict())));
            let (mut less, mut none) = (0, 0);
            for (plan, strict) in planned {
                match strict {
                    Some(strict) => less += usize::from(strict.worth < plan.worth),
                    None => none += 1,
                }
            }
            assert!(less > 100 && none > 100, "{less}, {none}");
        }
    }
}
