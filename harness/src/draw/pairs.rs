//! Random pairs of books, to be pooled.

use super::ratios::with_ratio;
use super::{book, filled, limit, loose_header, powers_of, stated, Bounds, Header, LOOSE};
use crate::random::Random;
use crate::reference::book::{Book, MOST_LOADS};
use crate::reference::pool::MOST_LIMIT;
use crate::reference::ratio;

/// A book within the bounds, with loads enough for two.
pub fn whole(random: &mut Random, bounds: Bounds) -> Book {
    let fewest_loads = bounds.fewest_loads.max(2);
    book(random, Bounds { fewest_loads, ..bounds })
}

/// Two books that give this one when they are pooled, but that a Q is cut where the book that has it states a smaller ratio.
pub fn parted(random: &mut Random, whole: &Book) -> [Book; 2] {
    let loads = whole.loads.len() as i64;
    let at = random.within(1..=loads - 1);
    let first: Vec<i64> = whole
        .limits
        .iter()
        .map(|&limit| {
            let (any, fair) = (random.within(0..=limit), limit * at / loads);
            random.pick(&[0, limit, limit / 2, any, fair, fair, fair])
        })
        .collect();
    let second = whole.limits.iter().zip(&first).map(|(all, part)| all - part).collect();
    let (front, back) = whole.loads.split_at(at as usize);
    let (limits, loads) = ([first, second], [front, back]);
    let (ratios, budgets) = (
        two_ratios(random, ratio::of(whole.ratio)),
        two_budgets(random, whole.budget),
    );
    [0, 1].map(|i| {
        let part = Book {
            budget: budgets[i],
            limits: limits[i].clone(),
            loads: loads[i].to_vec(),
            ..whole.clone()
        };
        with_ratio(&part, stated(random, ratios[i]))
    })
}

/// Two ratios of which this is the larger.
fn two_ratios(random: &mut Random, r: i64) -> [i64; 2] {
    let other = random.within(1..=r);
    random.pick(&[[r, other], [other, r]])
}

/// Two budgets of which this is the larger.
pub fn two_budgets(random: &mut Random, budget: u64) -> [u64; 2] {
    let other = random.pick(&[0, budget / 2, budget.saturating_sub(1), budget]);
    random.pick(&[[budget, other], [other, budget]])
}

/// A book of so many loads, of any T, d and budget.
pub fn of_loads(random: &mut Random, loads: usize) -> Book {
    let header = loose_header(random, exactly(loads));
    with_any_budget(random, &header)
}

/// Another book of so many loads that goes with this one, but that their loads may be too many: its T and d are the same, and no limit
/// sum is too large. Some are as large as they can be.
pub fn partner(random: &mut Random, book: &Book, loads: usize) -> Book {
    let any = loose_header(random, exactly(loads));
    let beside = |&other: &i64| {
        let (any, most) = (limit(random), MOST_LIMIT - other);
        random.pick(&[any.min(most), any.min(most), most])
    };
    let header = Header {
        fineness: book.fineness,
        limits: book.limits.iter().map(beside).collect(),
        ..any
    };
    with_any_budget(random, &header)
}

/// Bounds for a book of so many loads.
fn exactly(loads: usize) -> Bounds {
    Bounds {
        fewest_loads: loads,
        loads,
        ..LOOSE
    }
}

fn with_any_budget(random: &mut Random, header: &Header) -> Book {
    let any = random.word() >> 32;
    let budget = random.pick(&[0, 1, any, any, 0xFFFF_FFFF]);
    Book {
        budget,
        ..filled(random, header)
    }
}

/// What two books, each of which is right, are refused for.
#[derive(Clone, Copy, Debug, Default)]
pub struct Faults {
    /// T or d differ (21).
    pub unlike: bool,
    /// The loads are too many (22).
    pub loads: bool,
    /// A limit sum is too large (23).
    pub limit: bool,
}

impl Faults {
    /// Each of them in so many.
    pub fn one_in(random: &mut Random, count: usize) -> Faults {
        let [unlike, loads, limit] = [(); 3].map(|_| random.one_in(count));
        Faults { unlike, loads, limit }
    }
}

/// Two books that can be pooled.
pub fn right(random: &mut Random) -> [Book; 2] {
    refused(random, Faults::default())
}

/// Two books with these faults and no other.
pub fn refused(random: &mut Random, faults: Faults) -> [Book; 2] {
    let most = if faults.loads { MOST_LOADS } else { MOST_LOADS - 1 };
    let loads = 1 + random.below(most);
    let mut first = of_loads(random, loads);
    if faults.limit {
        first.limits.iter_mut().for_each(|limit| *limit = (*limit).max(1));
    }
    let second = second(random, &first, faults);
    [first, second]
}

/// A book to be pooled after this one, with these faults and no other, as far as the first allows: it has less than 24 loads, or else
/// they are too many; and a limit above 0, or else no sum is too large.
pub fn second(random: &mut Random, first: &Book, faults: Faults) -> Book {
    let loads = load_count(random, first.loads.len(), faults.loads);
    let mut second = partner(random, first, loads);
    if faults.limit {
        // The first slot is there whatever T becomes.
        let last = if faults.unlike { 0 } else { first.limits.len() - 1 };
        let slot = random.pick(&[0, last]);
        let least = (MOST_LIMIT + 1 - first.limits[slot]).min(MOST_LIMIT);
        let any = random.within(least..=MOST_LIMIT);
        second.limits[slot] = random.pick(&[least, least, any]);
    }
    if faults.unlike {
        let [slots, fineness] = random.pick(&[[true, false], [false, true], [true, true]]);
        if slots {
            set_other_slots(random, &mut second);
        }
        if fineness {
            second.fineness = second.fineness % 64 + 1;
        }
    }
    second
}

/// A number of loads that is, or is not, too many beside the first book's; often by one more or less.
fn load_count(random: &mut Random, first: usize, too_many: bool) -> usize {
    let (least, most) = match too_many {
        true => (MOST_LOADS + 1 - first, MOST_LOADS),
        false => (1, (MOST_LOADS - first).max(1)),
    };
    let edge = if too_many { least } else { most };
    let any = least + random.below(most - least + 1);
    random.pick(&[edge, any])
}

/// Gives two books limits with this sum in a slot.
pub fn set_limit_sum(random: &mut Random, [first, second]: [&mut Book; 2], slot: usize, sum: i64) {
    let (least, most) = ((sum - MOST_LIMIT).max(0), sum.min(MOST_LIMIT));
    let any = random.within(least..=most);
    first.limits[slot] = random.pick(&[least, most, any, any]);
    second.limits[slot] = sum - first.limits[slot];
}

/// Gives the book another T: slots are cut off, or added in which nothing is drawn.
fn set_other_slots(random: &mut Random, book: &mut Book) {
    let others: Vec<usize> = (1..=4).filter(|&slots| slots != book.limits.len()).collect();
    let slots = random.pick(&others);
    book.limits.resize(slots, 0);
    for powers in book.loads.iter_mut().flat_map(powers_of) {
        powers.resize(slots, (0, 0));
    }
}

#[cfg(test)]
mod tests {
    use super::*;
    use crate::draw::text;
    use crate::kinds::SMALL;
    use crate::reference::pool::{pooled, RULES};
    use crate::reference::Case;

    fn read_back(book: &Book) -> bool {
        Case::new(text(book)).book.as_ref() == Ok(book)
    }

    #[test]
    fn parts_make_the_whole() {
        let random = &mut Random::new(20);
        for _ in 0..300 {
            let whole = whole(random, SMALL);
            let [first, second] = parted(random, &whole);
            assert!(read_back(&first) && read_back(&second));
            let pooled = pooled(&first, &second);
            assert_eq!(pooled.limits, whole.limits);
            assert_eq!(pooled.loads.len(), whole.loads.len());
            assert_eq!(
                (pooled.fineness, pooled.budget, pooled.ratio),
                (whole.fineness, whole.budget, Some(ratio::of(whole.ratio)))
            );
        }
    }

    /// Two books have the faults that they are drawn with, and each by itself is right.
    #[test]
    fn faults_are_those_drawn() {
        let random = &mut Random::new(21);
        for i in 0..800 {
            let drawn = [i & 1 != 0, i & 2 != 0, i & 4 != 0];
            let [unlike, loads, limit] = drawn;
            let [first, second] = refused(random, Faults { unlike, loads, limit });
            assert!(read_back(&first) && read_back(&second));
            assert_eq!(RULES.map(|(_, applies)| applies(&first, &second)), drawn);
        }
    }
}
