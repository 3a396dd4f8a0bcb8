//! Random valid books, the twin of a book, the longest book, a book with the longest sheet and views, and the bytes of a book;
//! days of books, pairs of books, books at the ratio that they state, and books whose powers share steps, in modules of their own.

pub mod days;
pub mod pairs;
pub mod ratios;
pub mod steps;

use crate::random::Random;
use crate::reference::book::{header_text, Book, Level, Load};
use crate::reference::ratio::{self, Ratio};
use crate::reference::standing::Standing;
use crate::reference::{grid, MOST_CELLS};
use std::ops::RangeInclusive;

/// What a drawn book may have at most, and at least so many loads and so fine a d; and the ratios of which its header states one.
#[derive(Clone, Copy)]
pub struct Bounds {
    pub fewest_loads: usize,
    pub least_fineness: u64,
    pub loads: usize,
    pub choices: u64,
    pub cells: u128,
    pub ratios: &'static [Ratio],
}

/// As many headers of kind `01` as of kind `08`.
pub const ANY_RATIO: &[Ratio] = &[None, None, None, Some(1), Some(2), Some(3)];

/// A header without its budget, and how many options each load has.
struct Header {
    ratio: Ratio,
    fineness: u64,
    limits: Vec<i64>,
    options: Vec<usize>,
}

impl Header {
    fn cells(&self) -> u128 {
        self.cells_with(&self.limits)
    }

    /// The cells with these limits in place of its own.
    fn cells_with(&self, limits: &[i64]) -> u128 {
        let slot = |&limit: &i64| grid::Slot::new(limit, self.options.len(), self.fineness);
        let slots: Vec<grid::Slot> = limits.iter().map(slot).collect();
        grid::cells(&slots, ratio::of(self.ratio))
    }
}

/// Headers with exactly 1,048,576 cells: r, T limits, N and d. In every slot R + 1 and 2rR + (2r - 1)N + 1 are powers of two.
const FULL_TABLES: &[(i64, &[i64], usize, u64)] = &[
    (1, &[65_535, 15], 1, 31),
    (1, &[31, 15], 1, 64),
    (1, &[3, 127], 1, 64),
    (1, &[65_535, 300, 3, 3_000], 1, 3),
    (1, &[1, 1, 1, 1], 13, 5),
    (2, &[65_535, 15], 1, 15),
    (2, &[31, 7], 1, 64),
    (2, &[1, 3, 3, 1], 1, 64),
    (3, &[7, 7], 17, 2),
];

/// A book within the bounds.
pub fn book(random: &mut Random, bounds: Bounds) -> Book {
    let most = random.pick(&[bounds.cells, bounds.cells, bounds.cells / 4]);
    let any = random.within(1..=64) as u64;
    let mut header = Header {
        ratio: random.pick(bounds.ratios),
        fineness: random.pick(&[1, 1, 1, 2, 3, any, 64]).max(bounds.least_fineness),
        limits: Vec::new(),
        options: options(random, bounds),
    };
    let slots = slots(random, &header, most);
    set_limits(random, &mut header, slots, most);
    filled(random, &header)
}

/// A book of more than 1,048,576 cells (oversize), by little or by much: for some the product passes 2^64.
pub fn too_many_cells(random: &mut Random) -> Book {
    loop {
        let header = match random.below(4) {
            0 => fuller_table(random),
            _ => loose_header(random, LOOSE),
        };
        if header.cells() > MOST_CELLS {
            return filled(random, &header);
        }
    }
}

/// A header of any T, d and limits, whatever the cells.
fn loose_header(random: &mut Random, bounds: Bounds) -> Header {
    let slots = 1 + random.below(4);
    Header {
        ratio: random.pick(bounds.ratios),
        fineness: random.within(1..=64) as u64,
        limits: (0..slots).map(|_| limit(random)).collect(),
        options: options(random, bounds),
    }
}

/// A header of exactly 1,048,576 cells, with any r.
fn full_header(random: &mut Random) -> Header {
    let r = random.within(ratio::RANGE);
    let tables: Vec<_> = FULL_TABLES.iter().filter(|table| table.0 == r).collect();
    let (_, limits, loads, fineness) = *random.pick(&tables);
    Header {
        ratio: stated(random, r),
        fineness,
        limits: limits.to_vec(),
        options: (0..loads).map(|_| 1 + random.below(2)).collect(),
    }
}

/// A way to state r: a header of kind `01` does for 1.
fn stated(random: &mut Random, r: i64) -> Ratio {
    match r {
        1 => random.pick(&[None, Some(1)]),
        _ => Some(r),
    }
}

/// A header of exactly 1,048,576 cells with one limit raised, or with r raised.
fn fuller_table(random: &mut Random) -> Header {
    let mut header = full_header(random);
    let (slot, r) = (random.below(header.limits.len()), ratio::of(header.ratio));
    match random.below(2) {
        0 => header.limits[slot] = (header.limits[slot] + 1).min(65_535),
        _ => header.ratio = Some((r + 1).min(3)),
    }
    header
}

/// A book of exactly 1,048,576 cells.
pub fn full_table(random: &mut Random) -> Book {
    let header = full_header(random);
    filled(random, &header)
}

const LOOSE: Bounds = Bounds {
    fewest_loads: 1,
    least_fineness: 1,
    loads: 24,
    choices: u64::MAX,
    cells: u128::MAX,
    ratios: ANY_RATIO,
};

/// How many options each load has.
fn options(random: &mut Random, bounds: Bounds) -> Vec<usize> {
    let most = random.pick(&[1, 2, 3, 3]);
    let loads = bounds.fewest_loads + random.below(bounds.loads - bounds.fewest_loads + 1);
    let mut options: Vec<usize> = (0..loads).map(|_| 1 + random.below(most)).collect();
    let choices = |options: &[usize]| {
        let product = |product: u64, o: &usize| product.saturating_mul(*o as u64 + 1);
        options.iter().fold(1, product)
    };
    while choices(&options) > bounds.choices {
        options.pop();
    }
    options
}

/// A number of slots for which even limits of 0 leave room for cells.
fn slots(random: &mut Random, header: &Header, most: u128) -> usize {
    let mut slots = 1 + random.below(4);
    while slots > 1 && 4 * header.cells_with(&vec![0; slots]) > most {
        slots -= 1;
    }
    slots
}

/// Limits within the bound on cells: each slot in turn takes one that fits beside those before it.
fn set_limits(random: &mut Random, header: &mut Header, slots: usize, most: u128) {
    header.limits = vec![0; slots];
    let first = random.below(slots);
    for slot in (0..slots).map(|i| (first + i) % slots) {
        header.limits[slot] = limit(random);
        while header.cells() > most {
            header.limits[slot] = limit(random).min(3 * header.limits[slot] / 4);
        }
    }
}

fn limit(random: &mut Random) -> i64 {
    let largest = random.pick(&[0, 3, 8, 20, 20, 50, 200, 1_000, 5_000, 65_535, 65_535, 65_535]);
    let smallest = if random.one_in(6) { largest } else { largest / 8 };
    random.within(smallest..=largest)
}

/// How a drawn book's worths and powers are spread.
#[derive(Clone, Copy)]
struct Spread {
    /// r.
    ratio: i64,
    /// The greatest worth.
    worth: i64,
    /// The style of `power`, of 0 to 6.
    power: i64,
    /// The style of `reactive`, of 0 to 6.
    reactive: usize,
    /// Of eight loads, so many draw standing (kind `06`).
    standing_loads: usize,
    /// Of eight loads, so many must run (kind `07`).
    must_run_loads: usize,
    /// How much the former draw standing, and the latter at one of their levels.
    standing: Heat,
}

/// What a load draws in a slot, at most, standing or where it must run.
#[derive(Clone, Copy)]
enum Heat {
    /// So many eighths of its share of the limit.
    Share(i64),
    /// Nothing, or half the limit by itself.
    Half,
    /// Mostly nothing; but also an eighth of its share, all of it, the limit by itself, or more.
    Any,
}

impl Spread {
    fn new(random: &mut Random, ratio: Ratio) -> Spread {
        Spread {
            ratio: ratio::of(ratio),
            worth: random.pick(&[0, 1, 2, 3, 3, 20, 20, 300, 65_535, 65_535]),
            power: random.pick(&[0, 1, 2, 2, 2, 3, 3, 3, 4, 5, 6]),
            reactive: random.below(7),
            standing_loads: random.pick(&[0, 0, 0, 1, 4, 4, 7, 8, 8]),
            must_run_loads: random.pick(&[0, 0, 0, 0, 1, 2, 4, 8]),
            standing: Heat::new(random),
        }
    }
}

impl Heat {
    fn new(random: &mut Random) -> Heat {
        let shares = [0, 1, 4, 4, 8, 8, 8, 12, 12];
        match random.below(12) {
            n @ 0..9 => Heat::Share(shares[n]),
            9 | 10 => Heat::Half,
            _ => Heat::Any,
        }
    }
}

fn filled(random: &mut Random, header: &Header) -> Book {
    let spread = Spread::new(random, header.ratio);
    filled_by(random, header, spread)
}

fn filled_by(random: &mut Random, header: &Header, spread: Spread) -> Book {
    let mut book = Book {
        fineness: header.fineness,
        ratio: header.ratio,
        budget: 0xFFFF_FFFF,
        limits: header.limits.clone(),
        loads: Vec::new(),
    };
    for &o in &header.options {
        let load = load(random, &book.limits, header.options.len(), o, spread);
        let load = like_the_last(random, &book, load);
        book.loads.push(load);
    }
    book
}

fn load(random: &mut Random, limits: &[i64], loads: usize, options: usize, spread: Spread) -> Load {
    let loads = loads as i64;
    let levels = (0..options)
        .map(|_| Level {
            worth: worth(random, spread.worth),
            powers: limits.iter().map(|&s| power(random, s, loads, spread)).collect(),
        })
        .collect();
    let mut load = Load {
        must_run: random.below(8) < spread.must_run_loads,
        standing: None,
        levels,
    };
    let draws_standing = random.below(8) < spread.standing_loads;
    let powers = limits
        .iter()
        .map(|&s| standing_power(random, s, loads, spread))
        .collect();
    if load.must_run {
        load.levels[random.below(options)].powers = powers;
    } else if draws_standing {
        load.standing = Some(powers);
    }
    load
}

fn worth(random: &mut Random, most: i64) -> u64 {
    let low = if most == 65_535 && random.one_in(2) { 65_000 } else { 0 };
    random.within(low..=most) as u64
}

/// P and Q of one option in one slot with limit S.
fn power(random: &mut Random, limit: i64, loads: i64, spread: Spread) -> (i64, i64) {
    let most = match spread.power {
        0 => 3,
        1 => limit / 2 + 1,
        2 => 2 * limit / loads + 1,
        3 => limit / loads + 1,
        4 => limit + 1,
        5 => 65_535,
        _ => random.pick(&[0, 1, limit, limit + 1, 2 * limit / loads, 65_535]),
    };
    let most = if limit == 0 && !random.one_in(4) { 0 } else { most };
    up_to(random, most, spread)
}

/// P and Q of standing in one slot with limit S, or of a level of a load that must run: mostly so little that all of
/// them together keep the limit, now and then more than running.
fn standing_power(random: &mut Random, limit: i64, loads: i64, spread: Spread) -> (i64, i64) {
    let eighths = match spread.standing {
        Heat::Share(eighths) => eighths,
        Heat::Half => random.pick(&[0, 0, 4 * loads]),
        Heat::Any => random.pick(&[0, 0, 0, 0, 1, 8, 8 * loads, 9 * loads]),
    };
    let most = part_of_share(random, eighths, limit, loads);
    up_to(random, most, spread)
}

/// A P of 16 bits, often the largest, and its Q. Half the time |Q|, and not P, is at most `most`.
fn up_to(random: &mut Random, most: i64, spread: Spread) -> (i64, i64) {
    let most = (most / random.pick(&[1, spread.ratio])).min(65_535);
    let p = if random.one_in(6) {
        most
    } else {
        random.within(0..=most)
    };
    (p, reactive(random, p, spread.ratio, spread.reactive))
}

/// A Q of 16 bits with |Q| ≤ r × P.
fn reactive(random: &mut Random, p: i64, r: i64, style: usize) -> i64 {
    let most = r * p;
    let q = match style {
        0 => most,
        1 => -most,
        2 => 0,
        3 => random.pick(&[most, -most, 0, -1, 1, 1 - most, most - 1]),
        _ => random.within(-most..=most),
    };
    q.clamp(-most, most).clamp(-32_768, 32_767)
}

/// Now and then in place of a load: the load before it again, with the same or with opposite Q, or with another standing pair or
/// kind of line.
fn like_the_last(random: &mut Random, book: &Book, drawn: Load) -> Load {
    let (true, Some(last)) = (random.one_in(5), book.loads.last()) else {
        return drawn;
    };
    let mut load = last.clone();
    load.levels.truncate(drawn.levels.len());
    if random.one_in(3) {
        (load.must_run, load.standing) = (drawn.must_run, drawn.standing);
    }
    if random.one_in(2) {
        let pairs = powers_of(&mut load).flatten();
        pairs.for_each(|(_, q)| *q = (-*q).min(32_767));
    }
    load
}

/// P and Q of each slot, of every option and of standing.
fn powers_of(load: &mut Load) -> impl Iterator<Item = &mut Vec<(i64, i64)>> {
    let options = load.levels.iter_mut().map(|level| &mut level.powers);
    options.chain(&mut load.standing)
}

/// What a load draws, in eighths of its share of the limit.
pub type Eighths = RangeInclusive<i64>;

/// So many eighths of a load's share, rounded down or up.
fn part_of_share(random: &mut Random, eighths: i64, limit: i64, loads: i64) -> i64 {
    let whole = 8 * loads;
    (eighths * limit + random.within(0..=whole - 1)) / whole
}

/// A book within the bounds in which every load draws so much running, and one of these amounts standing.
pub fn heated(random: &mut Random, bounds: Bounds, standing: &[Eighths], running: &Eighths) -> Book {
    let mut book = book(random, bounds);
    let (limits, loads) = (book.limits.clone(), book.loads.len() as i64);
    let (r, style) = (ratio::of(book.ratio), random.below(7));
    let powers = |random: &mut Random, eighths: &Eighths| -> Vec<(i64, i64)> {
        let power = |&limit: &i64| {
            let eighths = random.within(eighths.clone());
            let p = part_of_share(random, eighths, limit, loads).min(65_535);
            (p, reactive(random, p, r, style))
        };
        limits.iter().map(power).collect()
    };
    for load in &mut book.loads {
        let amount = &standing[random.below(standing.len())];
        load.must_run = false;
        load.standing = Some(powers(random, amount));
        for level in &mut load.levels {
            level.powers = powers(random, running);
        }
    }
    book
}

/// The book with this for what every load draws standing that can stand.
pub fn with_standing(book: &Book, standing: Standing) -> Book {
    let mut book = book.clone();
    for load in book.loads.iter_mut().filter(|load| !load.must_run) {
        load.standing = standing.clone();
    }
    book
}

/// The book with some of its loads on lines of kind `07`, one of them at least, and some on lines of kind `02`.
pub fn with_must_run(random: &mut Random, book: &Book) -> Book {
    let mut book = book.clone();
    let certain = random.below(book.loads.len());
    for (k, load) in book.loads.iter_mut().enumerate() {
        load.must_run = k == certain || random.one_in(3);
        if load.must_run || random.one_in(2) {
            load.standing = None;
        }
    }
    book
}

/// Another book with the same limits and at least the same r, and a choice of it with the same sums in every slot: two loads carry
/// what each load draws, running or standing, and one more stands and draws nothing. The book has at most 11 loads.
pub fn twin(random: &mut Random, book: &Book, choice: &[usize]) -> (Book, Vec<usize>) {
    let r = random.within(ratio::of(book.ratio)..=3);
    let mut twin = Book {
        fineness: random.within(1..=64) as u64,
        ratio: stated(random, r),
        budget: random.word() >> 32,
        limits: book.limits.clone(),
        loads: Vec::new(),
    };
    let mut twin_choice = Vec::new();
    let other = vec![(1, 0); book.limits.len()];
    for (load, c) in book.chosen(choice) {
        let powers: Vec<(i64, i64)> = (0..book.limits.len()).map(|slot| load.power(c, slot)).collect();
        for part in halves(&powers, r) {
            let load = match random.below(4) {
                0 => one_level(random, None, part),
                1 => Load {
                    must_run: true,
                    ..one_level(random, None, part)
                },
                _ => one_level(random, Some(part), other.clone()),
            };
            twin_choice.push(usize::from(load.standing.is_none()));
            twin.loads.push(load);
        }
    }
    twin.loads.push(one_level(random, None, other));
    twin_choice.push(0);
    (twin, twin_choice)
}

/// A load of one level, of any worth.
fn one_level(random: &mut Random, standing: Standing, powers: Vec<(i64, i64)>) -> Load {
    let worth = random.within(0..=65_535) as u64;
    Load {
        must_run: false,
        standing,
        levels: vec![Level { worth, powers }],
    }
}

/// Powers in two parts. The first |Q| is cut to r × P; then |Q| ≤ r × P holds of the second too.
fn halves(powers: &[(i64, i64)], r: i64) -> [Vec<(i64, i64)>; 2] {
    let half = |&(p, q): &(i64, i64)| (p / 2, (q / 2).clamp(-r * (p / 2), r * (p / 2)));
    let halves: Vec<(i64, i64)> = powers.iter().map(half).collect();
    let rest = powers
        .iter()
        .zip(&halves)
        .map(|((p, q), half)| (p - half.0, q - half.1));
    let rest = rest.collect();
    [halves, rest]
}

/// A book of four slots and 24 loads that draw standing, of three levels each, with a header that states a ratio: none has more
/// bytes.
pub fn longest(random: &mut Random) -> Book {
    let header = Header {
        ratio: Some(random.within(ratio::RANGE)),
        fineness: random.within(1..=64) as u64,
        limits: (0..4).map(|_| limit(random)).collect(),
        options: vec![3; 24],
    };
    let spread = Spread {
        standing_loads: 8,
        must_run_loads: 0,
        ..Spread::new(random, header.ratio)
    };
    filled_by(random, &header, spread)
}

/// A book of four slots and 24 loads, of two levels each: none has a longer sheet, or longer views where all loads run.
pub fn longest_views() -> Book {
    let level = |worth| Level {
        worth,
        powers: vec![(1, 0); 4],
    };
    let load = Load {
        must_run: false,
        standing: None,
        levels: vec![level(1), level(2)],
    };
    Book {
        fineness: 1,
        ratio: None,
        budget: 0,
        limits: vec![24; 4],
        loads: vec![load; 24],
    }
}

/// The bytes of a book.
pub fn text(book: &Book) -> Vec<u8> {
    let mut text = header_text(book);
    for load in &book.loads {
        let (kind, standing) = match &load.standing {
            None if load.must_run => ("07", String::new()),
            None => ("02", String::new()),
            Some(powers) => ("06", digits(powers)),
        };
        text += &format!("{kind}{:02X}{standing}", load.levels.len());
        for level in &load.levels {
            text += &format!("{:04X}{}", level.worth, digits(&level.powers));
        }
        text += "\n";
    }
    text.into_bytes()
}

/// The digits of P and Q of each slot.
pub fn digits(powers: &[(i64, i64)]) -> String {
    let digits = powers.iter().map(|&(p, q)| format!("{p:04X}{:04X}", q as i16));
    digits.collect()
}

#[cfg(test)]
mod tests {
    use super::*;
    use crate::kinds::{random_choice, SMALL};
    use crate::reference::plan::by_map;
    use crate::reference::Case;
    use crate::BOOK_MAX;

    #[test]
    fn full_tables_are_full() {
        for &(r, limits, loads, fineness) in FULL_TABLES {
            let header = Header {
                ratio: Some(r),
                fineness,
                limits: limits.to_vec(),
                options: vec![1; loads],
            };
            assert_eq!(header.cells(), MOST_CELLS);
        }
    }

    #[test]
    fn drawn_books_are_read_back() {
        let random = &mut Random::new(3);
        for _ in 0..300 {
            let heated = heated(random, SMALL, &[0..=64], &(0..=64));
            for drawn in [heated, book(random, SMALL), full_table(random), too_many_cells(random)] {
                assert_eq!(Case::new(text(&drawn)).book, Ok(drawn));
            }
        }
    }

    #[test]
    fn the_longest_book() {
        let longest = longest(&mut Random::new(4));
        let text = text(&longest);
        assert_eq!((text.len(), BOOK_MAX), (3_515, 3_515));
        assert_eq!(Case::new(text).book, Ok(longest));
    }

    #[test]
    fn twins_have_equal_sums() {
        let random = &mut Random::new(5);
        for _ in 0..300 {
            let book = book(random, SMALL);
            let choice = random_choice(random, &book);
            let (twin, twin_choice) = twin(random, &book, &choice);
            for slot in 0..book.limits.len() {
                assert_eq!(book.sums(&choice, slot), twin.sums(&twin_choice, slot));
            }
            assert_eq!(Case::new(text(&twin)).book, Ok(twin));
        }
    }

    /// Of the books with lines of kind `06` some have no plan, but few; and so of those with lines of kind `07`.
    #[test]
    fn few_books_have_no_plan() {
        let random = &mut Random::new(6);
        let drawn: Vec<Book> = (0..2_000).map(|_| book(random, SMALL)).collect();
        let of_kinds: [fn(&Load) -> bool; 2] = [|load| load.standing.is_some(), |load| load.must_run];
        for of_kind in of_kinds {
            let books = drawn.iter().filter(|book| book.loads.iter().any(of_kind));
            let (none, some): (Vec<&Book>, Vec<&Book>) = books.partition(|book| by_map(book).plan.is_none());
            let (none, all) = (none.len(), none.len() + some.len());
            assert!((all / 40..all / 8).contains(&none), "{none} of {all}");
        }
    }
}
