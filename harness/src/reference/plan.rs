//! The plan and the trials, found in two ways: document 01, "The plan" and "Trials and the work area"; M-104: both count what
//! standing draws, and there may be no plan; M-105: both are of the choices that run every load that must run.

use super::book::{code, Book, Load};
use super::grid::{slots, Slot};
use super::must_run;
use std::cmp::Reverse;
use std::collections::{HashMap, HashSet};

/// Up to this number of choices a book is planned in both ways.
pub const ENUMERATED: u64 = 2_048;

#[derive(Clone, Debug, PartialEq, Eq)]
pub struct Plan {
    pub choice: Vec<usize>,
    pub worth: u64,
}

/// A book's plan, or none where no choice is admitted, and its trials, which it has in any case.
#[derive(Clone, Debug, PartialEq, Eq)]
pub struct Planned {
    pub plan: Option<Plan>,
    pub trials: u64,
}

/// A list of grid pairs (a, b), one pair a slot.
pub type Pairs = Vec<(i64, i64)>;

/// Worth first, then the smaller code: the greater rank is the better choice.
pub type Rank = (u64, Reverse<u64>);

impl Plan {
    /// The choice of this rank.
    pub fn of(book: &Book, (worth, Reverse(code)): Rank) -> Plan {
        Plan {
            choice: (0..book.loads.len()).map(|k| (code >> (2 * k)) as usize % 4).collect(),
            worth,
        }
    }
}

/// By going through every choice, as the text has it.
pub fn by_enumeration(book: &Book) -> Planned {
    let slots = slots(book);
    let trials = lists_met(book)
        .iter()
        .zip(&book.loads)
        .map(|(lists, load)| lists * must_run::factor(load))
        .sum();
    let plan = best_where(book, |choice| admitted(&slots, &pairs(book, &slots, choice)));
    Planned { plan, trials }
}

/// The best of the choices of which this holds.
pub fn best_where(book: &Book, holds: impl Fn(&[usize]) -> bool) -> Option<Plan> {
    let mut best: Option<(Rank, Vec<usize>)> = None;
    each_choice(book, book.loads.len(), |choice| {
        let rank = (book.worth(choice), Reverse(code(choice)));
        let better = best.as_ref().is_none_or(|(held, _)| rank > *held);
        if better && holds(choice) {
            best = Some((rank, choice.to_vec()));
        }
    });
    best.map(|((worth, _), choice)| Plan { choice, worth })
}

/// Goes through the choices of the first loads.
pub fn each_choice(book: &Book, loads: usize, mut visit: impl FnMut(&[usize])) {
    let mut choice = vec![0; loads];
    loop {
        if must_run::all_run(book, &choice) {
            visit(&choice);
        }
        let can_rise = |&k: &usize| choice[k] < book.loads[k].levels.len();
        let Some(k) = (0..loads).find(can_rise) else {
            return;
        };
        choice[..k].fill(0);
        choice[k] += 1;
    }
}

/// The grid pairs of a choice, or of one of the first loads alone.
pub fn pairs(book: &Book, slots: &[Slot], choice: &[usize]) -> Pairs {
    let mut pairs = vec![(0, 0); slots.len()];
    for (load, c) in book.chosen(choice) {
        add(&mut pairs, slots, load, c);
    }
    pairs
}

/// Adds the grid values of a load at level c, or standing.
fn add(pairs: &mut [(i64, i64)], slots: &[Slot], load: &Load, c: usize) {
    for ((pair, slot), s) in pairs.iter_mut().zip(slots).zip(0..) {
        let (p, q) = load.power(c, s);
        pair.0 += slot.grid_value(p);
        pair.1 += slot.grid_value(q);
    }
}

fn within_bounds(slots: &[Slot], pairs: &[(i64, i64)]) -> bool {
    slots.iter().zip(pairs).all(|(slot, &(a, _))| a <= slot.bound)
}

fn admitted(slots: &[Slot], pairs: &[(i64, i64)]) -> bool {
    slots.iter().zip(pairs).all(|(slot, &(a, b))| slot.admits(a, b))
}

/// Whether this choice is admitted, or one of the first loads alone.
pub fn admits(book: &Book, choice: &[usize]) -> bool {
    let slots = slots(book);
    admitted(&slots, &pairs(book, &slots, choice))
}

/// What each load's factor is taken times: H(0) to H(N - 1).
pub fn lists_met(book: &Book) -> Vec<u64> {
    let slots = slots(book);
    (0..book.loads.len()).map(|k| lists(book, &slots, k)).collect()
}

/// H(k).
fn lists(book: &Book, slots: &[Slot], k: usize) -> u64 {
    let mut seen = HashSet::new();
    each_choice(book, k, |choice| {
        let pairs = pairs(book, slots, choice);
        if within_bounds(slots, &pairs) {
            seen.insert(pairs);
        }
    });
    seen.len() as u64
}

/// By a map of the lists of grid pairs.
pub fn by_map(book: &Book) -> Planned {
    let slots = slots(book);
    let (lists, trials) = ranks_by_list(book);
    let admitted = lists.iter().filter(|(pairs, _)| admitted(&slots, pairs));
    let best = admitted.map(|(_, rank)| *rank).max();
    let plan = best.map(|rank| Plan::of(book, rank));
    Planned { plan, trials }
}

/// A map from each list of grid pairs to the best rank that reaches it, made of the loads in order, and the trials.
///
/// Lists with a > R are dropped at once: a never falls, so no later H counts them, and aL > S, so none is admitted, and none keeps
/// the limits. None may be left, as standing draws too, or loads must run.
pub fn ranks_by_list(book: &Book) -> (HashMap<Pairs, Rank>, u64) {
    let slots = slots(book);
    let mut layer: HashMap<Pairs, Rank> = HashMap::from([(vec![(0, 0); slots.len()], (0, Reverse(0)))]);
    let mut trials = 0;
    for (k, load) in book.loads.iter().enumerate() {
        trials += (layer.len() * must_run::settings(load).count()) as u64;
        layer = next_layer(&slots, k, load, &layer);
    }
    (layer, trials)
}

fn next_layer(slots: &[Slot], k: usize, load: &Load, layer: &HashMap<Pairs, Rank>) -> HashMap<Pairs, Rank> {
    let mut next: HashMap<Pairs, Rank> = HashMap::with_capacity(layer.len());
    for (pairs, &(worth, Reverse(code))) in layer {
        for c in must_run::settings(load) {
            let mut pairs = pairs.clone();
            add(&mut pairs, slots, load, c);
            if within_bounds(slots, &pairs) {
                let rank = (worth + load.worth(c), Reverse(code + ((c as u64) << (2 * k))));
                next.entry(pairs)
                    .and_modify(|held| *held = rank.max(*held))
                    .or_insert(rank);
            }
        }
    }
    next
}
