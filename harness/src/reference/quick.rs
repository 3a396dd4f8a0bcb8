//! The quick planner: document 01, "Quick planner and sheet reader"; M-104: it begins with all standing, which may draw; M-105: but
//! loads that must run are at option 1 from the start, and trying them changes nothing.

use super::book::Book;
use super::{must_run, plan};

/// The choice that the quick planner makes: option 1 or standing for each load; none where what it begins with breaks a limit.
pub fn choice(book: &Book) -> Option<Vec<usize>> {
    fits(book, &must_run::start(book)).then(|| tried(book, &order(book)))
}

/// The loads in the order in which they are tried: by size, and among equals the lower number first.
pub fn order(book: &Book) -> Vec<usize> {
    let mut order: Vec<usize> = (0..book.loads.len()).collect();
    order.sort_by_key(|&k| (size(book, k), k));
    order
}

/// The choice after the loads are tried in this order, whether or not what it begins with keeps the limits.
pub fn tried(book: &Book, order: &[usize]) -> Vec<usize> {
    let mut choice = must_run::start(book);
    for &k in order {
        choice = taken(book, &choice, k).unwrap_or(choice);
    }
    choice
}

/// The choice with load k taken, which replaces what it draws standing; none where a limit is broken.
pub fn taken(book: &Book, choice: &[usize], k: usize) -> Option<Vec<usize>> {
    let mut choice = choice.to_vec();
    choice[k] = 1;
    fits(book, &choice).then_some(choice)
}

/// The sum over the slots of option 1's P² + Q².
fn size(book: &Book, k: usize) -> i64 {
    let powers = &book.loads[k].levels[0].powers;
    powers.iter().map(|(p, q)| p * p + q * q).sum()
}

/// Whether every slot's true sums keep the limit.
pub fn fits(book: &Book, choice: &[usize]) -> bool {
    book.limits.iter().enumerate().all(|(slot, limit)| {
        let (p, q) = book.sums(choice, slot);
        p * p + q * q <= limit * limit
    })
}

/// The greatest worth of the choices that keep the limits, if there is one.
pub fn best_that_fits(book: &Book) -> Option<u64> {
    plan::best_where(book, |choice| fits(book, choice)).map(|plan| plan.worth)
}
