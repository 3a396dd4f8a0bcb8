//! The order of starting: document 02, M-101. Loads go by their numbers, from 1 on.

use std::collections::BTreeSet;

/// The loads that stand in the one choice and run in the other.
pub fn starting<'a>(from: &'a [usize], to: &'a [usize]) -> impl Iterator<Item = usize> + 'a {
    (1..=from.len()).filter(|k| from[k - 1] == 0 && to[k - 1] != 0)
}

/// One name for each of so many loads, and each is 0 or the number of a higher load.
pub fn names_are_right(names: &[u8], loads: usize) -> bool {
    let higher = |(i, &name): (usize, &u8)| name == 0 || (i + 2..=loads).contains(&usize::from(name));
    names.len() == loads && names.iter().enumerate().all(higher)
}

/// Some load starts and names a load that stands in the new choice.
pub fn some_named_load_stands(old: &[usize], new: &[usize], names: &[u8]) -> bool {
    starting(old, new)
        .filter_map(|k| usize::from(names[k - 1]).checked_sub(1))
        .any(|named| new[named] == 0)
}

/// The loads that start: each time the lowest of those that name none, or name one that runs by then.
pub fn of(old: &[usize], new: &[usize], names: &[u8]) -> Vec<u8> {
    let mut turning: BTreeSet<usize> = (1..=old.len()).filter(|k| old[k - 1] != 0).collect();
    turning.insert(0);
    let mut left: BTreeSet<usize> = starting(old, new).collect();
    let mut order = Vec::new();
    while let Some(&k) = left.iter().find(|&&k| turning.contains(&usize::from(names[k - 1]))) {
        left.remove(&k);
        turning.insert(k);
        order.push(k as u8);
    }
    order
}

#[cfg(test)]
mod tests {
    use super::*;
    use crate::reference::{Case, EXAMPLE};

    #[test]
    fn the_lowest_that_is_ready() {
        assert_eq!(of(&[0; 5], &[1; 5], &[4, 5, 0, 5, 0]), [3, 5, 2, 4, 1]);
        assert_eq!(of(&[0, 0, 0, 0, 1], &[1; 5], &[4, 5, 0, 5, 0]), [2, 3, 4, 1]);
    }

    #[test]
    fn names() {
        assert!(names_are_right(&[3, 3, 0], 3));
        for wrong in [&[0, 0][..], &[0; 4], &[1, 0, 0], &[0, 1, 0], &[4, 0, 0]] {
            assert!(!names_are_right(wrong, 3));
        }
    }

    /// Of document 01's book: from load 3 alone to loads 1 and 2.
    #[test]
    fn the_bench_book() {
        let case = Case::new(EXAMPLE.to_vec());
        let running = b"040000000400000000000001\n050000000400000000000A\n";
        let planned = case.plan(100_000, 100_000).sheet;
        let outcome = |names: &[u8], buffer| case.order(running, &planned, names, buffer);
        let two = outcome(&[2, 0, 0], 2);
        assert_eq!((two.sheet, two.answer.further), (vec![2, 1], vec![2, 1]));
        let number = |names: &[u8], buffer| outcome(names, buffer).answer.first.number;
        assert_eq!(number(&[2, 0, 0], 1), 11);
        assert_eq!(number(&[2, 2, 0], 0), 15);
        assert_eq!(number(&[2, 3, 0], 0), 16);
        assert_eq!(case.order(&planned, b"", &[], 0).answer.first.number, 13);
    }
}
