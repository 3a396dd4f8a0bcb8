//! The charge: references with M-111's mistakes.

use super::{book_of, Mistake, CHARGE};
use crate::call::Input;
use crate::reference::charge::{exact, nearest};
use crate::reference::{sheet, Case, Outcome};

pub const ROUNDING_MISTAKES: &[Mistake] = &[
    ("exact halves upward", CHARGE, |case, input| {
        rounded_once(case, input, upward)
    }),
    ("exact halves downward", CHARGE, |case, input| {
        rounded_once(case, input, |n| (n + 19) / 40)
    }),
    ("exact halves to the odd hundredth", CHARGE, |case, input| {
        rounded_once(case, input, |n| (n + 20 - n / 40 % 2) / 40)
    }),
    ("the sum rounded down", CHARGE, |case, input| {
        rounded_once(case, input, |n| n / 40)
    }),
    ("the sum rounded up", CHARGE, |case, input| {
        rounded_once(case, input, |n| n.div_ceil(40))
    }),
    ("each slot rounded first", CHARGE, |case, input| {
        rounded_first(case, input, nearest)
    }),
    ("each slot rounded first, exact halves upward", CHARGE, |case, input| {
        rounded_first(case, input, upward)
    }),
    ("the price of slot 1 for every slot", CHARGE, |case, input| {
        let prices = vec![input.prices[0]; input.prices.len()];
        case.outcome(Input {
            prices: &prices,
            ..input
        })
    }),
];

fn upward(n: u64) -> u64 {
    (n + 20) / 40
}

fn rounded_once(case: &Case, input: Input, rounded: fn(u64) -> u64) -> Outcome {
    charged(case, input, |slots| rounded(slots.iter().sum()))
}

fn rounded_first(case: &Case, input: Input, rounded: fn(u64) -> u64) -> Outcome {
    charged(case, input, |slots| slots.iter().copied().map(rounded).sum())
}

/// What the call has to leave, where the charge is made of the slots' exact charges in this way.
fn charged(case: &Case, input: Input, charge: impl Fn(&[u64]) -> u64) -> Outcome {
    let (book, mut outcome) = (book_of(case), case.outcome(input));
    if let (0, Some((choice, _))) = (outcome.answer.first.number, sheet::read(book, input.sheet)) {
        let slots: Vec<u64> = exact(book, &choice, input.prices).collect();
        outcome.answer.further = vec![charge(&slots)];
    }
    outcome
}

#[cfg(test)]
mod tests {
    use super::super::BENCH_SHEET;
    use super::*;
    use crate::reference::EXAMPLE;

    /// Without a mistake it is the reference's own charge; 14 stays.
    #[test]
    fn rounded_right() {
        let case = Case::new(EXAMPLE.to_vec());
        for prices in [&[20][..], &[21], &[20, 20]] {
            let input = Input::charge(&case.text, BENCH_SHEET, prices);
            assert_eq!(rounded_once(&case, input, nearest).answer, case.outcome(input).answer);
        }
    }
}
