//! The handbook's tables of cells, fineness, relay settings, margins and strict plans, computed anew; those of cells, fineness and
//! plans by the reference.

use harness::project;
use harness::reference::book::Book;
use harness::reference::grid::{cells, Slot};
use harness::reference::plan::Plan;
use harness::reference::{Case, MOST_CELLS};

/// A table by the start of its head. A row is computed from the numbers that it begins with.
pub struct Table {
    pub name: &'static str,
    head: &'static str,
    row: fn(&[u64]) -> Option<String>,
}

pub const TABLES: [Table; 7] = [
    Table {
        name: "cells",
        head: "| T | N | d | cells, R = Nd |",
        row: cells_row,
    },
    Table {
        name: "fineness",
        head: "| N | T = 1 | T = 2 |",
        row: fineness_row,
    },
    Table {
        name: "cells by r",
        head: "| T | N | d | r | cells, R = Nd |",
        row: ratio_cells_row,
    },
    Table {
        name: "fineness by r",
        head: "| N | r | T = 1 | T = 2 |",
        row: ratio_fineness_row,
    },
    Table {
        name: "relay",
        head: "| d | 1 + 3/(2d), rounded up |",
        row: relay_row,
    },
    Table {
        name: "margins",
        head: "| d | margin 2/d, % of S |",
        row: margin_row,
    },
    Table {
        name: "strict plans",
        head: "| d | plan, worth |",
        row: strict_row,
    },
];

/// The book whose plans the last table has.
const STRICT_BOOK: &str = "examples/transformer.book";

impl Table {
    /// The rows as they should be and as they are.
    pub fn rows(&self, prose: &[&str]) -> Result<(String, String), String> {
        let heads: Vec<usize> = (0..prose.len())
            .filter(|&at| prose[at].starts_with(self.head))
            .collect();
        let [head] = heads[..] else {
            return Err(format!("there are {} tables '{}'", heads.len(), self.head));
        };
        let mut rows = prose[head + 1..].iter().take_while(|line| line.starts_with('|'));
        if !rows.next().is_some_and(|line| line.starts_with("|---")) {
            return Err(format!("no line |--- follows '{}'", self.head));
        }
        let (mut want, mut got) = (String::new(), String::new());
        for row in rows {
            let columns = row.split('|').skip(1);
            let numbers: Vec<u64> = columns.map_while(|column| column.trim().parse().ok()).collect();
            let computed = (self.row)(&numbers).unwrap_or("a row that begins with numbers above 0".into());
            want += &format!("{computed}\n");
            got += &format!("{row}\n");
        }
        match got.is_empty() {
            true => Err(format!("no row follows '{}'", self.head)),
            false => Ok((want, got)),
        }
    }
}

fn cells_row(numbers: &[u64]) -> Option<String> {
    let [slots, loads, fineness] = first(numbers)?;
    let [least, most] = cells_of(slots, loads, fineness, 1).map(size_columns);
    Some(format!("| {slots} | {loads} | {fineness} | {least} | {most} |"))
}

fn ratio_cells_row(numbers: &[u64]) -> Option<String> {
    let [slots, loads, fineness, r] = first(numbers)?;
    let [least, most] = cells_of(slots, loads, fineness, r).map(size_columns);
    Some(format!("| {slots} | {loads} | {fineness} | {r} | {least} | {most} |"))
}

/// The cells of T live slots of the same size with R = N × d, and with the largest R, 2 × N × d - 1. Where S is under
/// 2 × N × d, the step is 1 and R is S.
fn cells_of(slots: u64, loads: u64, fineness: u64, r: u64) -> [u128; 2] {
    let least = loads * fineness;
    [least, 2 * least - 1].map(|limit| {
        let slot = Slot::new(limit as i64, loads as usize, fineness);
        cells(&vec![slot; slots as usize], r as i64)
    })
}

/// Cells, words, and MiB rounded up to tenths.
fn size_columns(cells: u128) -> String {
    if cells > MOST_CELLS {
        return "oversize | - | -".into();
    }
    let mib = (10 * 32 * cells).div_ceil(1 << 20);
    format!("{} | {} | {}", commas(cells), commas(4 * cells), tenths(mib))
}

fn fineness_row(numbers: &[u64]) -> Option<String> {
    let [loads] = first(numbers)?;
    Some(format!("| {loads} |{}", fineness_columns(loads, 1)))
}

fn ratio_fineness_row(numbers: &[u64]) -> Option<String> {
    let [loads, r] = first(numbers)?;
    Some(format!("| {loads} | {r} |{}", fineness_columns(loads, r)))
}

/// The largest d for each number of live slots.
fn fineness_columns(loads: u64, r: u64) -> String {
    let largest = |slots: u64, size: usize| {
        let fits = |&d: &u64| cells_of(slots, loads, d, r)[size] <= MOST_CELLS;
        (1..=64).rev().find(fits).map_or("-".into(), |d| d.to_string())
    };
    let columns = (1..=4).map(|slots| format!(" {} / {} |", largest(slots, 0), largest(slots, 1)));
    columns.collect()
}

/// The factor 1 + 3/(2d), and S = X × 2d / (2d + 3) for both settings X.
fn relay_row(numbers: &[u64]) -> Option<String> {
    let [fineness] = first(numbers)?;
    let twice = 2 * fineness;
    let factor = (10_000 * (twice + 3)).div_ceil(twice);
    let limits = [4_000, 6_300].map(|setting| tenths((setting * twice / (twice + 3)).into()));
    Some(format!(
        "| {fineness} | {}.{:04} | {} |",
        factor / 10_000,
        factor % 10_000,
        limits.join(" | ")
    ))
}

/// 2/d in percent, rounded up; (d - 2)/d in percent, and of both settings, rounded down.
fn margin_row(numbers: &[u64]) -> Option<String> {
    let [fineness] = first(numbers)?;
    let within = |whole: u64| Some(whole * fineness.checked_sub(2)? / fineness);
    let (percent, limits) = (within(100_000)?, [within(4_000)?, within(6_300)?]);
    let [margin, percent] = [200_000_u64.div_ceil(fineness), percent].map(thousandths);
    Some(format!(
        "| {fineness} | {margin} | {percent} | {} |",
        limits.map(|limit| tenths(limit.into())).join(" | ")
    ))
}

/// Worth and apparent power of the plan, and of the strict plan, of the book with this d.
fn strict_row(numbers: &[u64]) -> Option<String> {
    let [fineness] = first(numbers)?;
    let mut text = project::bytes(STRICT_BOOK).ok()?;
    text.get_mut(6..8)?
        .copy_from_slice(format!("{fineness:02X}").as_bytes());
    let case = Case::new(text);
    let book = case.book.as_ref().ok()?;
    let columns = |plan: &Plan| format!("{} | {}", plan.worth, share(book, &plan.choice));
    let (plan, strict) = (case.planned().plan.as_ref()?, case.strict()?);
    Some(format!("| {fineness} | {} | {} |", columns(plan), columns(strict)))
}

/// The largest apparent power of a slot, in percent of its limit, rounded up to tenths.
fn share(book: &Book, choice: &[usize]) -> String {
    let covers = |share: &u128| {
        book.limits.iter().enumerate().all(|(slot, &limit)| {
            let (p, q) = book.sums(choice, slot);
            1_000_000 * (p * p + q * q) as u128 <= share * share * (limit * limit) as u128
        })
    };
    (0..10_000).find(covers).map_or("-".into(), tenths)
}

/// The first numbers, if they are there and none is 0.
fn first<const COUNT: usize>(numbers: &[u64]) -> Option<[u64; COUNT]> {
    let first: [u64; COUNT] = numbers.get(..COUNT)?.try_into().ok()?;
    first.iter().all(|&number| number > 0).then_some(first)
}

fn tenths(number: u128) -> String {
    format!("{}.{}", number / 10, number % 10)
}

fn thousandths(number: u64) -> String {
    format!("{}.{:03}", number / 1_000, number % 1_000)
}

fn commas(number: u128) -> String {
    match number {
        0..1_000 => number.to_string(),
        _ => format!("{},{:03}", commas(number / 1_000), number % 1_000),
    }
}
