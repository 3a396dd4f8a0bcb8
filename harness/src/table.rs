//! A table planner written by hand in Rust, for `speed`: the same job, table and lent memory as the archive's, no heap.
//!
//! A layer of the table has, for each cell, the best worth of the choices that reach it and the code of that choice. A
//! row has the cells of equal active values, and of each row only the stretch that was reached is read and written.

mod frames;

use crate::reference::Refusal;
use crate::Answer;
use frames::{Book, Level, Load, SLOTS};

const MOST_CELLS: usize = 1 << 20;

/// A row has at least twice as many cells as there are rows, and rows × width is at most 1,048,576.
const MOST_ROWS: usize = 724;

/// Added to the worth of every reached cell. A smaller number means an empty cell, also after worths are added to it.
const REACHED: u64 = 1 << 32;

/// The sheet of the plan, or the first refusal of 1 to 12 and 17.
pub fn plan(book: &[u8], work: &mut [u64], sheet: &mut [u8]) -> Answer {
    plan_or_refusal(book, work, sheet).unwrap_or_else(|refusal| Answer {
        number: refusal.number,
        line: refusal.line,
        ..Answer::default()
    })
}

fn plan_or_refusal(bytes: &[u8], work: &mut [u64], sheet: &mut [u8]) -> Result<Answer, Refusal> {
    let refuse = |number| Refusal { number, line: 0 };
    let book = frames::read(bytes)?;
    let grid = Grid::new(&book).ok_or(refuse(9))?;
    let cells = grid.rows * grid.width;
    let work = work.get_mut(..4 * cells).ok_or(refuse(10))?;
    let sheet = sheet.get_mut(..book.sheet_bytes()).ok_or(refuse(11))?;
    let (first, second) = work.split_at_mut(2 * cells);
    let (mut first, mut second) = (Layer::new(first), Layer::new(second));
    let (last, trials) = search(&book, &grid, &mut first, &mut second).ok_or(refuse(12))?;
    let (worth, code) = best(&book, &grid, last).ok_or(refuse(17))?;
    frames::write(&book, code, worth, trials, sheet);
    Ok(Answer {
        bytes: sheet.len() as u64,
        worth,
        trials,
        ..Answer::default()
    })
}

/// Where the cells of a book lie: at row × width + column, by active and by reactive values, the last slot's closest.
struct Grid {
    slots: usize,
    steps: [i64; SLOTS],
    bounds: [i64; SLOTS],
    /// The number of reactive values of a slot; the lowest is -r(R + N).
    spans: [i64; SLOTS],
    lowest: [i64; SLOTS],
    row_weights: [i64; SLOTS],
    column_weights: [i64; SLOTS],
    rows: usize,
    width: usize,
    /// The column before any load is counted.
    origin: usize,
}

impl Grid {
    /// Nothing if there are too many cells.
    fn new(book: &Book) -> Option<Grid> {
        let (loads, r) = (book.loads().len() as i64, book.ratio);
        let mut grid = Grid {
            slots: book.slots,
            steps: [1; SLOTS],
            bounds: [0; SLOTS],
            spans: [1; SLOTS],
            lowest: [0; SLOTS],
            row_weights: [0; SLOTS],
            column_weights: [0; SLOTS],
            rows: 1,
            width: 1,
            origin: 0,
        };
        for slot in (0..book.slots).rev() {
            let limit = book.limits[slot];
            let step = (limit / (loads * book.fineness)).max(1);
            let bound = limit / step;
            grid.steps[slot] = step;
            grid.bounds[slot] = bound;
            grid.spans[slot] = 2 * r * bound + (2 * r - 1) * loads + 1;
            grid.lowest[slot] = -r * (bound + loads);
            grid.row_weights[slot] = grid.rows as i64;
            grid.column_weights[slot] = grid.width as i64;
            grid.origin += (r * (bound + loads)) as usize * grid.width;
            grid.rows *= (bound + 1) as usize;
            grid.width *= grid.spans[slot] as usize;
            if grid.rows * grid.width > MOST_CELLS {
                return None;
            }
        }
        Some(grid)
    }

    /// The active values of the row after one with these.
    fn next_row(&self, active: &mut [i64; SLOTS]) {
        for slot in (0..self.slots).rev() {
            if active[slot] < self.bounds[slot] {
                active[slot] += 1;
                return;
            }
            active[slot] = 0;
        }
    }

    fn admits(&self, book: &Book, active: &[i64; SLOTS], column: usize) -> bool {
        (0..self.slots).all(|slot| {
            let (step, limit) = (self.steps[slot], book.limits[slot]);
            let spread = book.loads().len() as i64 * (step - 1);
            let b = column as i64 / self.column_weights[slot] % self.spans[slot] + self.lowest[slot];
            let p = active[slot] * step;
            let q = 0.clamp(b * step, b * step + spread);
            p * p + q * q <= limit * limit
        })
    }
}

/// What a level does in the table.
#[derive(Clone, Copy, Default)]
struct Move {
    active: [i64; SLOTS],
    rows: usize,
    columns: isize,
    worth: u64,
    code: u64,
}

impl Move {
    /// Leads to no row: standing, for a load that must run.
    const NONE: Move = Move {
        active: [i64::MAX; SLOTS],
        rows: 0,
        columns: 0,
        worth: 0,
        code: 0,
    };

    fn new(grid: &Grid, level: &Level, code: u64) -> Move {
        let mut step = Move {
            worth: level.worth,
            code,
            ..Move::default()
        };
        for slot in 0..grid.slots {
            let a = level.active[slot] / grid.steps[slot];
            let b = level.reactive[slot].div_euclid(grid.steps[slot]);
            step.active[slot] = a;
            step.rows += (a * grid.row_weights[slot]) as usize;
            step.columns += (b * grid.column_weights[slot]) as isize;
        }
        step
    }

    /// Whether a row with these active values can be reached by this move.
    fn leads_to(&self, active: &[i64; SLOTS]) -> bool {
        self.active.iter().zip(active).all(|(rise, a)| rise <= a)
    }
}

/// The columns of a row from `low` to `high` - 1.
#[derive(Clone, Copy, Default)]
struct Stretch {
    low: usize,
    high: usize,
}

impl Stretch {
    fn is_empty(&self) -> bool {
        self.low == self.high
    }

    fn moved(&self, columns: isize) -> Stretch {
        Stretch {
            low: self.low.wrapping_add_signed(columns),
            high: self.high.wrapping_add_signed(columns),
        }
    }

    fn joined(&self, other: Stretch) -> Stretch {
        match self.is_empty() {
            true => other,
            false => Stretch {
                low: self.low.min(other.low),
                high: self.high.max(other.high),
            },
        }
    }
}

/// One layer of the table; what lies outside the reached stretches has no meaning.
struct Layer<'a> {
    worth: &'a mut [u64],
    code: &'a mut [u64],
    reached: [Stretch; MOST_ROWS],
}

impl<'a> Layer<'a> {
    fn new(words: &'a mut [u64]) -> Layer<'a> {
        let (worth, code) = words.split_at_mut(words.len() / 2);
        Layer {
            worth,
            code,
            reached: [Stretch::default(); MOST_ROWS],
        }
    }

    /// Worth and code of a stretch of the row that starts at this cell.
    fn cells(&self, start: usize, stretch: Stretch) -> (&[u64], &[u64]) {
        let cells = start + stretch.low..start + stretch.high;
        (&self.worth[cells.clone()], &self.code[cells])
    }

    fn cells_mut(&mut self, start: usize, stretch: Stretch) -> (&mut [u64], &mut [u64]) {
        let cells = start + stretch.low..start + stretch.high;
        (&mut self.worth[cells.clone()], &mut self.code[cells])
    }
}

/// The layer after all loads, and the trials; nothing once they are over the budget.
fn search<'l, 'w>(
    book: &Book,
    grid: &Grid,
    first: &'l mut Layer<'w>,
    second: &'l mut Layer<'w>,
) -> Option<(&'l Layer<'w>, u64)> {
    let (mut now, mut next) = (first, second);
    now.reached[0] = Stretch {
        low: grid.origin,
        high: grid.origin + 1,
    };
    now.worth[grid.origin] = REACHED;
    now.code[grid.origin] = 0;
    let (mut trials, mut reached) = (0, 1);
    for (k, load) in book.loads().iter().enumerate() {
        trials += reached * load.choices();
        if trials > book.budget {
            return None;
        }
        reached = pass(grid, load, k, now, next);
        (now, next) = (next, now);
    }
    Some((now, trials))
}

/// Makes the layer after load k from the one before it; gives the number of cells that it reaches.
fn pass(grid: &Grid, load: &Load, k: usize, now: &Layer, next: &mut Layer) -> u64 {
    let mut moves = [Move::default(); 4];
    for (c, level) in load.levels().iter().enumerate() {
        moves[c] = Move::new(grid, level, (c as u64) << (2 * k));
    }
    if load.must_run {
        moves[0] = Move::NONE;
    }
    let moves = &moves[..load.levels().len()];
    let mut active = [0; SLOTS];
    let mut reached = 0;
    for row in 0..grid.rows {
        reached += fill_row(grid, row, &active, moves, now, next);
        grid.next_row(&mut active);
    }
    reached
}

/// Makes one row of the next layer, from those that lead to it with the load standing, its first move, and running; gives the
/// number of its cells that are reached.
fn fill_row(grid: &Grid, row: usize, active: &[i64; SLOTS], moves: &[Move], now: &Layer, next: &mut Layer) -> u64 {
    let source = |step| {
        let from = Move::leads_to(step, active).then(|| row - step.rows)?;
        (!now.reached[from].is_empty()).then_some((step, from))
    };
    let standing = source(&moves[0]);
    let running = moves[1..].iter().filter_map(source);
    let sources = standing.into_iter().chain(running.clone());
    let stretch = sources.fold(Stretch::default(), |stretch, (step, from)| {
        stretch.joined(now.reached[from].moved(step.columns))
    });
    next.reached[row] = stretch;
    if stretch.is_empty() {
        return 0;
    }
    let (worth, code) = next.cells_mut(row * grid.width, stretch);
    // The cells that a move leads from, and the place of the first that it leads to.
    let cells = |step: &Move, from: usize| {
        let held = now.reached[from];
        let at = held.moved(step.columns).low - stretch.low;
        (now.cells(from * grid.width, held), at)
    };
    match standing {
        Some((step, from)) => {
            let (from, at) = cells(step, from);
            stand(from, at, worth, code);
        }
        None => worth.fill(0),
    }
    for (step, from) in running {
        let (from, at) = cells(step, from);
        let to = at..at + from.0.len();
        offer(step, from, &mut worth[to.clone()], &mut code[to]);
    }
    worth.iter().map(|worth| worth / REACHED).sum()
}

/// Takes a stretch over as it is, from place `at` on, and empties the cells around it.
fn stand((from_worth, from_code): (&[u64], &[u64]), at: usize, worth: &mut [u64], code: &mut [u64]) {
    let end = at + from_worth.len();
    worth[..at].fill(0);
    worth[at..end].copy_from_slice(from_worth);
    worth[end..].fill(0);
    code[at..end].copy_from_slice(from_code);
}

/// Takes a level for all choices of a stretch. Levels come in ascending order, so that among equals the one there has
/// the smaller code and only a greater worth replaces it. The comparison is a difference's sign bit spread over a mask:
/// plain x86-64 has no vector comparison of 64-bit numbers, and written so, the loop is done in vectors.
fn offer(step: &Move, (from_worth, from_code): (&[u64], &[u64]), worth: &mut [u64], code: &mut [u64]) {
    let from = from_worth.iter().zip(from_code);
    for ((from_worth, from_code), (worth, code)) in from.zip(worth.iter_mut().zip(code)) {
        let offered = from_worth + step.worth;
        let better = (worth.wrapping_sub(offered) >> 63).wrapping_neg();
        *worth ^= (*worth ^ offered) & better;
        *code ^= (*code ^ from_code.wrapping_add(step.code)) & better;
    }
}

/// Worth and code of the best cell that every slot admits, if there is one.
fn best(book: &Book, grid: &Grid, layer: &Layer) -> Option<(u64, u64)> {
    let (mut best_worth, mut best_code) = (REACHED - 1, 0);
    let mut active = [0; SLOTS];
    for row in 0..grid.rows {
        let stretch = layer.reached[row];
        let (worth, code) = layer.cells(row * grid.width, stretch);
        for ((&worth, &code), column) in worth.iter().zip(code).zip(stretch.low..) {
            let better = worth > best_worth || (worth == best_worth && code < best_code);
            if better && grid.admits(book, &active, column) {
                (best_worth, best_code) = (worth, code);
            }
        }
        grid.next_row(&mut active);
    }
    Some((best_worth.checked_sub(REACHED)?, best_code))
}

#[cfg(test)]
mod tests {
    use super::*;
    use crate::damage::fault;
    use crate::draw::{self, Bounds, ANY_RATIO};
    use crate::random::Random;
    use crate::reference::Case;
    use crate::SHEET_MAX;

    const BOUNDS: Bounds = Bounds {
        fewest_loads: 1,
        least_fineness: 1,
        loads: 12,
        choices: 10_000,
        cells: 5_000,
        ratios: ANY_RATIO,
    };

    /// The same answers and sheets as the reference, on right and on damaged books.
    #[test]
    fn plans_as_the_reference() {
        let mut random = Random::new(5);
        let mut work = vec![0; 4 * BOUNDS.cells as usize];
        for _ in 0..3_000 {
            let mut text = draw::text(&draw::book(&mut random, BOUNDS));
            if random.one_in(3) {
                let refusal = 1 + random.below(8);
                fault(&mut random, &mut text, refusal);
            }
            let mut sheet = vec![0; random.pick(&[80, SHEET_MAX])];
            let expected = Case::new(text.clone()).plan(work.len(), sheet.len());
            let answer = plan(&text, &mut work, &mut sheet);
            assert_eq!(answer, expected.answer.first);
            assert!(sheet.starts_with(&expected.sheet));
        }
    }
}
