//! The kinds of inputs that the archive is compared on. A run of a kind makes one call or more.

pub mod days;
pub mod pool;
mod ratios;
mod strict;

use crate::call::Input;
use crate::damage::{changed, fault, of_each_kind, plausible, reorder, shift, STYLES};
use crate::draw::{self, Bounds, Eighths, ANY_RATIO};
use crate::random::Random;
use crate::reference::book::Book;
use crate::reference::{must_run, plan, quick, sheet, Case, MOST_CELLS};
use crate::session::Session;
use crate::VIEW_MAX;

pub struct Kind {
    pub name: &'static str,
    /// The part of all inputs that is of this kind, in 10,000ths.
    pub share: u64,
    pub run: fn(&mut Session),
}

pub const KINDS: &[Kind] = &[
    kind("small books", 440, small_books),
    kind("larger grids", 80, larger_grids),
    kind("many loads", 120, many_loads),
    kind("large tables", 20, large_tables),
    kind("budgets", 310, budgets),
    kind("work areas", 220, work_areas),
    kind("sheet buffers", 220, buffers),
    kind("several shortages", 220, shortages),
    kind("words of earlier plans", 210, earlier_words),
    kind("oversize books", 160, too_many_cells),
    kind("1,048,576 cells", 2, full_tables),
    kind("one fault", 360, one_fault),
    kind("two faults", 350, two_faults),
    kind("truncated books", 370, truncated_books),
    kind("a byte changed", 610, changed_books),
    kind("bytes inserted, deleted", 180, shifted_books),
    kind("lines exchanged", 140, reordered_books),
    kind("random bytes", 90, random_bytes),
    kind("random digits", 90, random_digits),
    kind("sheets of choices", 150, sheets_of_choices),
    kind("sheets, a byte changed", 150, changed_sheets),
    kind("sheets, cut or longer", 90, cut_sheets),
    kind("sheets of other books", 45, foreign_sheets),
    kind("sheets, level above o", 43, levels_above),
    kind("charges", 80, charges),
    kind("charges, exact halves", 60, exact_halves),
    kind("numbers of prices", 80, price_counts),
    kind("orders", 140, orders),
    kind("orders, buffers", 80, order_buffers),
    kind("orders, names", 80, order_names),
    kind("views", 100, views),
    kind("views, buffers", 100, view_buffers),
    kind("views of twins", 90, views_of_twins),
    kind("views as sheets", 45, views_as_sheets),
    kind("no choice admitted", 150, none_admitted),
    kind("running draws less", 110, running_draws_less),
    kind("standing draws nothing", 120, standing_draws_nothing),
    kind("passed over, fits later", 45, fits_later),
    kind("longest books", 10, longest_books),
    kind("must run, none admitted", 130, must_run_none_admitted),
    kind("must run, crowding out", 100, must_run_crowds_out),
    kind("must run, start too large", 110, must_run_start_too_large),
    kind("sheets, must run stands", 110, must_run_stands),
    kind("kinds of lines", 120, line_kinds),
    kind("every header", 130, ratios::every_header),
    kind("r = 1, both kinds", 120, ratios::one_by_both_kinds),
    kind("|Q| about r x P", 180, ratios::near_ratio),
    kind("r outside 1 to 3", 130, ratios::out_of_range),
    kind("work areas by r", 140, ratios::work_areas),
    kind("loads that cancel", 140, ratios::cancelling),
    kind("strict, below the plan", 200, strict::below_the_plan),
    kind("strict, none fits", 200, strict::none_fits),
    kind("strict, not compared", 180, strict::not_compared),
    kind("strict, d = 1", 200, strict::too_coarse),
    kind("strict, by d", 130, strict::by_fineness),
    kind("days", 90, days::right_books),
    kind("days, refused books", 110, days::refused_books),
    kind("days, empty lines", 110, days::empty_lines),
    kind("days, numbers of books", 70, days::numbers_of_books),
    kind("days, long books", 50, days::long_books),
    kind("days, work areas", 90, days::work_areas),
    kind("days, one by one", 110, days::one_by_one),
    kind("days, bytes changed", 89, days::changed_days),
    kind("days, most output", 1, days::most_output),
    kind("pools, planned", 260, pool::planned),
    kind("pools, buffers", 90, pool::buffers),
    kind("pools, 21 to 23", 130, pool::refusals),
    kind("pools, faults", 140, pool::faults),
    kind("pools, 24 loads", 90, pool::load_counts),
    kind("pools, limit sums", 90, pool::limit_sums),
    kind("pools, headers", 120, pool::headers),
    kind("pools of three", 60, pool::three),
    kind("pools, longest", 20, pool::longest),
];

const fn kind(name: &'static str, share: u64, run: fn(&mut Session)) -> Kind {
    Kind { name, share, run }
}

/// Runs kinds until so many inputs were compared, each kind by its share; gives the inputs of each kind.
pub fn run(session: &mut Session, inputs: u64) -> Vec<u64> {
    let mut done = vec![0; KINDS.len()];
    while session.inputs() < inputs {
        let behind = |&i: &usize| done[i] * 10_000 / KINDS[i].share;
        let next = (0..KINDS.len()).min_by_key(behind).expect("there are kinds");
        let before = session.inputs();
        (KINDS[next].run)(session);
        done[next] += session.inputs() - before;
    }
    done
}

/// Books that the reference plans in both ways.
pub const SMALL: Bounds = Bounds {
    fewest_loads: 1,
    least_fineness: 1,
    loads: 9,
    choices: 1_200,
    cells: 3_000,
    ratios: ANY_RATIO,
};

/// The same that are not too coarse.
pub const FINE: Bounds = Bounds {
    least_fineness: 2,
    ..SMALL
};

const LARGER: Bounds = Bounds { cells: 60_000, ..SMALL };

const MANY: Bounds = Bounds {
    fewest_loads: 10,
    least_fineness: 1,
    loads: 24,
    choices: u64::MAX,
    cells: 5_000,
    ratios: ANY_RATIO,
};

const LARGE: Bounds = Bounds { cells: 300_000, ..MANY };

fn drawn(session: &mut Session, bounds: Bounds) -> Case {
    case(&draw::book(&mut session.random, bounds))
}

fn case(book: &Book) -> Case {
    Case::new(draw::text(book))
}

/// The words that a plan needs. Books that grew large by damage get few, and the work area is too small (10).
fn needed_words(case: &Case) -> usize {
    match 4 * case.cells() {
        need @ 0..=250_000 => need as usize,
        _ => 1_000,
    }
}

/// Any choice of the book.
pub fn random_choice(random: &mut Random, book: &Book) -> Vec<usize> {
    let setting = |load| {
        let settings: Vec<usize> = must_run::settings(load).collect();
        random.pick(&settings)
    };
    book.loads.iter().map(setting).collect()
}

fn random_sheet(random: &mut Random, book: &Book) -> Vec<u8> {
    let any = random.word() >> 32;
    let trials = random.pick(&[0, 1, 0xFFFF_FFFF, any, any]);
    let choice = random_choice(random, book);
    sheet::write(book, &choice, trials)
}

/// A price: often one at which an odd P of the slot costs an exact half.
fn price(random: &mut Random) -> u16 {
    let any = random.word() as u16;
    random.pick(&[0, 1, 2, 20, 20, 60, 100, any, any, u16::MAX])
}

fn prices(random: &mut Random, count: usize) -> Vec<u16> {
    (0..count).map(|_| price(random)).collect()
}

/// A name for each load: none, or one of a higher load, which runs in this choice where it is to be `reachable`.
fn names(random: &mut Random, planned: &[usize], reachable: bool) -> Vec<u8> {
    let loads = planned.len();
    let name = |k: usize| {
        let higher: Vec<usize> = (k + 1..=loads).filter(|j| !reachable || planned[j - 1] > 0).collect();
        match higher.len() {
            0 => 0,
            _ if random.one_in(4) => 0,
            _ => random.pick(&higher) as u8,
        }
    };
    (1..=loads).map(name).collect()
}

/// The plan's choice, or any where no choice is admitted.
fn planned_choice(random: &mut Random, case: &Case, book: &Book) -> Vec<usize> {
    let planned = case.planned().plan.as_ref().map(|plan| plan.choice.clone());
    planned.unwrap_or_else(|| random_choice(random, book))
}

/// All calls on a valid book, with more lent than is needed.
fn all_calls(session: &mut Session, case: &Case) {
    let Ok(book) = &case.book else { return };
    let words = 4 * case.cells() as usize + session.random.below(50);
    let buffer = case.sheet_bytes() + session.random.below(50);
    session.plan_both(case, words, buffer);
    session.day(case, words, buffer);
    session.quick(case, buffer);
    let choice = planned_choice(&mut session.random, case, book);
    let planned = sheet::write(book, &choice, case.planned().trials);
    session.read_sheet(case, &planned);
    session.read_sheet(case, &case.quick(buffer).sheet);
    let prices = prices(&mut session.random, book.limits.len());
    session.charge(case, &planned, &prices);
    let running = random_sheet(&mut session.random, book);
    let names = names(&mut session.random, &choice, true);
    session.order(case, [&running, &planned], &names, book.loads.len());
    for (view, need) in view_calls(case, &planned) {
        view(session, case, &planned, need + 1);
    }
}

/// The calls on bytes that may be no book.
const CALLS: [fn(&mut Session, &Case); 10] = [
    plan_any,
    strict_any,
    quick_any,
    read_any,
    charge_any,
    order_any,
    mill_view_any,
    supply_view_any,
    days::day_any,
    pool::pool_any,
];

fn one_call(session: &mut Session, case: &Case) {
    let call = session.random.pick(&CALLS);
    call(session, case);
}

fn each_call(session: &mut Session, case: &Case) {
    for call in CALLS {
        call(session, case);
    }
}

fn plan_any(session: &mut Session, case: &Case) {
    let words = needed_words(case) + session.random.below(20);
    let buffer = case.sheet_bytes() + session.random.below(20);
    session.plan(case, words, buffer);
}

fn strict_any(session: &mut Session, case: &Case) {
    let words = needed_words(case) + session.random.below(20);
    let buffer = case.sheet_bytes() + session.random.below(20);
    session.plan_strict(case, words, buffer);
}

fn quick_any(session: &mut Session, case: &Case) {
    let buffer = case.sheet_bytes() + session.random.below(20);
    session.quick(case, buffer);
}

fn read_any(session: &mut Session, case: &Case) {
    let sheet = any_sheet(&mut session.random, case);
    session.read_sheet(case, &sheet);
}

fn charge_any(session: &mut Session, case: &Case) {
    let sheet = any_sheet(&mut session.random, case);
    let count = session.random.below(6);
    let prices = prices(&mut session.random, count);
    session.charge(case, &sheet, &prices);
}

fn order_any(session: &mut Session, case: &Case) {
    let [running, planned] = [(); 2].map(|_| any_sheet(&mut session.random, case));
    let loads = case
        .book
        .as_ref()
        .map_or(session.random.below(25), |book| book.loads.len());
    let names = names(&mut session.random, &vec![1; loads], false);
    let buffer = session.random.below(25);
    session.order(case, [&running, &planned], &names, buffer);
}

fn mill_view_any(session: &mut Session, case: &Case) {
    let sheet = any_sheet(&mut session.random, case);
    let buffer = session.random.below(120);
    session.mill_view(case, &sheet, buffer);
}

fn supply_view_any(session: &mut Session, case: &Case) {
    let sheet = any_sheet(&mut session.random, case);
    let buffer = session.random.below(120);
    session.supply_view(case, &sheet, buffer);
}

/// A sheet of a book that was read, or else bytes.
fn any_sheet(random: &mut Random, case: &Case) -> Vec<u8> {
    match &case.book {
        Ok(book) => random_sheet(random, book),
        Err(_) => {
            let bytes = case.sheet_bytes() + random.below(20);
            (0..bytes).map(|_| plausible(random)).collect()
        }
    }
}

fn small_books(session: &mut Session) {
    let case = drawn(session, SMALL);
    all_calls(session, &case);
}

fn larger_grids(session: &mut Session) {
    let case = drawn(session, LARGER);
    all_calls(session, &case);
}

fn many_loads(session: &mut Session) {
    let case = drawn(session, MANY);
    all_calls(session, &case);
    let trials = case.planned().trials;
    for budget in [trials, trials - 1] {
        let case = case.with_budget(budget);
        session.plan_both(&case, needed_words(&case), case.sheet_bytes());
    }
}

fn large_tables(session: &mut Session) {
    let mut draw = || drawn(session, LARGE);
    let mut case = draw();
    while case.cells() < LARGE.cells / 10 {
        case = draw();
    }
    all_calls(session, &case);
}

fn budgets(session: &mut Session) {
    let case = drawn(session, SMALL);
    let trials = case.planned().trials;
    let below = session.random.below(trials as usize) as u64;
    for budget in [trials, trials - 1, trials + 1, 0, 0xFFFF_FFFF, below] {
        let case = case.with_budget(budget);
        session.plan_both(&case, needed_words(&case), case.sheet_bytes());
    }
}

fn work_areas(session: &mut Session) {
    let case = drawn(session, SMALL);
    let need = needed_words(&case);
    let (below, more) = (session.random.below(need), session.random.below(300));
    for words in [need, need - 1, need + 1, need + more, below, 0] {
        session.plan_both(&case, words, case.sheet_bytes());
    }
}

fn buffers(session: &mut Session) {
    let case = drawn(session, SMALL);
    let need = case.sheet_bytes();
    let (below, more) = (session.random.below(need), session.random.below(300));
    for buffer in [need, need - 1, need + 1, need + more, below, 0] {
        session.plan_both(&case, needed_words(&case), buffer);
        session.quick(&case, buffer);
    }
}

fn shortages(session: &mut Session) {
    let case = drawn(session, SMALL);
    all_shortages(session, &case);
}

/// Too few words, too short a buffer and too small a budget at once, in all mixtures: which refusal comes first?
fn all_shortages(session: &mut Session, case: &Case) {
    let (words, buffer) = (needed_words(case), case.sheet_bytes());
    let trials = case.planned().trials;
    for mixture in 0..8 {
        let short = |bit: usize| mixture >> bit & 1;
        let case = case.with_budget(trials - short(2) as u64);
        session.plan_both(&case, words - short(0), buffer - short(1));
    }
}

/// The same plans with other words in the work area, and with those that a plan left: no answer depends on them.
fn earlier_words(session: &mut Session) {
    let case = drawn(session, SMALL);
    let (words, buffer) = (needed_words(&case), case.sheet_bytes());
    let first = session.plan(&case, words, buffer);
    let strict = session.strict_over(&case, first.work.part(), buffer);
    session.plan_over(&case, strict.work.part(), buffer);
    let other = drawn(session, SMALL);
    let before = session.plan(&other, words.max(needed_words(&other)), other.sheet_bytes());
    session.plan_over(&case, &before.work.part()[..words], buffer);
    session.strict_over(&case, &before.work.part()[..words], buffer);
}

/// The planners with a work area refuse them, also where words or buffer are short too; the quick planner and the sheet reader do
/// not.
fn too_many_cells(session: &mut Session) {
    let mut book = draw::too_many_cells(&mut session.random);
    book.budget = session.random.pick(&[0, 100, 0xFFFF_FFFF]);
    let case = case(&book);
    let buffer = session.random.pick(&[0, case.sheet_bytes()]);
    let words = session.random.below(2_000);
    session.plan_both(&case, words, buffer);
    session.quick(&case, case.sheet_bytes());
    let sheet = random_sheet(&mut session.random, &book);
    session.read_sheet(&case, &sheet);
}

/// The largest table that is let through, with its words and with one word less.
fn full_tables(session: &mut Session) {
    let case = case(&draw::full_table(&mut session.random));
    let need = 4 * MOST_CELLS as usize;
    session.plan_both(&case, need, case.sheet_bytes());
    session.plan_both(&case, need - 1, case.sheet_bytes());
}

fn one_fault(session: &mut Session) {
    faulty_book(session, 1);
}

fn two_faults(session: &mut Session) {
    faulty_book(session, 2);
}

/// A book with faults, each aimed at one refusal of 1 to 8.
fn faulty_book(session: &mut Session, faults: usize) {
    let mut text = draw::text(&draw::book(&mut session.random, SMALL));
    for _ in 0..faults {
        let refusal = 1 + session.random.below(8);
        fault(&mut session.random, &mut text, refusal);
    }
    let case = Case::new(text);
    (0..3).for_each(|_| one_call(session, &case));
}

/// Every length that a book can be cut to, in each call.
fn truncated_books(session: &mut Session) {
    let text = draw::text(&draw::book(&mut session.random, SMALL));
    for length in 0..text.len() {
        each_call(session, &Case::new(text[..length].to_vec()));
    }
}

/// Every byte of a book changed in turn, in one style, each change in each call.
fn changed_books(session: &mut Session) {
    let text = draw::text(&draw::book(&mut session.random, SMALL));
    let style = session.random.below(STYLES);
    for at in 0..text.len() {
        let mut text = text.clone();
        text[at] = changed(&mut session.random, text[at], style);
        each_call(session, &Case::new(text));
    }
}

fn shifted_books(session: &mut Session) {
    let mut text = draw::text(&draw::book(&mut session.random, SMALL));
    shift(&mut session.random, &mut text);
    one_call(session, &Case::new(text));
}

fn reordered_books(session: &mut Session) {
    let mut text = draw::text(&draw::book(&mut session.random, SMALL));
    reorder(&mut session.random, &mut text);
    one_call(session, &Case::new(text));
}

fn random_bytes(session: &mut Session) {
    let random = &mut session.random;
    let text = (0..random.below(60)).map(|_| random.word() as u8).collect();
    one_call(session, &Case::new(text));
}

/// Digits and LFs after the start of a header or of nothing.
fn random_digits(session: &mut Session) {
    let random = &mut session.random;
    let start = random.pick(&[
        b"" as &[u8],
        b"0",
        b"01",
        b"0101",
        b"010101",
        b"0801",
        b"0801010103",
        b"0101010100000020FFFF\n0201",
        b"0101010100000020FFFF\n0601",
        b"0101010100000020FFFF\n0701",
        b"080101010300000020FFFF\n0201",
    ]);
    let mut text = start.to_vec();
    text.extend((0..random.below(60)).map(|_| plausible(random)));
    text.push(b'\n');
    one_call(session, &Case::new(text));
}

/// Sheets of any choice with any trials number: the reader does not judge.
fn sheets_of_choices(session: &mut Session) {
    let case = drawn(session, MANY);
    let Ok(book) = &case.book else { return };
    for _ in 0..5 {
        let sheet = random_sheet(&mut session.random, book);
        session.read_sheet(&case, &sheet);
    }
}

/// A small book's case and a sheet of it.
fn case_and_sheet(session: &mut Session) -> (Case, Vec<u8>) {
    let book = draw::book(&mut session.random, SMALL);
    let sheet = random_sheet(&mut session.random, &book);
    (case(&book), sheet)
}

/// Every byte of a sheet changed in turn, in one style.
fn changed_sheets(session: &mut Session) {
    let (case, sheet) = case_and_sheet(session);
    let style = session.random.below(STYLES);
    for at in 0..sheet.len() {
        let mut sheet = sheet.clone();
        sheet[at] = changed(&mut session.random, sheet[at], style);
        session.read_sheet(&case, &sheet);
    }
}

/// Every length that a sheet can be cut to, and some bytes more.
fn cut_sheets(session: &mut Session) {
    let (case, mut sheet) = case_and_sheet(session);
    for length in 0..sheet.len() {
        session.read_sheet(&case, &sheet[..length]);
    }
    for _ in 0..3 {
        sheet.push(plausible(&mut session.random));
        session.read_sheet(&case, &sheet);
    }
}

/// A sheet of another book, and of a book that differs in one limit, worth or power.
fn foreign_sheets(session: &mut Session) {
    let (case, _) = case_and_sheet(session);
    let (other, sheet) = case_and_sheet(session);
    session.read_sheet(&case, &sheet);
    let mut text = other.text.clone();
    let at = session.random.below(text.len());
    text[at] = changed(&mut session.random, text[at], 4);
    session.read_sheet(&Case::new(text), &sheet);
}

/// Sheets that are right but for one c above its load's o.
fn levels_above(session: &mut Session) {
    let (case, mut sheet) = case_and_sheet(session);
    let Ok(book) = &case.book else { return };
    let k = session.random.below(book.loads.len());
    let above = book.loads[k].levels.len() + 1;
    let c = session.random.pick(&[above, 3, 4, 5, 7, 8, 16, 255]);
    sheet[18 + 2 * k..20 + 2 * k].copy_from_slice(format!("{c:02X}").as_bytes());
    session.read_sheet(&case, &sheet);
}

/// Charges of sheets of any choice, with a price for each slot.
fn charges(session: &mut Session) {
    let case = drawn(session, MANY);
    let Ok(book) = &case.book else { return };
    for _ in 0..5 {
        let sheet = random_sheet(&mut session.random, book);
        let prices = prices(&mut session.random, book.limits.len());
        session.charge(&case, &sheet, &prices);
    }
}

/// Charges at odd multiples of 20, at which an odd sum of P over all slots gives an exact half.
fn exact_halves(session: &mut Session) {
    let case = drawn(session, MANY);
    let Ok(book) = &case.book else { return };
    for _ in 0..5 {
        let sheet = random_sheet(&mut session.random, book);
        let price = |_: &_| 20 * (2 * session.random.below(1_638) as u16 + 1);
        let prices: Vec<u16> = book.limits.iter().map(price).collect();
        session.charge(&case, &sheet, &prices);
    }
}

/// Any number of prices, with a sheet of the book and with a foreign one: 13 comes before 14.
fn price_counts(session: &mut Session) {
    let (case, sheet) = case_and_sheet(session);
    let foreign = sheet::write(case.book.as_ref().expect("a valid book"), &[], 0);
    for count in 0..=5 {
        let prices = prices(&mut session.random, count);
        session.charge(&case, &sheet, &prices);
        session.charge(&case, &foreign, &prices);
    }
}

/// A book of many loads, two sheets of it, and the second's choice.
fn two_sheets(session: &mut Session) -> (Case, [Vec<u8>; 2], Vec<usize>) {
    let case = drawn(session, MANY);
    let book = case.book.as_ref().expect("a valid book");
    let running = random_sheet(&mut session.random, book);
    let choice = random_choice(&mut session.random, book);
    let planned = sheet::write(book, &choice, 0);
    (case, [running, planned], choice)
}

/// Orders from any choice to any other: with names that can be met, and with any (16).
fn orders(session: &mut Session) {
    let (case, [running, planned], choice) = two_sheets(session);
    for reachable in [true, true, true, false] {
        let names = names(&mut session.random, &choice, reachable);
        session.order(&case, [&running, &planned], &names, choice.len());
    }
    let names = names(&mut session.random, &choice, true);
    session.order(&case, [&planned, &planned], &names, 0);
}

/// Every length of the buffer up to one more than the order needs, and with any names, of which some are not met: 16 comes before 11.
fn order_buffers(session: &mut Session) {
    let (case, [running, planned], choice) = two_sheets(session);
    let fitting = names(&mut session.random, &choice, true);
    let any = names(&mut session.random, &choice, false);
    let need = case.order(&running, &planned, &fitting, choice.len()).sheet.len();
    for buffer in 0..=need + 1 {
        session.order(&case, [&running, &planned], &fitting, buffer);
        session.order(&case, [&running, &planned], &any, buffer);
    }
}

/// Lists of any length, and each name in turn a wrong one; also with names that are not met, and with a foreign sheet: 13 comes
/// before 15, and 15 before 16.
fn order_names(session: &mut Session) {
    let (case, [running, planned], choice) = two_sheets(session);
    let foreign = &planned[1..];
    let reachable = session.random.one_in(2);
    let good = names(&mut session.random, &choice, reachable);
    for length in 0..=choice.len() + 1 {
        let list: Vec<u8> = good.iter().copied().chain([0]).take(length).collect();
        session.order(&case, [&running, &planned], &list, choice.len());
    }
    for at in 0..choice.len() {
        let not_above = 1 + session.random.below(at + 1) as u8;
        let mut list = good.clone();
        list[at] = session
            .random
            .pick(&[not_above, not_above, choice.len() as u8 + 1, 25, 255]);
        let sheets = session
            .random
            .pick(&[[&running[..], &planned], [&running, foreign], [foreign, &planned]]);
        session.order(&case, sheets, &list, 0);
    }
}

/// The mill's view of a sheet, and the supply company's.
fn views_of(case: &Case, sheet: &[u8]) -> [Vec<u8>; 2] {
    [Case::mill_view, Case::supply_view].map(|view| view(case, sheet, usize::MAX).sheet)
}

/// A call for a view, and the bytes that the view needs.
type ViewCall = (fn(&mut Session, &Case, &[u8], usize), usize);

/// The calls for both views of a sheet.
fn view_calls(case: &Case, sheet: &[u8]) -> [ViewCall; 2] {
    let [mill, supply] = views_of(case, sheet).map(|view| view.len());
    [(Session::mill_view, mill), (Session::supply_view, supply)]
}

/// Views of sheets on which no load runs but those that must, on which all run at their highest levels, and of any choice. The
/// books are oversize, so that slots and loads can be many at once; a view does not refuse them.
fn views(session: &mut Session) {
    let book = draw::too_many_cells(&mut session.random);
    let case = case(&book);
    let fewest = must_run::start(&book);
    let highest = book.loads.iter().map(|load| load.levels.len()).collect();
    let any = [(); 3].map(|_| random_choice(&mut session.random, &book));
    for choice in [fewest, highest].iter().chain(&any) {
        let sheet = sheet::write(&book, choice, session.random.word() >> 32);
        for (view, need) in view_calls(&case, &sheet) {
            view(session, &case, &sheet, need);
        }
    }
}

/// Buffers around what a view needs, with a sheet of the book and with a byte of it changed, which mostly makes it foreign: 13
/// comes before 11.
fn view_buffers(session: &mut Session) {
    let (case, sheet) = case_and_sheet(session);
    for (view, need) in view_calls(&case, &sheet) {
        let (below, more) = (session.random.below(need), session.random.below(300));
        for buffer in [need, need - 1, need + 1, need + more, below, 0] {
            view(session, &case, &sheet, buffer);
            let mut sheet = sheet.clone();
            let (at, style) = (session.random.below(sheet.len()), session.random.below(STYLES));
            sheet[at] = changed(&mut session.random, sheet[at], style);
            view(session, &case, &sheet, buffer);
        }
    }
}

/// Two sheets with equal slot sums and limits, though loads, worths and trials differ: the supply company sees the same.
fn views_of_twins(session: &mut Session) {
    let random = &mut session.random;
    let book = draw::book(random, SMALL);
    let choice = random_choice(random, &book);
    let (twin, twin_choice) = draw::twin(random, &book, &choice);
    let sheets = [(&book, choice), (&twin, twin_choice)]
        .map(|(book, choice)| (case(book), sheet::write(book, &choice, random.word() >> 32)));
    let [(first, sheet), _] = &sheets;
    let need = first.supply_view(sheet, usize::MAX).sheet.len();
    let below = random.below(need);
    for buffer in [need, need - 1, need + 1, below, 0] {
        session.supply_views(&sheets, buffer);
    }
}

/// Each view of a sheet in place of a sheet, in every call that takes one: 13.
fn views_as_sheets(session: &mut Session) {
    let (case, [running, planned], choice) = two_sheets(session);
    let book = case.book.as_ref().expect("a valid book");
    let prices = prices(&mut session.random, book.limits.len());
    let names = names(&mut session.random, &choice, true);
    for view in views_of(&case, &planned) {
        session.read_sheet(&case, &view);
        session.charge(&case, &view, &prices);
        for sheets in [[&view, &planned], [&running, &view]] {
            session.order(&case, sheets.map(Vec::as_slice), &names, choice.len());
        }
        session.mill_view(&case, &view, VIEW_MAX);
        session.supply_view(&case, &view, VIEW_MAX);
    }
}

/// What loads draw standing, one of several amounts, and running.
type Amounts<'a> = (&'a [Eighths], Eighths);

/// A small book of which this holds, drawn again until it does.
fn found(session: &mut Session, draw: impl Fn(&mut Random) -> Book, holds: fn(&Case, &Book) -> bool) -> Case {
    loop {
        let book = draw(&mut session.random);
        let case = case(&book);
        if holds(&case, &book) {
            return case;
        }
    }
}

/// A small book of loads that draw so much standing and running, of which this holds.
fn heated(session: &mut Session, amounts: &[Amounts], holds: fn(&Case, &Book) -> bool) -> Case {
    found(session, |random| heated_book(random, amounts), holds)
}

fn heated_book(random: &mut Random, amounts: &[Amounts]) -> Book {
    let (standing, running) = &amounts[random.below(amounts.len())];
    draw::heated(random, SMALL, standing, running)
}

/// The same, but some of the loads must run, and some draw nothing standing.
fn ventilated(session: &mut Session, amounts: &[Amounts], holds: fn(&Case, &Book) -> bool) -> Case {
    let draw = |random: &mut Random| {
        let book = heated_book(random, amounts);
        draw::with_must_run(random, &book)
    };
    found(session, draw, holds)
}

/// Books of which no choice is admitted (17).
fn none_admitted(session: &mut Session) {
    let amounts: &[Amounts] = &[(&[6..=12], 6..=12), (&[8..=16], 8..=16), (&[16..=64], 12..=64)];
    let case = heated(session, amounts, |case, _| case.planned().plan.is_none());
    refused_last(session, &case);
}

/// A book that gets 17 from the planner, the strict planner or both, also where words, buffer or budget are short too: 10, 11 and
/// 12 come before it. No answer depends on the words that it left.
fn refused_last(session: &mut Session, case: &Case) {
    all_shortages(session, case);
    let (words, buffer) = (needed_words(case) + session.random.below(50), case.sheet_bytes());
    quick_buffers(session, case);
    let first = session.plan(case, words, buffer);
    let strict = session.strict_over(case, first.work.part(), buffer + 1);
    session.plan_over(case, strict.work.part(), buffer + 1);
    let other = drawn(session, SMALL);
    let mut left = strict.work.part().to_vec();
    left.resize(needed_words(&other), 0);
    session.plan_over(&other, &left, other.sheet_bytes());
    session.strict_over(&other, &left, other.sheet_bytes());
}

/// The quick planner with a buffer that suffices and with others: 11 comes before 17.
fn quick_buffers(session: &mut Session, case: &Case) {
    let need = case.sheet_bytes();
    for buffer in [need, need - 1, need + 1, 0] {
        session.quick(case, buffer);
    }
}

/// Books in which all standing is not admitted, but some choice is: the quick planner has no sheet (17), the planner has one. All
/// standing is on a sheet that every reader of sheets takes: none of them judges.
fn running_draws_less(session: &mut Session) {
    let amounts: &[Amounts] = &[(&[8..=16], 0..=6), (&[10..=12], 6..=10), (&[6..=16], 0..=16)];
    let case = heated(session, amounts, |case, book| {
        !plan::admits(book, &vec![0; book.loads.len()]) && case.planned().plan.is_some()
    });
    all_calls(session, &case);
    session.quick(&case, case.sheet_bytes() - 1);
    let book = case.book.as_ref().expect("a valid book");
    let standing = sheet::write(book, &vec![0; book.loads.len()], 0);
    session.read_sheet(&case, &standing);
    let prices = prices(&mut session.random, book.limits.len());
    session.charge(&case, &standing, &prices);
    for (view, need) in view_calls(&case, &standing) {
        view(session, &case, &standing, need);
    }
}

/// Lines of kind `06` with zeros for standing in place of lines of kind `02`, all or some: every call leaves the same.
fn standing_draws_nothing(session: &mut Session) {
    let random = &mut session.random;
    let plain = draw::with_standing(&draw::book(random, SMALL), None);
    let mut zeros = draw::with_standing(&plain, Some(vec![(0, 0); plain.limits.len()]));
    for load in zeros.loads.iter_mut().filter(|_| random.one_in(4)) {
        load.standing = None;
    }
    all_alike(session, &plain, &zeros);
}

/// All calls on two books that mean the same, also with a budget that does not suffice.
fn all_alike(session: &mut Session, first: &Book, second: &Book) {
    let random = &mut session.random;
    let cases = [case(first), case(second)];
    let choice = random_choice(random, first);
    let [running, planned] = [random_sheet(random, first), sheet::write(first, &choice, 0)];
    let (prices, names) = (prices(random, first.limits.len()), names(random, &choice, true));
    let need = needed_words(&cases[0]);
    let words = session.words(need);
    let buffer = session.bytes(VIEW_MAX.max(cases[0].sheet_bytes()));
    for input in [
        Input::plan(&[], &words, &buffer),
        Input::plan_strict(&[], &words, &buffer),
        Input::quick(&[], &buffer),
        Input::read_sheet(&[], &planned),
        Input::charge(&[], &planned, &prices),
        Input::order(&[], &running, &planned, &names, &buffer),
        Input::mill_view(&[], &planned, &buffer),
        Input::supply_view(&[], &planned, &buffer),
        Input::day(&[], &words, &buffer),
    ] {
        session.call_alike(&cases, input);
    }
    let trials = cases[0].planned().trials;
    let spent = cases.map(|case| case.with_budget(trials - 1));
    for input in [
        Input::plan(&[], &words, &buffer),
        Input::plan_strict(&[], &words, &buffer),
    ] {
        session.call_alike(&spent, input);
    }
}

/// Books in which the quick planner passes over a load that it could take later, when others run and draw less than standing.
fn fits_later(session: &mut Session) {
    let amounts: &[Amounts] = &[(&[0..=2, 0..=2, 12..=24], 3..=8), (&[0..=1, 8..=16], 5..=9)];
    let case = heated(session, amounts, |_, book| some_fits_later(book));
    session.quick(&case, case.sheet_bytes());
    session.plan(&case, needed_words(&case), case.sheet_bytes());
}

/// Whether the quick planner leaves a load standing that it could take in the end.
fn some_fits_later(book: &Book) -> bool {
    let choice = quick::choice(book);
    choice.is_some_and(|choice| {
        let standing = |&k: &usize| choice[k] == 0;
        (0..choice.len())
            .filter(standing)
            .any(|k| quick::taken(book, &choice, k).is_some())
    })
}

/// Books with as many bytes as a book can have.
fn longest_books(session: &mut Session) {
    let case = case(&draw::longest(&mut session.random));
    each_call(session, &case);
}

/// Books of which no choice is admitted (17), but one would be if every load could stand.
fn must_run_none_admitted(session: &mut Session) {
    let amounts: &[Amounts] = &[(&[0..=4], 6..=16), (&[0..=8], 8..=16), (&[4..=8], 12..=64)];
    let case = ventilated(session, amounts, |case, _| {
        case.planned().plan.is_none() && case.free_to_stand().planned().plan.is_some()
    });
    refused_last(session, &case);
}

/// Books with a plan that is worth less than if every load could stand; with budgets of the trials, of one less, and of what the
/// trials would be then.
fn must_run_crowds_out(session: &mut Session) {
    let amounts: &[Amounts] = &[(&[0..=0], 4..=16), (&[0..=4], 2..=12), (&[4..=8], 4..=12)];
    let case = ventilated(session, amounts, |case, _| {
        let free = case.free_to_stand();
        let [planned, free] = [case, &free].map(|case| case.planned().plan.as_ref().map(|plan| plan.worth));
        planned.is_some() && planned < free
    });
    all_calls(session, &case);
    let trials = case.planned().trials;
    for budget in [trials, trials - 1, case.free_to_stand().planned().trials] {
        let case = case.with_budget(budget);
        session.plan_both(&case, needed_words(&case), case.sheet_bytes());
    }
}

/// Books with a plan, in which all standing keeps the limits, but not what the quick planner begins with (17).
fn must_run_start_too_large(session: &mut Session) {
    let amounts: &[Amounts] = &[(&[0..=0], 4..=16), (&[0..=4], 2..=16), (&[4..=10], 4..=12)];
    let case = ventilated(session, amounts, |case, book| {
        let all_standing = vec![0; book.loads.len()];
        quick::fits(book, &all_standing) && quick::choice(book).is_none() && case.planned().plan.is_some()
    });
    all_calls(session, &case);
    quick_buffers(session, &case);
}

/// Sheets that are right but that a load stands on them that must run, or every such load, in each call that takes a sheet: 13,
/// before 14, 15 and 11; and the right ones.
fn must_run_stands(session: &mut Session) {
    let bounds = session.random.pick(&[SMALL, MANY]);
    let some_must = |_: &Case, book: &Book| book.loads.iter().any(|load| load.must_run);
    let case = found(session, |random| draw::book(random, bounds), some_must);
    let book = case.book.as_ref().expect("a valid book");
    let choice = random_choice(&mut session.random, book);
    let wrong = not_all_running(&mut session.random, book, &choice);
    let [right, wrong] = [&choice, &wrong].map(|choice| sheet::write(book, choice, session.random.word() >> 32));
    for sheet in [&right, &wrong] {
        session.read_sheet(&case, sheet);
    }
    let slots = book.limits.len();
    for (sheet, count) in [(&right, slots), (&wrong, slots), (&wrong, slots + 1)] {
        let prices = prices(&mut session.random, count);
        session.charge(&case, sheet, &prices);
    }
    let names = names(&mut session.random, &choice, true);
    for sheets in [[&right, &right], [&right, &wrong], [&wrong, &right], [&wrong, &wrong]] {
        for (names, buffer) in [(&names[..], choice.len()), (&names[1..], 0)] {
            session.order(&case, sheets.map(Vec::as_slice), names, buffer);
        }
    }
    for (view, need) in view_calls(&case, &right) {
        view(session, &case, &right, need);
        view(session, &case, &wrong, need);
        view(session, &case, &wrong, 0);
    }
}

/// The choice, but one load that must run stands, or every one.
fn not_all_running(random: &mut Random, book: &Book, choice: &[usize]) -> Vec<usize> {
    let such: Vec<usize> = (0..choice.len()).filter(|&k| book.loads[k].must_run).collect();
    let (one, every) = (random.pick(&such), random.one_in(3));
    let mut choice = choice.to_vec();
    for k in such.into_iter().filter(|&k| every || k == one) {
        choice[k] = 0;
    }
    choice
}

/// Books with each kind in turn on the header or on a load line, at both lengths: refused (3, 5), another book, or the book itself.
fn line_kinds(session: &mut Session) {
    let text = draw::text(&draw::book(&mut session.random, SMALL));
    for text in of_each_kind(&mut session.random, &text) {
        each_call(session, &Case::new(text));
    }
}

#[cfg(test)]
mod tests {
    use super::*;

    #[test]
    fn shares_are_of_10_000() {
        assert_eq!(KINDS.iter().map(|kind| kind.share).sum::<u64>(), 10_000);
    }
}
