//! Books damaged on purpose: faults aimed at one refusal each, and blind changes of bytes and lines.

use crate::draw::{self, ratios};
use crate::random::Random;
use crate::reference::book::number;
use crate::reference::ratio;

/// A fault aimed at the given refusal of 1 to 8. What a damaged book is refused for in the end, the reference says.
pub fn fault(random: &mut Random, text: &mut Vec<u8>, refusal: usize) {
    match refusal {
        1 => unterminated(random, text),
        6 => header_out_of_range(random, text),
        8 => text.extend_from_slice(random.pick(&[
            b"\n" as &[u8],
            b"0",
            b"0201\n",
            b"0601\n",
            b"0701\n",
            b"\0",
            b"\n\n",
            b"\xFF\n",
        ])),
        _ => {
            let count = lines(text).len();
            if count > 0 {
                let n = random.below(count);
                fault_at(random, text, refusal, n);
            }
        }
    }
}

/// A book cut short (torn), often by its last LF alone.
fn unterminated(random: &mut Random, text: &mut Vec<u8>) {
    let left = match text.len() {
        0 => 0,
        length if random.one_in(2) => length - 1,
        length => random.below(length),
    };
    text.truncate(left);
}

/// Digits of a header, and where they are put.
type Field = (usize, &'static [u8; 2]);

/// An N or a d outside its range, or an r where the header states one (beyond).
fn header_out_of_range(random: &mut Random, text: &mut [u8]) {
    let of_every_header: [Field; 6] = [(4, b"00"), (4, b"19"), (4, b"FF"), (6, b"00"), (6, b"41"), (6, b"FF")];
    let of_ratio: [Field; 3] = [(8, b"00"), (8, b"04"), (8, b"FF")];
    let mut faults = of_every_header.to_vec();
    if ratio::stated_in(text) {
        faults.extend(of_ratio);
    }
    let (at, digits) = random.pick(&faults);
    put(text, at, digits);
}

fn put(text: &mut [u8], at: usize, digits: &[u8]) {
    if let Some(field) = text.get_mut(at..at + digits.len()) {
        field.copy_from_slice(digits);
    }
}

/// Refusals 2, 3, 4, 5 and 7, on line `n`, counted from 0.
pub fn fault_at(random: &mut Random, text: &mut Vec<u8>, refusal: usize, n: usize) {
    let (slots, r) = (slots(text), ratio_of(text));
    let mut lines = lines(text);
    let line = &mut lines[n];
    match refusal {
        2 => not_hex(random, line),
        3 if n == 0 => wrong_kind(random, line, &[b"01", b"08"]),
        3 => wrong_kind(random, line, &[b"02", b"06", b"07"]),
        4 => put(line, 2, random.pick(&[b"00", b"04", b"05", b"80", b"FF"])),
        5 => wrong_length(random, line, slots),
        _ => reactive_exceeds_active(random, line, slots, r),
    }
    *text = lines.concat();
}

/// The number of slots that the header states.
fn slots(text: &[u8]) -> usize {
    text.get(3).map_or(0, |digit| digit.wrapping_sub(b'0')) as usize
}

/// The ratio that the header states; 1 where it states none, or one outside its range.
fn ratio_of(text: &[u8]) -> i64 {
    let stated = text.get(8..10).filter(|_| ratio::stated_in(text));
    let r = stated.and_then(number).map(|r| r as i64);
    ratio::of(r.filter(|r| ratio::RANGE.contains(r)))
}

/// The lines, each with its LF.
fn lines(text: &[u8]) -> Vec<Vec<u8>> {
    text.split_inclusive(|&byte| byte == b'\n')
        .map(<[u8]>::to_vec)
        .collect()
}

/// A byte that is no digit (smudged).
fn not_hex(random: &mut Random, line: &mut [u8]) {
    let at = random.below(line.len());
    line[at] = random.pick(b"abcdefgGx/:@` \t\r\0\x7F\x80\xB0\xFF");
}

/// The kinds of a book's lines, of a sheet's and of views, those between them, and some more.
const KINDS: [&[u8; 2]; 15] = [
    b"00", b"01", b"02", b"03", b"04", b"05", b"06", b"07", b"08", b"09", b"10", b"12", b"16", b"60", b"FF",
];

/// A kind that is none of those due, or fewer than 4 digits (stray).
fn wrong_kind(random: &mut Random, line: &mut Vec<u8>, due: &[&[u8; 2]]) {
    if random.one_in(2) {
        let wrong: Vec<&[u8; 2]> = KINDS.into_iter().filter(|kind| !due.contains(kind)).collect();
        let kind = random.pick(&wrong);
        put(line, 0, kind);
    } else {
        let kept = random.below(4);
        if line.len() > kept {
            line.drain(kept..line.len() - 1);
        }
    }
}

/// Digits too many or too few, also those of the ratio or of the pairs for standing, another number of slots or options, or a kind
/// of header or load line of another length (misshapen).
fn wrong_length(random: &mut Random, line: &mut Vec<u8>, slots: usize) {
    let (at, pairs) = (line.len() - 1, 8 * slots);
    match random.below(4) {
        0 => put(line, 2, random.pick(&[b"01", b"02", b"03", b"04"])),
        1 => drop(line.splice(at..at, vec![b'0'; random.pick(&[1, 2, 4, 8, 12, pairs])])),
        2 => drop(line.drain(at.saturating_sub(random.pick(&[1, 2, 4, 8, pairs]))..at)),
        _ => {
            let kinds: &[&[u8]] = match &line[..2.min(at)] {
                b"01" => &[b"08"],
                b"08" => &[b"01"],
                b"06" => &[b"02", b"07"],
                _ => &[b"06"],
            };
            put(line, 0, random.pick(kinds));
        }
    }
}

fn draws_standing(line: &[u8]) -> bool {
    line.starts_with(b"06")
}

/// A |Q| above r × P in one slot of a load line, in an option or standing (slack).
fn reactive_exceeds_active(random: &mut Random, line: &mut [u8], slots: usize, r: i64) {
    let slots = slots.max(1);
    let (option, slot) = (4 + 8 * slots, 8 * random.below(slots));
    let first = 4 + if draws_standing(line) { 8 * slots } else { 0 };
    let options = line.len().saturating_sub(first) / option;
    let at = match draws_standing(line) && random.one_in(2) {
        true => 4 + slot,
        false => first + random.below(options.max(1)) * option + 4 + slot,
    };
    let p = random.pick(&[0, 0, 4, 4, 255, 65_535, 65_535]);
    let beyond = random.pick(&[1, 1, 1, 1, 1, 256, 32_767]);
    let pair = ratios::at(random, p, r, beyond);
    put(line, at, draw::digits(&[pair]).as_bytes());
}

/// Another value for a byte, never its own. The style, of 0 to `STYLES` - 1, selects which:
///
/// - 0: the small letter of a capital one, and `a` for any other byte
/// - 1: the value with its highest bit flipped
/// - 2, 3: the next value, the value before
/// - 4, 5, 6: a random digit (three styles, so that digits come up more often)
/// - 7: a random value
/// - 8 and up: the values of `FIXED` in their order
///
/// Where this gives the byte's own value, 4 to 7 draw again and the others go on to the next style.
pub fn changed(random: &mut Random, byte: u8, style: usize) -> u8 {
    let mut style = style;
    loop {
        let value = match style {
            0 if byte.is_ascii_uppercase() => byte.to_ascii_lowercase(),
            0 => b'a',
            1 => byte ^ 0x80,
            2 => byte.wrapping_add(1),
            3 => byte.wrapping_sub(1),
            4..=6 => random.pick(b"0123456789ABCDEF"),
            7 => random.word() as u8,
            _ => FIXED[style - 8],
        };
        if value != byte {
            return value;
        }
        if !(4..=7).contains(&style) {
            style = (style + 1) % STYLES;
        }
    }
}

/// The values of the styles from 8 up of `changed`.
const FIXED: &[u8] = b"\n\r\0\xFF /:@G`g";

/// The number of styles of `changed`.
pub const STYLES: usize = 8 + FIXED.len();

/// Inserts or deletes one to four bytes.
pub fn shift(random: &mut Random, text: &mut Vec<u8>) {
    let at = random.below(text.len() + 1);
    let count = 1 + random.below(4);
    if random.one_in(2) {
        let bytes: Vec<u8> = (0..count).map(|_| plausible(random)).collect();
        text.splice(at..at, bytes);
    } else {
        text.drain(at..text.len().min(at + count));
    }
}

/// Exchanges two lines, repeats one or drops one.
pub fn reorder(random: &mut Random, text: &mut Vec<u8>) {
    let mut lines = lines(text);
    let (i, j) = (random.below(lines.len()), random.below(lines.len()));
    match random.below(3) {
        0 => lines.swap(i, j),
        1 => lines.insert(i, lines[j].clone()),
        _ => drop(lines.remove(i)),
    }
    *text = lines.concat();
}

/// The book with each kind of headers and load lines in turn on its header, or on one of its load lines; as long as the line was,
/// where its own kind gives the book itself, and with the ratio or the pairs for standing put in or taken out.
pub fn of_each_kind(random: &mut Random, text: &[u8]) -> Vec<Vec<u8>> {
    let (lines, pairs) = (lines(text), 8 * slots(text));
    let load = 1 + random.below(lines.len() - 1);
    let n = random.pick(&[0, load]);
    let mut other = lines[n].clone();
    match (n, &other[..2]) {
        (0, b"08") => drop(other.drain(8..10)),
        (0, _) => drop(other.splice(8..8, *b"01")),
        (_, b"06") => drop(other.drain(4..4 + pairs)),
        (_, _) => drop(other.splice(4..4, vec![b'0'; pairs])),
    }
    let mut texts = Vec::new();
    for line in [&lines[n], &other] {
        for kind in [b"01", b"02", b"06", b"07", b"08"] {
            let mut lines = lines.clone();
            lines[n] = [kind, &line[2..]].concat();
            texts.push(lines.concat());
        }
    }
    texts
}

/// A digit mostly, or an LF: a byte that a reader going too far would take.
pub fn plausible(random: &mut Random) -> u8 {
    random.pick(b"0123456789ABCDEF0123456789ABCDEF\n\n")
}

#[cfg(test)]
mod tests {
    use super::*;
    use crate::draw;
    use crate::kinds::SMALL;
    use crate::reference::book::{read, read_where};

    /// Of 300 books with a fault aimed at this refusal, those that are refused so. Every load draws standing, so that it is the
    /// longer lines that are aimed at.
    fn reached(refusal: usize) -> Vec<Vec<u8>> {
        let random = &mut Random::new(7);
        let mut texts: Vec<Vec<u8>> = (0..300)
            .map(|_| draw::text(&draw::heated(random, SMALL, &[0..=8], &(0..=8))))
            .collect();
        texts.iter_mut().for_each(|text| fault(random, text, refusal));
        texts.retain(|text| read(text).is_err_and(|found| found.number == refusal as u64));
        texts
    }

    #[test]
    fn faults_reach_their_refusals() {
        for refusal in 1..=8 {
            assert!(reached(refusal).len() > 150, "refusal {refusal}");
        }
    }

    /// Refusal 7 for a standing pair alone, where a reader that tries the options only takes the book; and for an option.
    #[test]
    fn slack_is_put_into_standing_and_into_options() {
        let (standing, options): (Vec<_>, Vec<_>) = reached(7)
            .into_iter()
            .partition(|text| read_where(text, |load, r| load.options_all(|p, q| ratio::kept(r, p, q))).is_ok());
        assert!(standing.len() > 75, "{} of standing", standing.len());
        assert!(options.len() > 75, "{} of options", options.len());
    }
}
