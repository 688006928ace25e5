//! Kind b: damaged copies that still pass the list check. Kind e: lists that the check refuses.

use crate::check::{check, Check};
use crate::grammar::{declaration, plain_row, tagged, DELIMITERS};
use crate::lists::{mates, row, to_bytes, Names, Row};
use crate::marks;
use crate::rng::Rng;

/// Kind b. What is done to a delimiter is done to its partner too.
pub fn damaged(rng: &mut Rng) -> Vec<Row> {
    loop {
        let mut rows = if rng.one_in(8) {
            tagged(rng)
        } else {
            declaration(rng)
        };
        for _ in 0..1 + rng.below(3) {
            damage(rng, &mut rows);
        }
        if matches!(check(&to_bytes(&rows, Names::Plain)), Check::Rows(_)) {
            return rows;
        }
    }
}

fn delimiter_row(kind: u8, d: usize) -> Row {
    let (open, close) = DELIMITERS[d];
    row(kind, if kind == b'o' { open } else { close })
}

fn damage(rng: &mut Rng, rows: &mut Vec<Row>) {
    if rows.is_empty() {
        rows.push(plain_row(rng));
        return;
    }
    let mate = mates(rows);
    let at = rng.below(rows.len());
    let (low, high) = (at.min(mate[at]), at.max(mate[at]));
    match rng.below(9) {
        // Delete a row, or both delimiters of a group.
        0 => {
            rows.remove(high);
            if low != high {
                rows.remove(low);
            }
        }
        // Delete a whole group.
        1 => {
            rows.drain(low..=high);
        }
        // Double a row or a group.
        2 => {
            let copy = rows[low..=high].to_vec();
            rows.splice(high + 1..high + 1, copy);
        }
        // Swap two rows, or a group with what follows it.
        3 => {
            let other = rng.below(rows.len());
            if mate[at] == at && mate[other] == other {
                rows.swap(at, other);
            } else if high + 1 < rows.len() && mate[high + 1] == high + 1 {
                let row = rows.remove(high + 1);
                rows.insert(low, row);
            }
        }
        // Replace a row.
        4 => {
            if low == high {
                rows[at] = plain_row(rng);
            } else {
                let row = plain_row(rng);
                rows.splice(low..=high, [row]);
            }
        }
        // Add a row.
        5 => {
            let row = plain_row(rng);
            rows.insert(at, row);
        }
        // Another delimiter for a group.
        6 => {
            if low != high {
                let d = rng.below(4);
                rows[low] = delimiter_row(b'o', d);
                rows[high] = delimiter_row(b'c', d);
            }
        }
        // A group around a row or a group.
        7 => {
            let d = rng.below(4);
            rows.insert(high + 1, delimiter_row(b'c', d));
            rows.insert(low, delimiter_row(b'o', d));
        }
        // End the list early, closing what is open.
        _ => {
            let mut closing = Vec::new();
            for n in (0..at).rev() {
                if mate[n] > n && mate[n] >= at {
                    closing.push(rows[mate[n]].clone());
                }
            }
            rows.truncate(at);
            rows.extend(closing);
        }
    }
}

/// Kind e: a fault in the bytes, now and then two. A few of them still pass.
pub fn bad_bytes(rng: &mut Rng) -> Vec<u8> {
    let mut rows = declaration(rng);
    rows.truncate(40);
    let names = marks::names(rng);
    let mut list = marks::list(rng, rows, names);
    for _ in 0..1 + rng.below(2) {
        if names == Names::Marked && rng.one_in(2) {
            wrong_mark(rng, &mut list);
        } else {
            fault(rng, &mut list, names);
        }
    }
    list
}

fn line_starts(list: &[u8]) -> Vec<usize> {
    let mut starts = vec![0];
    starts.extend(
        list.iter()
            .enumerate()
            .filter(|(_, b)| **b == b'\n')
            .map(|(n, _)| n + 1),
    );
    starts.retain(|n| *n < list.len());
    starts
}

/// What may stand for the line of names. The last two are right, though maybe not for the rows below.
const LINES_OF_NAMES: [&str; 24] = [
    "kind  text",
    "Kind text",
    "text kind",
    " kind text",
    "kind text ",
    "kind",
    "joint",
    "kind joint",
    "joint text",
    "kind joint text ",
    "kind joint  text",
    "kind  joint text",
    " kind joint text",
    "joint kind text",
    "kind text joint",
    "kind joint texts",
    "kind joints text",
    "kind mark text",
    "kind joint joint text",
    "kind\tjoint text",
    "Kind Joint Text",
    "KIND JOINT TEXT",
    "kind text",
    "kind joint text",
];

fn fault(rng: &mut Rng, list: &mut Vec<u8>, names: Names) {
    if list.is_empty() {
        list.push(b'k');
        return;
    }
    let at = rng.below(list.len());
    let starts = line_starts(list);
    let line = starts[rng.below(starts.len())];
    // A new row has now and then the columns of the other names.
    let columns = match names {
        Names::Plain if rng.one_in(8) => Names::Marked,
        Names::Marked if rng.one_in(8) => Names::Plain,
        _ => names,
    };
    let add = |list: &mut Vec<u8>, kind: u8, text: &str| {
        list.splice(line..line, columns.row(&row(kind, text)).into_bytes());
    };
    match rng.below(16) {
        // Bytes.
        0 => list[at] = rng.below(256) as u8,
        1 => list[at] ^= 1 << rng.below(8),
        2 => {
            list.remove(at);
        }
        3 => {
            let byte = *rng.pick(&[&0, &b'\r', &b'\n', &b' ', &b'\t', &127, &200, &b'#']);
            list.insert(at, byte);
        }
        4 => list.truncate(at),
        5 => {
            list.pop();
        }
        // Lines.
        6 => add(list, b'o', "("),
        7 => add(list, b'c', rng.pick(&[")", "]", "}", "0"])),
        8 => list.insert(line, b'\n'),
        9 => {
            let (kind, text) = match rng.below(8) {
                0 => (b'i', "r#self"),
                1 => (b'i', "r#"),
                2 => (b'i', "r#_"),
                3 => (b'i', "9a"),
                4 => (b'p', "::"),
                5 => (b'l', "a"),
                6 => (b'q', "x"),
                _ => (b'i', "a b"),
            };
            add(list, kind, text);
        }
        // Line ends of another system.
        10 => {
            let ends: Vec<usize> = (0..list.len()).filter(|n| list[*n] == b'\n').collect();
            for n in ends.into_iter().rev() {
                list.insert(n, b'\r');
            }
        }
        // The line of names.
        11 => {
            let text = rng.pick(&LINES_OF_NAMES);
            let first = starts.get(1).copied().unwrap_or(list.len());
            list.splice(0..first, format!("{text}\n").into_bytes());
        }
        // A text too long.
        12 => add(list, b'i', &"n".repeat(254 + rng.below(4))),
        // Too many groups.
        13 => {
            let text = columns.row(&row(b'o', "[")).repeat(30 + rng.below(5));
            list.splice(line..line, text.into_bytes());
        }
        // Another closing delimiter.
        14 => {
            let text = names.row(&row(b'c', "")).len() - 1;
            let close = |n: &&usize| list[**n] == b'c' && **n + text < list.len();
            if let Some(n) = starts.iter().find(close) {
                list[*n + text] = *rng.pick(&[&b')', &b']', &b'}', &b'0']);
            }
        }
        // One line doubled.
        _ => {
            let end = list[line..]
                .iter()
                .position(|b| *b == b'\n')
                .map_or(list.len(), |n| line + n + 1);
            let copy = list[line..end].to_vec();
            list.splice(line..line, copy);
        }
    }
}

/// A fault in or beside the mark of a row.
fn wrong_mark(rng: &mut Rng, list: &mut Vec<u8>) {
    let starts = line_starts(list);
    // Where a row begins with kind, space, mark, space.
    let rows: Vec<usize> = starts
        .into_iter()
        .skip(1)
        .filter(|n| n + 4 < list.len())
        .collect();
    if rows.is_empty() {
        return;
    }
    let at = rows[rng.below(rows.len())];
    match rng.below(11) {
        // Another mark.
        0 => list[at + 2] = *rng.pick(&[&b'2', &b'9', &b' ', &b'-', &b'x', &b'O', &0, &b'\n']),
        1 => list[at + 2] = rng.below(256) as u8,
        // No column, or two.
        2 => drop(list.drain(at + 2..at + 4)),
        3 => drop(list.splice(at + 2..at + 2, *b"0 ")),
        4 => drop(list.splice(at + 2..at + 2, *b"1 ")),
        // Two digits.
        5 => list.insert(at + 2, *rng.pick(&[&b'0', &b'1'])),
        // No space, two, or LF in its place.
        6 => drop(list.remove(at + 1 + 2 * rng.below(2))),
        7 => list.insert(at + 1 + 2 * rng.below(2), b' '),
        8 => list[at + 1 + 2 * rng.below(2)] = b'\n',
        // The other mark, which only punctuation may have.
        9 => list[at + 2] ^= 1,
        _ => {
            let others: Vec<usize> = rows.into_iter().filter(|n| list[*n] != b'p').collect();
            if !others.is_empty() {
                list[others[rng.below(others.len())] + 2] = b'1';
            }
        }
    }
}
