//! The list check of document 01, written from its text alone (the Rust has nothing like it):
//! refusals 1 to 7 with their places, or the number of rows.

use crate::lists::{Names, PUNCTUATION};

pub const END: usize = 65_535;

const MAX_BYTES: usize = 65_536;
const MAX_ROWS: usize = 4_096;
const MAX_TEXT: usize = 255;
const MAX_OPEN: usize = 32;

#[derive(Clone, Copy, PartialEq, Eq, Debug)]
pub enum Check {
    Rows(usize),
    Refused(u8, usize),
}

pub fn check(list: &[u8]) -> Check {
    if list.len() > MAX_BYTES {
        return Check::Refused(1, END);
    }
    let Some(names) = Names::of(list) else {
        return Check::Refused(2, END);
    };
    let mut rest = &list[names.line().len()..];
    let mut row = 0;
    // The open groups: opening row and the byte that closes it.
    let mut open: Vec<(usize, u8)> = Vec::new();
    while !rest.is_empty() {
        if row == MAX_ROWS {
            return Check::Refused(4, MAX_ROWS);
        }
        let Some(end) = rest.iter().position(|b| *b == b'\n') else {
            return Check::Refused(3, row);
        };
        let line = &rest[..end];
        rest = &rest[end + 1..];
        let Some((kind, _, text)) = columns(line, names).filter(row_form) else {
            return Check::Refused(3, row);
        };
        match kind {
            b'o' => {
                if open.len() == MAX_OPEN {
                    return Check::Refused(6, row);
                }
                open.push((row, closing(text[0])));
            }
            b'c' => match open.last() {
                Some((_, close)) if *close == text[0] => {
                    open.pop();
                }
                _ => return Check::Refused(5, row),
            },
            _ => {}
        }
        row += 1;
    }
    match open.last() {
        Some((opening, _)) => Check::Refused(7, *opening),
        None => Check::Rows(row),
    }
}

/// A row's kind, whether it is joint, and its text, parted by one space each. Without a column for it
/// a `'` alone is joint.
pub fn columns(line: &[u8], names: Names) -> Option<(u8, bool, &[u8])> {
    match (names, line) {
        (Names::Plain, [kind, b' ', text @ ..]) => Some((*kind, line == b"p '", text)),
        (Names::Marked, [kind, b' ', mark @ (b'0' | b'1'), b' ', text @ ..]) => {
            Some((*kind, *mark == b'1', text))
        }
        _ => None,
    }
}

/// A text that fits the kind, and no joint mark but on punctuation.
fn row_form((kind, joint, text): &(u8, bool, &[u8])) -> bool {
    if text.is_empty() || text.len() > MAX_TEXT || (*joint && *kind != b'p') {
        return false;
    }
    match kind {
        b'i' => ident_text(text),
        b'p' => text.len() == 1 && PUNCTUATION.as_bytes().contains(&text[0]),
        b'l' => {
            (text[0].is_ascii_digit() || b"\"'bcr".contains(&text[0]))
                && text.iter().all(|b| (32..=126).contains(b))
        }
        b'o' => text.len() == 1 && b"([{0".contains(&text[0]),
        b'c' => text.len() == 1 && b")]}0".contains(&text[0]),
        _ => false,
    }
}

fn ident_text(text: &[u8]) -> bool {
    match text.strip_prefix(b"r#") {
        Some(name) => {
            plain_name(name) && !matches!(name, b"crate" | b"self" | b"super" | b"Self" | b"_")
        }
        None => plain_name(text),
    }
}

fn plain_name(text: &[u8]) -> bool {
    match text.first() {
        Some(b) if b.is_ascii_alphabetic() || *b == b'_' => {
            text.iter().all(|b| b.is_ascii_alphanumeric() || *b == b'_')
        }
        _ => false,
    }
}

fn closing(open: u8) -> u8 {
    match open {
        b'(' => b')',
        b'[' => b']',
        b'{' => b'}',
        _ => b'0',
    }
}

/// What a program prints for a refusal: a line of names, then number and place.
pub fn refusal(number: u8, place: usize) -> String {
    if place == END {
        format!("refused place\n{number} -\n")
    } else {
        format!("refused place\n{number} {place}\n")
    }
}

/// What the program `rows` prints.
pub fn printed(answer: Check) -> String {
    match answer {
        Check::Rows(n) => format!("rows {n}\n"),
        Check::Refused(number, place) => refusal(number, place),
    }
}
