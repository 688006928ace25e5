//! The numbers of an enum's variants, and which variant is an earlier one again: written from document 02's cards 2
//! and 9 and the Reference.

use std::collections::HashSet;
use std::hash::Hash;

/// INTEGER_SUFFIX of the Reference.
pub const SUFFIXES: [&str; 12] = [
    "u8", "u16", "u32", "u64", "u128", "usize", "i8", "i16", "i32", "i64", "i128", "isize",
];

/// Why a variant has no number: the refusal's number.
pub const NO_INTEGER: u8 = 42;
pub const NO_STEP: u8 = 43;

/// Which of an earlier variant's parts a variant has again: the refusal's number.
pub const NAME_TWICE: u8 = 50;
pub const NUMBER_TWICE: u8 = 51;

/// What an integer literal is worth; none where the text is no integer, or above i64's range.
pub fn worth(text: &str) -> Option<i64> {
    let (radix, rest) = match text.get(..2) {
        Some("0b") => (2, &text[2..]),
        Some("0o") => (8, &text[2..]),
        Some("0x") => (16, &text[2..]),
        _ if text.starts_with(|c: char| c.is_ascii_digit()) => (10, text),
        _ => return None,
    };
    // No digit is a `u` or an `i`, with which a suffix begins.
    let (digits, suffix) = rest.split_at(rest.find(['u', 'i']).unwrap_or(rest.len()));
    let digits = digits.replace('_', "");
    let sound = suffix.is_empty() || SUFFIXES.contains(&suffix);
    if !sound || !digits.bytes().all(|b| b.is_ascii_alphanumeric()) {
        return None;
    }
    i64::from_str_radix(&digits, radix).ok()
}

/// The number of a variant with this value, after that one, which is -1 before the first; or the refusal's.
pub fn number(value: Option<&str>, before: i64) -> Result<i64, u8> {
    match value {
        None => before.checked_add(1).ok_or(NO_STEP),
        Some(text) => match text.strip_prefix('-') {
            Some(digits) => worth(digits).map(|n| -n),
            None => worth(text),
        }
        .ok_or(NO_INTEGER),
    }
}

/// A name, as it is compared with others.
pub fn bare(name: &str) -> &str {
    name.strip_prefix("r#").unwrap_or(name)
}

/// The position of the first variant that has the name of an earlier one, or else the number; with the refusal's.
pub fn twice(names: &[String], numbers: &[i64]) -> Option<(u8, usize)> {
    let names: Vec<&str> = names.iter().map(|name| bare(name)).collect();
    let name = second(&names).map(|position| (NAME_TWICE, position));
    name.or_else(|| second(numbers).map(|position| (NUMBER_TWICE, position)))
}

/// The position of the first that stands before already.
fn second<T: Eq + Hash>(all: &[T]) -> Option<usize> {
    let mut seen = HashSet::new();
    all.iter().position(|one| !seen.insert(one))
}
