//! Joint marks by chance.

use crate::lists::{to_bytes, Names, Row};
use crate::rng::Rng;

/// One list in three has the names with marks.
pub fn names(rng: &mut Rng) -> Names {
    if rng.one_in(3) {
        Names::Marked
    } else {
        Names::Plain
    }
}

/// The list of rows with these names, and marks where they have a column.
pub fn list(rng: &mut Rng, mut rows: Vec<Row>, names: Names) -> Vec<u8> {
    if names == Names::Marked {
        mark(rng, &mut rows);
    }
    to_bytes(&rows, names)
}

/// The same, with names by chance.
pub fn some(rng: &mut Rng, rows: Vec<Row>) -> Vec<u8> {
    let names = names(rng);
    list(rng, rows, names)
}

/// Punctuation that mostly stands unbroken in a source.
const PAIRS: [&str; 12] = [
    "::", "->", "=>", ">>", "<'", "&'", "..", "==", "&&", "<<", ">,", ">;",
];

/// Mostly the marks of a source; in some lists any.
fn mark(rng: &mut Rng, rows: &mut [Row]) {
    let one_in = if rng.one_in(3) { 1 } else { 8 };
    for n in 0..rows.len() {
        if rows[n].kind != b'p' {
            continue;
        }
        let pair = rows
            .get(n + 1)
            .map(|next| rows[n].text.clone() + &next.text);
        let unbroken = pair.is_some_and(|pair| PAIRS.contains(&pair.as_str()));
        rows[n].joint = if rng.one_in(one_in) {
            rng.one_in(2)
        } else {
            rows[n].text == "'" || unbroken
        };
    }
}
