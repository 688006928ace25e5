//! Added names of every kind, and which of them document 01 lets pass.

use crate::rng::Rng;

const RIGHT: [&str; 14] = [
    "x", "Y", "Z", "a", "T", "_", "_0", "const", "self", "crate", "in", "where", "Valve_2", "u8",
];
const WRONG: [&[u8]; 10] = [
    b"", b"9", b"9a", b"r#a", b"a b", b"'a", b"a-b", b"a\0", b"\xC3\xA9", b"a\x7F",
];

/// A text of up to three names, each a line; most of them are right. The last line may lack its LF.
pub fn text(rng: &mut Rng) -> Vec<u8> {
    let mut text = Vec::new();
    for _ in 0..rng.below(4) {
        match rng.below(40) {
            0 => text.extend_from_slice(rng.pick(&WRONG)),
            1 => text.resize(text.len() + 255, b'n'),
            2 => text.resize(text.len() + 256, b'n'),
            _ => text.extend_from_slice(rng.pick(&RIGHT).as_bytes()),
        }
        text.push(b'\n');
    }
    if rng.one_in(2) {
        text.pop();
    }
    text
}

/// The names of a text, where each is an `i` text of at most 255 bytes without `r#`.
pub fn names(text: &[u8]) -> Option<Vec<String>> {
    if text.is_empty() {
        return Some(Vec::new());
    }
    let lines = text.strip_suffix(b"\n").unwrap_or(text);
    lines.split(|byte| *byte == b'\n').map(name).collect()
}

fn name(line: &[u8]) -> Option<String> {
    let name = std::str::from_utf8(line).ok()?;
    let mut bytes = name.bytes();
    let first = bytes.next()?;
    let starts = first.is_ascii_alphabetic() || first == b'_';
    let goes_on = bytes.all(|b| b.is_ascii_alphanumeric() || b == b'_');
    (starts && goes_on && name.len() <= 255).then(|| name.to_string())
}
