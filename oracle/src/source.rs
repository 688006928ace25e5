//! Source texts for the reader of source text; the compiler's lexer judges them.

use crate::grammar;
use crate::lists::{write_section, Row};
use crate::rng::Rng;
use crate::source_limits;
use crate::source_pieces::{comment, good, piece, space, stray};
use std::io::{self, Write};

/// Signs that are close to each other in the rules: all short texts of each row are made.
const ALPHABETS: &[(&[u8], usize)] = &[
    (b"'ab_#", 5),
    (b"'\\nx\"", 5),
    (b"\"\\_a#", 5),
    (b"rb#\"'", 5),
    (b"r#_a\"", 5),
    (b"0b1_e.", 5),
    (b"1e+._", 6),
    (b"0x1.f_", 5),
    (b"/*!a\n", 6),
    (b"/\r\n\"!", 5),
    (b"()[a", 6),
    (b"'\xc3\xa9a1", 5),
];

/// Inside of escapes and comments: the text before, signs, the text after, and how many of the signs stand between.
const INSIDE: &[(&str, &[u8], &str, usize)] = &[
    ("'\\u{", b"0d8_}", "}'", 5),
    ("\"\\u{1", b"0_f}\"", "}\"", 5),
    ("'\\x", b"07fg'", "'", 4),
    ("\"\\x", b"178a\"", "\"", 4),
    ("b'\\x", b"08F_'", "'", 4),
    ("b\"\\", b"xu{1}", "\"", 4),
    ("b'\\", b"nx0'\\", "'", 4),
    ("///", b"/!\r\n'a", "", 4),
    ("/*", b"/*!a", "*/", 6),
];

/// The table of examples, with what each is to answer; then, in the first part of a run, all short texts and those on the
/// limits; then COUNT texts by chance.
pub fn cases(
    out: &mut impl Write,
    count: usize,
    seed: u64,
    part: u64,
    table: &str,
) -> io::Result<()> {
    let rng = &mut Rng(seed ^ part << 32);
    if part == 0 {
        for (text, expected) in examples(table) {
            write_section(out, "expect", &expected)?;
            write_section(out, "text", &text)?;
        }
        for text in source_limits::texts(rng) {
            write_section(out, "text", &text)?;
        }
        for &(alphabet, longest) in ALPHABETS {
            // A small run has the shorter ones.
            let longest = if count < 10_000 { longest - 2 } else { longest };
            for text in all_texts(alphabet, longest) {
                write_section(out, "text", &text)?;
            }
        }
        for &(before, alphabet, after, longest) in INSIDE {
            for text in all_texts(alphabet, longest) {
                let text = [before.as_bytes(), &text, after.as_bytes()].concat();
                write_section(out, "text", &text)?;
            }
        }
    }
    for _ in 0..count {
        write_section(out, "text", &text(rng))?;
    }
    Ok(())
}

/// The lines of the table: text, `=>`, what is expected, with their escapes resolved. The last `=>` of a line counts.
fn examples(table: &str) -> Vec<(Vec<u8>, Vec<u8>)> {
    table
        .lines()
        .filter(|line| !line.starts_with("%%") && !line.trim().is_empty())
        .map(|line| {
            let (text, expected) = line.rsplit_once("=>").expect("an example has =>");
            (resolved(text.trim()), resolved(expected.trim()))
        })
        .collect()
}

/// `\n`, `\r`, `\t`, `\s` (a space), `\\`, `\xNN`, and `\(TEXT*N)`: the text that often.
fn resolved(line: &str) -> Vec<u8> {
    let mut out = Vec::new();
    let mut rest = line;
    while let Some((before, escape)) = rest.split_once('\\') {
        out.extend_from_slice(before.as_bytes());
        let (byte, after) = match escape.as_bytes()[0] {
            b'n' => (b'\n', 1),
            b'r' => (b'\r', 1),
            b't' => (b'\t', 1),
            b's' => (b' ', 1),
            b'\\' => (b'\\', 1),
            b'x' => (
                u8::from_str_radix(&escape[1..3], 16).expect("two hex digits"),
                3,
            ),
            b'(' => {
                let (text, after) = escape[1..].split_once('*').expect("a *");
                let (times, after) = after.split_once(')').expect("a )");
                out.extend(text.repeat(times.parse().expect("a number")).bytes());
                rest = after;
                continue;
            }
            _ => panic!("an escape in {line}"),
        };
        out.push(byte);
        rest = &escape[after..];
    }
    out.extend_from_slice(rest.as_bytes());
    out
}

fn all_texts(alphabet: &[u8], longest: usize) -> Vec<Vec<u8>> {
    let mut all = vec![Vec::new()];
    let mut from = 0;
    for _ in 0..longest {
        let upto = all.len();
        for n in from..upto {
            for byte in alphabet {
                let text = [&all[n][..], &[*byte]].concat();
                all.push(text);
            }
        }
        from = upto;
    }
    all
}

fn text(rng: &mut Rng) -> Vec<u8> {
    match rng.below(20) {
        0..=5 => pieces(rng),
        6..=8 => one_fault(rng),
        9..=10 => soup(rng),
        11..=13 => declaration(rng),
        14..=15 => {
            let text = declaration(rng);
            damaged(rng, text)
        }
        _ => {
            let text = pieces(rng);
            damaged(rng, text)
        }
    }
}

/// Pieces of every kind, with and without spaces.
fn pieces(rng: &mut Rng) -> Vec<u8> {
    let mut out = Vec::new();
    // Close together or wide apart.
    let apart = 1 + rng.below(4);
    for _ in 0..1 + rng.below(8) {
        out.extend(piece(rng));
        if !rng.one_in(apart) {
            out.extend(space(rng));
        }
    }
    out
}

/// Good text, one piece that may be faulty, and good text again.
fn one_fault(rng: &mut Rng) -> Vec<u8> {
    let mut out = good_text(rng);
    out.extend(match rng.below(6) {
        0 => stray(rng),
        1 => comment(rng),
        _ => piece(rng),
    });
    if rng.one_in(2) {
        out.push(b' ');
    }
    out.extend(good_text(rng));
    out
}

fn good_text(rng: &mut Rng) -> Vec<u8> {
    let mut out = Vec::new();
    for _ in 0..rng.below(8) {
        out.extend(good(rng));
        out.push(b' ');
    }
    out
}

/// Bytes of one alphabet by chance, longer than all of them can be made.
fn soup(rng: &mut Rng) -> Vec<u8> {
    let (alphabet, longest) = ALPHABETS[rng.below(ALPHABETS.len())];
    let other = b"\\u{1}'\"0b_e.x#r/*! \na()";
    let length = longest + rng.below(10);
    let byte = |_| match rng.below(3) {
        0 => other[rng.below(other.len())],
        _ => alphabet[rng.below(alphabet.len())],
    };
    (0..length).map(byte).collect()
}

/// A declaration as text. Rows of groups without delimiters have none.
fn declaration(rng: &mut Rng) -> Vec<u8> {
    let rows = grammar::declaration(rng);
    let rows: Vec<Row> = rows
        .into_iter()
        .filter(|row| row.text != "0" || row.kind == b'l')
        .collect();
    let (tidy, doc) = (rng.one_in(2), rng.one_in(2));
    let mut out: Vec<u8> = Vec::new();
    for row in rows {
        if doc && rng.one_in(8) {
            out.extend(
                rng.pick(&[
                    "/// A valve.\n",
                    "///\r\n",
                    "// x\n",
                    "/* y */",
                    "/// it's\n\n",
                ])
                .bytes(),
            );
        }
        out.extend(row.text.bytes());
        let glued = row.text == "'" || (row.kind != b'i' && row.kind != b'l' && !rng.one_in(3));
        if !glued {
            out.extend(if tidy { b" ".to_vec() } else { space(rng) });
        }
    }
    out
}

/// A copy with some bytes dropped, doubled, swapped or replaced, or cut.
fn damaged(rng: &mut Rng, mut text: Vec<u8>) -> Vec<u8> {
    for _ in 0..1 + rng.below(3) {
        if text.len() < 2 {
            return text;
        }
        let at = rng.below(text.len() - 1);
        match rng.below(6) {
            0 => drop(text.remove(at)),
            1 => text.insert(at, text[at]),
            2 => text.swap(at, at + 1),
            3 => text[at] = b"'\"\\/#*_.e0r(){}[]\n\r `!"[rng.below(22)],
            4 => text[at] = rng.next() as u8,
            _ if rng.one_in(2) => text.truncate(at),
            _ => drop(text.drain(..at)),
        }
    }
    text
}
