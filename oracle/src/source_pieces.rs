//! Parts of source texts: names, literals, comments, whitespace, and what is close to them and faulty.

use crate::rng::Rng;

const NAMES: &[&str] = &[
    "a", "b", "c", "r", "br", "cr", "rb", "_", "__", "_a", "x1", "A", "E", "e", "E3", "u8", "f32",
    "self", "Self", "crate", "super", "struct", "enum", "pub", "where", "dyn", "async", "union",
    "static", "r#a", "r#struct", "r#r", "r#b", "r#br", "r#_a", "r#crate", "r#self", "r#super",
    "r#Self", "r#_", "r#dyn", "k#a", "r#1", "b#a",
];

/// Literals, quotes and prefixes on every edge of the rules; about half of them are refused.
const ODD: &[&str] = &[
    "'a'",
    "'a",
    "'_'",
    "'_",
    "'ab'",
    "'ab",
    "'a'b",
    "'a'_",
    "'a'_b",
    "'1'",
    "'1",
    "'12",
    "'1a'",
    "''",
    "'''",
    "''''",
    "'''a",
    "'\\''",
    "'\\\"'",
    "'\"'",
    "\"'\"",
    "'\\\\'",
    "'\\'",
    "'\\",
    "'",
    "' '",
    "'  '",
    "'\t'",
    "'\n'",
    "'\r'",
    "'\r\n'",
    "'\\n'",
    "'\\r'",
    "'\\t'",
    "'\\0'",
    "'\\a'",
    "'\\x41'",
    "'\\x7f'",
    "'\\x7F'",
    "'\\x80'",
    "'\\xff'",
    "'\\x4'",
    "'\\x'",
    "'\\xg1'",
    "'\\x411'",
    "'\\u{41}'",
    "'\\u{4_1}'",
    "'\\u{41_}'",
    "'\\u{_41}'",
    "'\\u{}'",
    "'\\u{_}'",
    "'\\u{10FFFF}'",
    "'\\u{110000}'",
    "'\\u{d800}'",
    "'\\u{DFFF}'",
    "'\\u{d7ff}'",
    "'\\u{e000}'",
    "'\\u{0000041}'",
    "'\\u{00_00_41}'",
    "'\\u{1____2__}'",
    "'\\u{41'",
    "'\\u41'",
    "'\\u'",
    "'\\u{g}'",
    "'\\U{41}'",
    "b'a'",
    "b'a",
    "b'ab'",
    "b''",
    "b'''",
    "b'\\''",
    "b'\\\"'",
    "b'\\x80'",
    "b'\\xFF'",
    "b'\\xfg'",
    "b'\\u{41}'",
    "b'\\n'",
    "b'\\0'",
    "b'\t'",
    "b' '",
    "b'\"'",
    "b'a'c",
    "b'a'_",
    "b'",
    "\"\"",
    "\"a\"",
    "\"a b\"",
    "\"a",
    "\"",
    "\"\\\"\"",
    "\"\\\"",
    "\"\\\\\"",
    "\"\\'\"",
    "\"\\n\\r\\t\\0\"",
    "\"\\x7f\"",
    "\"\\x80\"",
    "\"\\xa\"",
    "\"\\u{1F600}\"",
    "\"\\u{}\"",
    "\"\\q\"",
    "\"\\ \"",
    "\"\\\n a\"",
    "\"a\nb\"",
    "\"a\r\nb\"",
    "\"a\rb\"",
    "\"a\tb\"",
    "\"//\"",
    "\"/*\"",
    "\"a\"b",
    "\"a\"_",
    "\"a\"_b",
    "\"a\"r#x",
    "\"a\"_#",
    "\"a\"\"b\"",
    "\"(\"",
    "\"]\"",
    "'{'",
    "'}'",
    "b\"[\"",
    "b\"\"",
    "b\"a\"",
    "b\"a",
    "b\"\\xff\"",
    "b\"\\u{41}\"",
    "b\"\\\"\"",
    "b\"\n\"",
    "b\"a\"x",
    "b\"a\"_",
    "b\"\\'\"",
    "r\"a\"",
    "r\"a",
    "r#\"a\"#",
    "r#\"a\"",
    "r##\"a\"##",
    "r##a",
    "r#",
    "r##",
    "br\"a\"",
    "br#\"a\"#",
    "br#a",
    "br'a'",
    "c\"a\"",
    "c'a'",
    "cr\"a\"",
    "cr#\"a\"#",
    "c#a",
    "f\"a\"",
    "k'a'",
    "_\"a\"",
    "_'a'",
    "_#a",
    "r'a'",
    "a\"b\"",
    "r#a\"b\"",
    "r#a'b'",
    "r#a'b",
    "r#a#b",
    "r#let#foo",
    "'a#b",
    "'a #b",
    "'r#a",
    "'r#a'",
    "'r#crate",
    "'r #a",
    "'a'b#",
    "'_#",
    "'a\"b\"",
    "'a'b'",
    "'static",
    "'a:",
    "'b'",
    "'b\"",
    "'r\"a\"",
    "'a'#",
    "1a#",
    "1r\"a\"",
    "1b'a'",
    "1'a'",
    "1'a",
    "#\"a\"#",
    "##\"a\"##",
    "#!",
    "#![a]",
    "---",
    "t.0.1",
    "1..2",
    "1.foo",
    "1._",
    "1.e3",
    "1.0.0",
    "::",
    "->",
    "=>",
    "<<=",
    "..=",
    "...",
    "&&",
    "||",
    "!=",
    "/=",
    "/ /",
    "* /",
    "*/",
    "/ *",
];

const BASES: [(&str, &str); 4] = [
    ("", "0123456789"),
    ("0b", "01"),
    ("0o", "01234567"),
    ("0x", "0123456789abcdefABCDEF"),
];
const SUFFIXES: &[&str] = &[
    "u8", "i64", "usize", "f32", "f64", "e", "E", "e3", "E3", "x", "b", "r", "_", "_u8", "__",
    "em", "f", "o7", "b1", "z",
];
const SOUND: &[&str] = &[
    "a", "Z", "0", " ", "~", "(", "}", "//", "\\n", "\\\\", "\\'", "\\\"", "\\x41", "\\0",
];
const UNSOUND: &[&str] = &[
    "\n",
    "\r",
    "\t",
    "\x0b",
    "\x7f",
    "\0",
    "é",
    "\u{2028}",
    "\\q",
    "\\x8",
    "\\u{d900}",
    "\\",
    "'",
    "\"",
    "\\\n",
    "\\u{1_}",
];
pub const PUNCTUATION: &str = "=<>!~+-*/%^&|@.,;:#$?";
const SPACES: &[&str] = &[" ", "\t", "\n", "\x0b", "\x0c", "\r", "\r\n", "  "];
const STRAYS: &[&[u8]] = &[
    b"`",
    b"\\",
    b"\0",
    b"\x01",
    b"\x7f",
    b"\x1b",
    b"\xc3\xa9",
    b"\xef\xbb\xbf",
    b"\xe2\x80\xa8",
    b"\xc2\x85",
    b"\xff",
    b"\xc3",
    b"\xf0\x9f\x98\x80",
    b"\xd0\x9c",
];

/// A text that is a row, or several, or refused.
pub fn piece(rng: &mut Rng) -> Vec<u8> {
    match rng.below(20) {
        0..=4 => rng.pick(NAMES).into(),
        5..=7 => one_of(rng, PUNCTUATION).into(),
        8..=9 => number(rng).into(),
        10..=11 => quoted(rng, false).into(),
        12..=13 => rng.pick(ODD).into(),
        14 => comment(rng),
        15..=16 => group(rng),
        17 => "'a".into(),
        _ => good(rng),
    }
}

/// A text that is never refused.
pub fn good(rng: &mut Rng) -> Vec<u8> {
    match rng.below(8) {
        0..=2 => rng
            .pick(&["a", "b1", "_", "_x", "struct", "r#fn", "Vec", "u8"])
            .into(),
        3..=4 => one_of(rng, "=<>!~+-*%^&|@.,;:$?").into(),
        5 => rng
            .pick(&["1", "0x1F", "1.5e-3f32", "1_000u16", "0b_1", "2."])
            .into(),
        6 => quoted(rng, true).into(),
        _ => rng
            .pick(&["'a", "'_", "'a'", "b'x'", "'\\u{41}'", "// x\n", "/* x */"])
            .into(),
    }
}

pub fn space(rng: &mut Rng) -> Vec<u8> {
    match rng.below(12) {
        0 => comment(rng),
        1 => stray(rng),
        2..=5 => b" ".to_vec(),
        _ => rng.pick(SPACES).into(),
    }
}

pub fn stray(rng: &mut Rng) -> Vec<u8> {
    rng.pick(STRAYS).to_vec()
}

pub fn one_of<'a>(rng: &mut Rng, from: &'a str) -> &'a str {
    let n = rng.below(from.len());
    &from[n..n + 1]
}

fn digits(rng: &mut Rng, from: &str, most: usize) -> String {
    let length = rng.below(most + 1);
    let mut out = String::new();
    for _ in 0..length {
        out.push_str(if rng.one_in(5) {
            "_"
        } else {
            one_of(rng, from)
        });
    }
    out
}

/// A number in the form of a literal, with each of its parts there or missing.
fn number(rng: &mut Rng) -> String {
    let (base, of_base) = BASES[rng.below(4)];
    let mut out = base.to_string();
    if base.is_empty() {
        out.push_str(one_of(rng, "0123456789"));
    }
    let from = if rng.one_in(5) { "0123456789" } else { of_base };
    out.push_str(&digits(rng, from, 4));
    if rng.one_in(3) {
        out.push('.');
        out.push_str(&digits(rng, "0123456789", 3));
    }
    if rng.one_in(3) {
        out.push_str(rng.pick(&["e", "E", "e+", "e-", "E+", "E-"]));
        out.push_str(&digits(rng, "0123456789", 3));
    }
    if rng.one_in(3) {
        out.push_str(rng.pick(SUFFIXES));
    }
    out
}

/// A backslash and what may stand behind it, in the forms with digits more often than not faulty.
fn escape(rng: &mut Rng) -> String {
    let hex = "0123456789abcdefABCDEF";
    match rng.below(4) {
        0 => format!("\\{}", one_of(rng, "nrt0\\'\"xuq {")),
        1 => {
            let first = if rng.one_in(2) { "01234567" } else { hex };
            let last = if rng.one_in(6) { "g_} " } else { hex };
            format!("\\x{}{}", one_of(rng, first), one_of(rng, last))
        }
        _ => {
            let close = if rng.one_in(8) { "" } else { "}" };
            let most = if rng.one_in(3) { 8 } else { 4 };
            let front = rng.pick(&[
                "", "", "", "10", "d8", "DF", "d7", "e0", "0", "00", "11", "g",
            ]);
            format!("\\u{{{front}{}{close}", digits(rng, hex, most))
        }
    }
}

/// A literal in quotes, with or without prefix and suffix.
fn quoted(rng: &mut Rng, sound: bool) -> String {
    let quote = if rng.one_in(3) { "'" } else { "\"" };
    let prefix = if rng.one_in(3) { "b" } else { "" };
    let length = if quote == "'" { 1 } else { rng.below(5) };
    let mut body = String::new();
    for _ in 0..length {
        if !sound && rng.one_in(3) {
            body.push_str(&escape(rng));
            continue;
        }
        let part = if sound || !rng.one_in(4) {
            SOUND
        } else {
            UNSOUND
        };
        let part = rng.pick(part);
        // In a char is one sign, and a quote's own sign has a backslash.
        body.push_str(if quote == "'" && part == "//" {
            "/"
        } else {
            part
        });
    }
    let suffix = if sound || rng.one_in(2) {
        ""
    } else {
        rng.pick(SUFFIXES)
    };
    format!("{prefix}{quote}{body}{quote}{suffix}")
}

/// What may stand in a comment.
fn comment_text(rng: &mut Rng) -> Vec<u8> {
    let mut out = Vec::new();
    for _ in 0..rng.below(6) {
        match rng.below(12) {
            0 => out.extend(stray(rng)),
            1 => out.extend(
                rng.pick(&["\"", "'", "\\", "(", "]", "//", "*", "/", "!"])
                    .bytes(),
            ),
            2 => out.extend(rng.pick(&["\r", "\t", "\x0b"]).bytes()),
            3 => out.extend(b"don't"),
            _ => out.extend(rng.pick(&["a", " b", "c ", "x=1", " "]).bytes()),
        }
    }
    out
}

fn block(rng: &mut Rng, depth: usize) -> Vec<u8> {
    let mut out: Vec<u8> = rng.pick(&["/*", "/* ", "/*/", "/***", "/*a"]).into();
    out.extend(comment_text(rng));
    if depth > 0 && rng.one_in(2) {
        out.extend(block(rng, depth - 1));
        out.extend(comment_text(rng));
    }
    if !rng.one_in(12) {
        out.extend(b"*/");
    }
    out
}

/// A comment of any kind; a line's mostly ends.
pub fn comment(rng: &mut Rng) -> Vec<u8> {
    let mut out: Vec<u8> = match rng.below(10) {
        0..=1 => return block(rng, 3),
        2 => {
            return rng
                .pick(&[
                    "/**/", "/***/", "/** a */", "/*! a */", "/****/", "/*!*/", "/**a", "/*", "/*/",
                ])
                .into()
        }
        3 => b"//!".to_vec(),
        4 => b"////".to_vec(),
        5..=6 => {
            // A line of documentation that is taken.
            let text = rng.pick(&["", " ", " a", " don't // ' /*", "!", " ~}", " a\r"]);
            return format!("///{text}\n").into();
        }
        7 => b"///".to_vec(),
        _ => b"//".to_vec(),
    };
    out.extend(comment_text(rng));
    if !rng.one_in(6) {
        out.extend(rng.pick(&["\n", "\n", "\r\n", "\r\r\n"]).bytes());
    }
    out
}

/// Brackets around some pieces; seldom the wrong ones.
fn group(rng: &mut Rng) -> Vec<u8> {
    let mut out: Vec<u8> = Vec::new();
    let n = rng.below(3);
    if !rng.one_in(20) {
        out.push(b"([{"[n]);
    }
    for _ in 0..rng.below(4) {
        out.extend(piece(rng));
        if rng.one_in(2) {
            out.extend(space(rng));
        }
    }
    if !rng.one_in(20) {
        let n = if rng.one_in(20) { rng.below(3) } else { n };
        out.push(b")]}"[n]);
    }
    out
}
