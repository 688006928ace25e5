//! Rows as text, one-line notation for rows, and the section format of the recorded answers.

use std::fmt;
use std::io::{self, BufRead, Write};

#[derive(Clone)]
pub struct Row {
    pub kind: u8,
    /// Whether it is joint punctuation.
    pub joint: bool,
    pub text: String,
}

impl fmt::Debug for Row {
    fn fmt(&self, f: &mut fmt::Formatter) -> fmt::Result {
        f.write_str(Names::Marked.row(self).trim_end())
    }
}

/// A row with the mark that it has without a column for it: only a `'` is joint.
pub fn row(kind: u8, text: impl Into<String>) -> Row {
    let text = text.into();
    let joint = kind == b'p' && text == "'";
    Row { kind, joint, text }
}

/// The line of names of a list.
#[derive(Clone, Copy, PartialEq, Eq, Debug)]
pub enum Names {
    Plain,
    Marked,
}

impl Names {
    pub fn line(self) -> &'static str {
        match self {
            Names::Plain => "kind text\n",
            Names::Marked => "kind joint text\n",
        }
    }

    /// The names that a list begins with.
    pub fn of(list: &[u8]) -> Option<Names> {
        let known = [Names::Plain, Names::Marked];
        known
            .into_iter()
            .find(|names| list.starts_with(names.line().as_bytes()))
    }

    /// A row's line, with its LF.
    pub fn row(self, row: &Row) -> String {
        let (kind, text) = (row.kind as char, &row.text);
        match self {
            Names::Plain => format!("{kind} {text}\n"),
            Names::Marked => format!("{kind} {} {text}\n", u8::from(row.joint)),
        }
    }
}

/// What a `p` row may hold.
pub const PUNCTUATION: &str = "=<>!~+-*/%^&|@.,;:#$?'";

pub fn to_bytes(rows: &[Row], names: Names) -> Vec<u8> {
    let mut out = names.line().as_bytes().to_vec();
    for row in rows {
        out.extend_from_slice(names.row(row).as_bytes());
    }
    out
}

/// Tokens in one line, parted by spaces. `o0` and `c0` stand for the rows `o 0` and `c 0`. A punctuation
/// with `1` or `0` behind it has this mark.
pub fn tokens(line: &str) -> Vec<Row> {
    line.split_whitespace().map(token).collect()
}

fn token(word: &str) -> Row {
    let bytes = word.as_bytes();
    let kind = match word {
        "o0" => return row(b'o', "0"),
        "c0" => return row(b'c', "0"),
        "(" | "[" | "{" => b'o',
        ")" | "]" | "}" => b'c',
        _ if PUNCTUATION.contains(&word[..1]) => match bytes[1..] {
            [] => b'p',
            [mark @ (b'0' | b'1')] => {
                let joint = mark == b'1';
                return Row {
                    joint,
                    ..row(b'p', &word[..1])
                };
            }
            _ => b'l',
        },
        _ if bytes[0].is_ascii_digit() || word.contains('"') || word.contains('\'') => b'l',
        _ => b'i',
    };
    row(kind, word)
}

/// For every opening row its closing row, and the other way round; other rows have themselves.
pub fn mates(rows: &[Row]) -> Vec<usize> {
    let mut mate: Vec<usize> = (0..rows.len()).collect();
    let mut open = Vec::new();
    for (n, row) in rows.iter().enumerate() {
        match row.kind {
            b'o' => open.push(n),
            b'c' => {
                if let Some(o) = open.pop() {
                    mate[o] = n;
                    mate[n] = o;
                }
            }
            _ => {}
        }
    }
    mate
}

pub fn write_section(out: &mut impl Write, name: &str, body: &[u8]) -> io::Result<()> {
    writeln!(out, "{} {}", name, body.len())?;
    out.write_all(body)
}

pub fn read_section(input: &mut impl BufRead) -> io::Result<Option<(String, Vec<u8>)>> {
    let mut header = String::new();
    if input.read_line(&mut header)? == 0 {
        return Ok(None);
    }
    let bad = || io::Error::new(io::ErrorKind::InvalidData, format!("header {header:?}"));
    let (name, length) = header
        .trim_end_matches('\n')
        .split_once(' ')
        .ok_or_else(bad)?;
    let length: usize = length.parse().map_err(|_| bad())?;
    let mut body = vec![0; length];
    input.read_exact(&mut body)?;
    Ok(Some((name.to_string(), body)))
}
