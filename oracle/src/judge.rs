//! The answer that a source text is to have, from the compiler's tokens of it. What is added here to the compiler has a
//! name: `ascii`, `Rewrite`, `postponed`, the brackets' stack, and the limits of a list.

use crate::align::{align, doc_text, Piece};
use crate::check::{check, refusal, Check, END};
use crate::lexing::{lex, Lexed, Token};
use crate::lists::{row, to_bytes, Names, Row};

/// What the compiler is to say of a text, in a run that shows its messages.
#[derive(Clone, Copy, PartialEq, Eq)]
pub enum Said {
    Clean,
    Faulty,
    Unbalanced,
}

pub struct Judged {
    /// What the answer is, or why it is a refusal.
    pub what: &'static str,
    pub answer: Vec<u8>,
    /// The rows, where they are the answer.
    pub rows: Option<Vec<Row>>,
    /// How often the compiler was asked otherwise than Reference 1.63 has it.
    pub rewritten: usize,
    pub asks: Vec<(Said, Vec<u8>)>,
}

/// A text, and what the compiler makes of its front.
struct Reading<'a> {
    text: &'a [u8],
    /// The text with a `;` for every bracket that is a token: any front of it can be asked.
    asked: Vec<u8>,
    /// How far the compiler has got.
    upto: usize,
    pieces: Vec<Piece>,
}

enum Answer {
    Rows(Vec<Row>),
    Refused(Refused),
    /// Insert a space here and ask again.
    Rewrite(usize),
}

struct Refused {
    what: &'static str,
    at: usize,
    asks: Vec<(Said, Vec<u8>)>,
}

pub fn judge(source: &[u8]) -> Judged {
    let mut text = ascii(source);
    let mut spaces: Vec<usize> = Vec::new();
    loop {
        let reading = read(&text);
        match answer(&reading) {
            Answer::Rewrite(at) => {
                text.insert(at, b' ');
                spaces
                    .iter_mut()
                    .filter(|s| **s >= at)
                    .for_each(|s| *s += 1);
                spaces.push(at);
            }
            Answer::Refused(refused) => {
                let before = spaces.iter().filter(|s| **s < refused.at).count();
                return Judged {
                    what: refused.what,
                    answer: refusal(40, refused.at - before).into_bytes(),
                    rows: None,
                    rewritten: spaces.len(),
                    asks: refused.asks,
                };
            }
            Answer::Rows(rows) => {
                if spaces.is_empty() && !source.is_ascii() {
                    same_in_unicode(source, &reading);
                }
                let asks = vec![(Said::Clean, reading.text.to_vec())];
                return within_limits(rows, spaces.len(), asks);
            }
        }
    }
}

/// Text outside plain comments is ASCII. Every other byte becomes one that is ASCII, no token, and postponed in literals
/// and doc comments, so that texts which are no UTF-8 can be asked too.
pub fn ascii(source: &[u8]) -> Vec<u8> {
    let byte = |b: &u8| if b.is_ascii() { *b } else { 1 };
    source.iter().map(byte).collect()
}

/// In a text that is accepted, what is not ASCII stands in plain comments: the compiler has the same tokens of it as it is.
fn same_in_unicode(source: &[u8], reading: &Reading) {
    if std::str::from_utf8(source).is_err() {
        return;
    }
    let Lexed::Tokens(tokens) = lex(source) else {
        panic!("refused: {}", String::from_utf8_lossy(source));
    };
    let of_source: Vec<String> = tokens.into_iter().map(|t| t.text).collect();
    let Lexed::Tokens(tokens) = lex(reading.text) else {
        panic!("accepted before");
    };
    let of_ascii: Vec<String> = tokens.into_iter().map(|t| t.text).collect();
    assert_eq!(of_source, of_ascii, "tokens in Unicode and in ASCII");
}

fn within_limits(rows: Vec<Row>, rewritten: usize, asks: Vec<(Said, Vec<u8>)>) -> Judged {
    let list = to_bytes(&rows, Names::Plain);
    let (what, answer, rows) = match check(&list) {
        Check::Rows(_) => ("accepted", list, Some(rows)),
        // Refusal 1, 3, 4 or 6 of the list check: too many bytes, a long text, too many rows, too deep.
        Check::Refused(number, _) => {
            let what = match number {
                1 => "41, bytes",
                3 => "41, a row's text",
                4 => "41, rows",
                6 => "41, groups",
                _ => panic!("rows of a text with refusal {number}"),
            };
            (what, refusal(41, END).into_bytes(), None)
        }
    };
    Judged {
        what,
        answer,
        rows,
        rewritten,
        asks,
    }
}

fn read(text: &[u8]) -> Reading<'_> {
    let mut asked = text.to_vec();
    let (upto, tokens) = match lex_if_balanced(text) {
        Some(tokens) => (text.len(), tokens),
        None => {
            without_brackets(&mut asked);
            longest(&asked)
        }
    };
    let pieces = align(&asked[..upto], &tokens);
    for piece in &pieces {
        if let Piece::Token {
            at,
            kind: b'o' | b'c',
            ..
        } = piece
        {
            asked[*at] = b';';
        }
    }
    Reading {
        text,
        asked,
        upto,
        pieces,
    }
}

/// Mismatched brackets are a bug in the compiler that costs time, so those that look it are asked otherwise.
fn lex_if_balanced(text: &[u8]) -> Option<Vec<Token>> {
    let mut open = Vec::new();
    for byte in text {
        match byte {
            b'(' | b'[' | b'{' => open.push(closing(*byte)),
            b')' | b']' | b'}' if open.pop() != Some(*byte) => return None,
            _ => {}
        }
    }
    match lex(text) {
        Lexed::Tokens(tokens) if open.is_empty() => Some(tokens),
        _ => None,
    }
}

fn closing(open: u8) -> u8 {
    match open {
        b'(' => b')',
        b'[' => b']',
        _ => b'}',
    }
}

/// Every bracket that is a token becomes a `;`: the compiler is asked of each whether a group could stand there.
fn without_brackets(text: &mut [u8]) {
    for at in 0..text.len() {
        if b"()[]{}".contains(&text[at]) && group_fits(&text[..at]) {
            text[at] = b';';
        }
    }
}

fn group_fits(front: &[u8]) -> bool {
    match lex(&[front, b"()"].concat()) {
        Lexed::Tokens(tokens) => match &tokens[..] {
            [.., open, close] => open.text == "(" && close.text == ")" && close.kind == b'c',
            _ => false,
        },
        _ => false,
    }
}

/// The longest front that the lexer does not give up. It gives up at the first text that is left open, which begins with one
/// of these bytes or right before it, and at every front that holds some of this text.
fn longest(text: &[u8]) -> (usize, Vec<Token>) {
    if let Lexed::Tokens(tokens) = lex(text) {
        return (text.len(), tokens);
    }
    for upto in (0..text.len()).rev() {
        if b"\"'/#".contains(&text[upto]) {
            if let Lexed::Tokens(tokens) = lex(&text[..upto]) {
                return (upto, tokens);
            }
        }
    }
    panic!("no front: {}", String::from_utf8_lossy(text));
}

fn answer(reading: &Reading) -> Answer {
    let mut rows = Vec::new();
    // The open groups: where, and the byte that closes.
    let mut open: Vec<(usize, u8)> = Vec::new();
    for (n, piece) in reading.pieces.iter().enumerate() {
        match piece {
            Piece::Stray { at } => return reading.fault("40, no token's byte", *at, at + 1),
            Piece::Doc { at, end } => match doc_rows(&reading.text[*at..]) {
                Some(doc) => rows.extend(doc),
                None => return reading.postponed("40, postponed doc comment", *at, *end),
            },
            Piece::Token {
                at,
                end,
                text,
                kind,
                faulty,
            } => match kind {
                _ if reading.asked[*at] != reading.text[*at] => {
                    let byte = reading.text[*at];
                    if b"([{".contains(&byte) {
                        open.push((*at, closing(byte)));
                        rows.push(row(b'o', (byte as char).to_string()));
                    } else if open.pop().is_some_and(|(_, close)| close == byte) {
                        rows.push(row(b'c', (byte as char).to_string()));
                    } else {
                        return reading.bracket("40, close without its open", *at);
                    }
                }
                b'l' => {
                    if *faulty {
                        return reading.fault("40, faulty literal", *at, *end);
                    }
                    if postponed(text.as_bytes()) {
                        return reading.postponed("40, postponed literal", *at, *end);
                    }
                    if reading.lone_underscore(*end) {
                        return Answer::Rewrite(*end);
                    }
                    rows.push(row(b'l', text));
                }
                b'i' => {
                    if let Some(other) = reading.name(n, *at, *end, text) {
                        return other;
                    }
                    rows.push(row(b'i', text));
                }
                _ => rows.push(row(b'p', text)),
            },
        }
    }
    if reading.upto < reading.text.len() {
        return reading.fault("40, text left open", reading.upto, reading.text.len());
    }
    match open.last() {
        Some((at, _)) => reading.bracket("40, bracket left open", *at),
        None => Answer::Rows(rows),
    }
}

/// Raw strings, C strings, and bytes outside 32 to 126.
fn postponed(literal: &[u8]) -> bool {
    matches!(literal, [b'r' | b'c', ..] | [b'b', b'r', ..])
        || !literal.iter().all(|b| (32..=126).contains(b))
}

fn doc_rows(rest: &[u8]) -> Option<Vec<Row>> {
    let text = doc_text(rest)?;
    let plain = |b: &u8| (32..=126).contains(b) && !b"\"\\".contains(b);
    if !text.iter().all(plain) {
        return None;
    }
    let literal = format!("\"{}\"", String::from_utf8_lossy(text));
    Some(vec![
        row(b'p', "#"),
        row(b'o', "["),
        row(b'i', "doc"),
        row(b'p', "="),
        row(b'l', literal),
        row(b'c', "]"),
    ])
}

impl Reading<'_> {
    fn byte(&self, at: usize) -> Option<u8> {
        self.text.get(at).copied()
    }

    /// A `_` here that no name goes on from: after a literal it is no suffix. The compiler has an error and drops it.
    fn lone_underscore(&self, at: usize) -> bool {
        let goes_on = |b: u8| b.is_ascii_alphanumeric() || b == b'_';
        self.byte(at) == Some(b'_') && !self.byte(at + 1).is_some_and(goes_on)
    }

    /// What else than its row a name is.
    fn name(&self, n: usize, at: usize, end: usize, text: &str) -> Option<Answer> {
        let quote = match n.checked_sub(1).map(|before| &self.pieces[before]) {
            Some(Piece::Token {
                kind: b'p',
                text,
                end: quote,
                ..
            }) if text == "'" => *quote == at,
            _ => false,
        };
        let raw = text.strip_prefix("r#");
        let next = self.byte(end);
        if quote {
            // Reference 1.63 has no raw lifetimes and reserves nothing behind a lifetime.
            return match raw {
                Some(_) => Some(Answer::Rewrite(at + 1)),
                None if next == Some(b'#') => Some(Answer::Rewrite(end)),
                None if text.as_bytes()[0].is_ascii_digit() => {
                    Some(self.fault("40, lifetime with a number", at - 1, end))
                }
                None => None,
            };
        }
        match raw {
            Some("crate" | "self" | "super" | "Self" | "_") => {
                Some(self.fault("40, no raw name", at, end))
            }
            Some(_) => None,
            None => match next {
                Some(b'"' | b'\'' | b'#') => Some(self.prefix(at, end, text)),
                _ => None,
            },
        }
    }

    /// A name directly before a quote or `#`: reserved, or a literal's own prefix, if it is left open.
    fn prefix(&self, at: usize, end: usize, name: &str) -> Answer {
        let mut asks = self.clean_before(at);
        let mut asked = self.asked.clone();
        if !matches!(name, "b" | "r" | "br" | "c" | "cr") {
            let sound: &[u8] = match self.asked[end] {
                b'"' => b"\"z\"",
                b'\'' => b"'z'",
                _ => b"# ",
            };
            asked = [&self.asked[..end], sound].concat();
        }
        asks.push((Said::Faulty, asked));
        let what = "40, prefix";
        Answer::Refused(Refused { what, at, asks })
    }

    /// The text before the fault, which the compiler is to take. A `.` at its end keeps a name behind it: `0x1.` is an error and
    /// `0x1.z` none.
    fn clean_before(&self, at: usize) -> Vec<(Said, Vec<u8>)> {
        let mut front = self.asked[..at].to_vec();
        if front.last() == Some(&b'.') {
            front.push(b'z');
        }
        vec![(Said::Clean, front)]
    }

    fn refused(&self, what: &'static str, at: usize, said: Said, end: usize) -> Answer {
        let mut asks = self.clean_before(at);
        asks.push((said, self.asked[..end].to_vec()));
        Answer::Refused(Refused { what, at, asks })
    }

    /// Text that the compiler refuses as well.
    fn fault(&self, what: &'static str, at: usize, end: usize) -> Answer {
        self.refused(what, at, Said::Faulty, end)
    }

    /// Text that the compiler takes, but for a CR in a doc comment.
    fn postponed(&self, what: &'static str, at: usize, end: usize) -> Answer {
        let carriage_return = self.asked[at..end].contains(&b'\r');
        if carriage_return && self.asked[at] == b'/' {
            let asks = self.clean_before(at);
            return Answer::Refused(Refused { what, at, asks });
        }
        self.refused(what, at, Said::Clean, end)
    }

    /// A bracket without its mate: it is a token, and alone among brackets it is an error.
    fn bracket(&self, what: &'static str, at: usize) -> Answer {
        let mut asks = self.clean_before(at);
        asks.push((
            Said::Unbalanced,
            [&self.asked[..at], &self.text[at..=at]].concat(),
        ));
        Answer::Refused(Refused { what, at, asks })
    }
}
