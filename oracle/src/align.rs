//! Where a text's tokens stand in it: the compiler's tokens from `from_str` have no places.

use crate::lexing::Token;

pub enum Piece {
    Token {
        at: usize,
        end: usize,
        kind: u8,
        text: String,
        faulty: bool,
    },
    /// A doc comment, without the line's end.
    Doc { at: usize, end: usize },
    /// A byte that the compiler has dropped.
    Stray { at: usize },
}

/// The tokens of a whole text, each where it stands. Between them are whitespace, comments, and bytes that the
/// compiler drops after an error.
pub fn align(text: &[u8], tokens: &[Token]) -> Vec<Piece> {
    let mut pieces = Vec::new();
    let mut tokens = tokens.iter().peekable();
    let mut at = 0;
    while at < text.len() {
        let rest = &text[at..];
        if is_space(rest[0]) {
            at += 1;
        } else if let Some(length) = comment(rest) {
            let end = at + length;
            if is_doc(rest) {
                skip_doc(&mut tokens, rest);
                pieces.push(Piece::Doc { at, end });
            }
            at = end;
        } else if let Some(length) = tokens.peek().and_then(|t| same(rest, t.text.as_bytes())) {
            let token = tokens.next().expect("just seen");
            let end = at + length;
            pieces.push(Piece::Token {
                at,
                end,
                kind: token.kind,
                text: token.text.clone(),
                faulty: token.faulty,
            });
            at = end;
        } else {
            pieces.push(Piece::Stray { at });
            at += 1;
        }
    }
    let left: Vec<&str> = tokens.map(|t| t.text.as_str()).collect();
    let shown = String::from_utf8_lossy(text);
    assert!(left.is_empty(), "tokens without a place: {left:?}\n{shown}");
    pieces
}

pub fn is_space(byte: u8) -> bool {
    matches!(byte, b'\t'..=b'\r' | b' ')
}

/// How long the comment is that stands here; a line's ends before its LF.
fn comment(rest: &[u8]) -> Option<usize> {
    if rest.starts_with(b"//") {
        return Some(rest.iter().position(|b| *b == b'\n').unwrap_or(rest.len()));
    }
    if !rest.starts_with(b"/*") {
        return None;
    }
    let (mut depth, mut at) = (1, 2);
    while depth > 0 {
        match &rest[at..] {
            [b'/', b'*', ..] => (depth, at) = (depth + 1, at + 2),
            [b'*', b'/', ..] => (depth, at) = (depth - 1, at + 2),
            [] => return None,
            _ => at += 1,
        }
    }
    Some(at)
}

fn is_doc(rest: &[u8]) -> bool {
    match rest {
        [b'/', b'/', b'/', b'/', ..] | [b'/', b'*', b'*', b'*' | b'/', ..] => false,
        [b'/', b'/', b'/' | b'!', ..] | [b'/', b'*', b'*' | b'!', ..] => true,
        _ => false,
    }
}

/// The compiler has a doc comment as an attribute, in which every `'` has a backslash.
fn skip_doc<'a>(tokens: &mut impl Iterator<Item = &'a Token>, rest: &[u8]) {
    let mut next = || tokens.next().map_or("", |t| t.text.as_str());
    let inner = if rest[2] == b'!' { "!" } else { "" };
    let before: String = (0..4 + inner.len()).map(|_| next()).collect();
    assert_eq!(before, format!("#{inner}[doc="), "a doc comment's tokens");
    let literal = next().to_string();
    assert_eq!(next(), "]", "a doc comment's tokens");
    if let Some(text) = doc_text(rest) {
        if text.iter().all(|b| (32..=126).contains(b)) {
            let escaped = String::from_utf8_lossy(text).escape_debug().to_string();
            assert_eq!(literal, format!("\"{escaped}\""), "a doc comment's text");
        }
    }
}

/// The text of an outer line that begins here: without the slashes, LF, and one CR before it.
pub fn doc_text(rest: &[u8]) -> Option<&[u8]> {
    let text = rest.strip_prefix(b"///")?;
    match text.iter().position(|b| *b == b'\n') {
        Some(end) => Some(text[..end].strip_suffix(b"\r").unwrap_or(&text[..end])),
        None => Some(text),
    }
}

/// How many bytes here are that token. The compiler has each CR LF as LF.
fn same(rest: &[u8], token: &[u8]) -> Option<usize> {
    let mut at = 0;
    for byte in token {
        if *byte == b'\n' && rest[at..].starts_with(b"\r\n") {
            at += 1;
        }
        if rest.get(at) != Some(byte) {
            return None;
        }
        at += 1;
    }
    Some(at)
}
