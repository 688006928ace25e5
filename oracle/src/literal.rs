//! Literals that can be compared.

use crate::numbers::SUFFIXES;

/// Whether Rust reads the text as one faultless literal. Narrower than Rust on purpose:
/// a list with another literal is left out of the comparison.
pub fn sound_literal(text: &str) -> bool {
    let body = |s: &str, quote: u8| {
        let b = s.as_bytes();
        let mut i = 0;
        let mut units = 0;
        while i < b.len() {
            match b[i] {
                b'\\' => {
                    if i + 1 >= b.len() || !b"nrt\\'\"".contains(&b[i + 1]) {
                        return None;
                    }
                    i += 2;
                }
                q if q == quote => return None,
                _ => i += 1,
            }
            units += 1;
        }
        Some(units)
    };
    let quoted = |s: &str, q: char| -> Option<String> {
        let inner = s.strip_prefix(q)?.strip_suffix(q)?;
        (s.len() >= 2).then(|| inner.to_string())
    };
    if let Some(inner) = quoted(text, '"') {
        return body(&inner, b'"').is_some();
    }
    if let Some(inner) = quoted(text, '\'') {
        return body(&inner, b'\'') == Some(1);
    }
    if let Some(rest) = text.strip_prefix('b') {
        if let Some(inner) = quoted(rest, '\'') {
            return body(&inner, b'\'') == Some(1);
        }
        if let Some(inner) = quoted(rest, '"') {
            return body(&inner, b'"').is_some();
        }
    }
    if let Some(inner) = text.strip_prefix('c').and_then(|rest| quoted(rest, '"')) {
        return body(&inner, b'"').is_some();
    }
    for prefix in ["br", "cr", "r"] {
        if let Some(rest) = text.strip_prefix(prefix) {
            let hashes = rest.len() - rest.trim_start_matches('#').len();
            let fence = "#".repeat(hashes);
            let inner = rest[hashes..]
                .strip_suffix(fence.as_str())
                .and_then(|s| quoted(s, '"'));
            return inner.is_some_and(|s| !s.contains('"'));
        }
    }
    number(text)
}

fn number(text: &str) -> bool {
    let digits = |s: &str, f: fn(&u8) -> bool| {
        let n = s.bytes().take_while(|b| f(b) || *b == b'_').count();
        (s[..n].to_string(), s[n..].to_string())
    };
    let real = |s: &str| s.bytes().any(|b| b != b'_');
    for (prefix, f) in [
        ("0x", u8::is_ascii_hexdigit as fn(&u8) -> bool),
        ("0o", |b: &u8| (b'0'..=b'7').contains(b)),
        ("0b", |b: &u8| (b'0'..=b'1').contains(b)),
    ] {
        if let Some(rest) = text.strip_prefix(prefix) {
            let (d, suffix) = digits(rest, f);
            return real(&d) && (suffix.is_empty() || SUFFIXES.contains(&suffix.as_str()));
        }
    }
    let (whole, rest) = digits(text, u8::is_ascii_digit);
    if whole.is_empty() || whole.starts_with('_') {
        return false;
    }
    if rest.is_empty() || SUFFIXES.contains(&rest.as_str()) || rest == "f32" || rest == "f64" {
        return true;
    }
    let mut rest = rest;
    if let Some(after) = rest.strip_prefix('.') {
        let (d, r) = digits(after, u8::is_ascii_digit);
        if d.is_empty() || d.starts_with('_') {
            return false;
        }
        rest = r;
    }
    if let Some(after) = rest.strip_prefix(['e', 'E']) {
        let after = after.strip_prefix(['+', '-']).unwrap_or(after);
        let (d, r) = digits(after, u8::is_ascii_digit);
        if !real(&d) {
            return false;
        }
        rest = r;
    }
    rest.is_empty() || rest == "f32" || rest == "f64"
}
