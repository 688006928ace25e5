//! Files of source texts: the judge's answers to them, and what the compiler is to be asked once more.

use crate::align::{align, Piece};
use crate::judge::{ascii, judge, Said};
use crate::lexing::{lex, Lexed};
use crate::lists::{read_section, to_bytes, write_section, Names, Row};
use std::collections::{BTreeMap, HashSet};
use std::fs::File;
use std::io::{BufReader, BufWriter, Write};
use std::sync::OnceLock;

fn path(name: &str) -> String {
    std::env::var(name).unwrap_or_else(|_| panic!("{name} is not set"))
}

fn create(name: &str) -> BufWriter<File> {
    BufWriter::new(File::create(path(name)).expect(name))
}

/// The sections of a file.
fn sections(name: &str) -> impl Iterator<Item = (String, Vec<u8>)> {
    let mut input = BufReader::new(File::open(path(name)).expect(name));
    std::iter::from_fn(move || read_section(&mut input).expect("sections"))
}

/// A fatal error of the lexer is a panic here, and no news.
fn quiet() {
    std::panic::set_hook(Box::new(|info| {
        if info.payload().is::<&str>() || info.payload().is::<String>() {
            eprintln!("{info}");
        }
    }));
}

/// The texts in `SOURCE_IN`, with the answers in `SOURCE_OUT`; in `SOURCE_ASKS` what the compiler is to say of which texts,
/// in `SOURCE_LISTS` the lists that are answers, in `SOURCE_COUNTS` the counts.
pub fn judge_all() {
    quiet();
    let (mut out, mut asks) = (create("SOURCE_OUT"), create("SOURCE_ASKS"));
    let mut lists = create("SOURCE_LISTS");
    let mut counts: BTreeMap<&str, usize> = BTreeMap::new();
    let mut asked = HashSet::new();
    let mut expected = None;
    let mut disappointed = 0;
    for (name, body) in sections("SOURCE_IN") {
        match name.as_str() {
            "expect" => expected = Some(String::from_utf8_lossy(&body).into_owned()),
            "text" => {
                let judged = judge(&body);
                write_section(&mut out, "text", &body).expect("SOURCE_OUT");
                write_section(&mut out, "tokens", &judged.answer).expect("SOURCE_OUT");
                let mut count = |what, n| *counts.entry(what).or_insert(0) += n;
                count(judged.what, 1);
                count("all texts", 1);
                count(
                    "rewritten for Reference 1.63",
                    usize::from(judged.rewritten > 0),
                );
                count(
                    "not ASCII, asked with another byte",
                    usize::from(!body.is_ascii()),
                );
                for (said, text) in judged.asks {
                    if asked.insert((said as u8, text.clone())) {
                        count("asks", 1);
                        write_section(&mut asks, word(said), &text).expect("SOURCE_ASKS");
                    }
                }
                let words = words(&judged.answer, judged.rows.as_deref());
                if let Some(rows) = judged.rows {
                    write_section(&mut lists, "kind", b"s").expect("SOURCE_LISTS");
                    let list = to_bytes(&rows, Names::Plain);
                    write_section(&mut lists, "list", &list).expect("SOURCE_LISTS");
                }
                if let Some(expected) = expected.take() {
                    if !words.contains(&expected) {
                        disappointed += 1;
                        let shown = String::from_utf8_lossy(&body);
                        eprintln!("not as expected: {shown:?}\n  {expected}\n  {words:?}");
                    }
                }
            }
            _ => panic!("section {name}"),
        }
    }
    for mut file in [out, asks, lists] {
        file.flush().expect("a file");
    }
    assert_eq!(disappointed, 0, "examples that do not answer as expected");
    // Last, since it says that all went well.
    let mut file = create("SOURCE_COUNTS");
    for (what, n) in counts {
        writeln!(file, "{what}: {n}").expect("SOURCE_COUNTS");
    }
    file.flush().expect("SOURCE_COUNTS");
}

fn word(said: Said) -> &'static str {
    match said {
        Said::Clean => "clean",
        Said::Faulty => "faulty",
        Said::Unbalanced => "unbalanced",
    }
}

/// An answer as the table of examples may have it: the rows or their number, or the refusal.
fn words(answer: &[u8], rows: Option<&[Row]>) -> Vec<String> {
    let Some(rows) = rows else {
        let text = String::from_utf8_lossy(answer);
        let refusal = text.lines().nth(1).expect("a refusal").to_string();
        return vec![refusal];
    };
    let row = |row: &Row| format!("{} {}", row.kind as char, row.text);
    let all: Vec<String> = rows.iter().map(row).collect();
    vec![all.join(" | "), format!("rows {}", rows.len())]
}

/// Asks about the text of that number in `SOURCE_ASKS`, from 1. Errors are messages of the compiler, but for brackets.
pub fn ask(number: usize) {
    static ASKS: OnceLock<Vec<Vec<u8>>> = OnceLock::new();
    let asks = ASKS.get_or_init(|| {
        quiet();
        sections("SOURCE_ASKS").map(|(_, text)| text).collect()
    });
    if let Lexed::Unbalanced = lex(&asks[number - 1]) {
        eprintln!("unbalanced {number}");
    }
    if number == asks.len() {
        eprintln!("asked {number}");
    }
}

/// Longer files are texts only by their declarations.
const WHOLE: usize = 16_384;

/// Each `struct` and `enum` in the files that `SOURCE_FILES` has the names of, as a text in `SOURCE_OUT`; and each file that is
/// not long, whole.
pub fn cut_all() {
    quiet();
    let mut out = create("SOURCE_OUT");
    let mut seen = HashSet::new();
    let (mut files, mut skipped) = (0, 0);
    for name in std::fs::read_to_string(path("SOURCE_FILES"))
        .expect("SOURCE_FILES")
        .lines()
    {
        let source = std::fs::read(name).expect("a source file");
        files += 1;
        let mut put = |text: &[u8]| {
            if seen.insert(text.to_vec()) {
                write_section(&mut out, "text", text).expect("SOURCE_OUT");
            }
        };
        if source.len() <= WHOLE {
            put(&source);
        }
        match declarations(&source) {
            None => skipped += 1,
            Some(texts) => texts.into_iter().for_each(put),
        }
    }
    out.flush().expect("SOURCE_OUT");
    eprintln!("files: {files}\nfiles that the compiler does not lex: {skipped}");
}

/// What a file declares, with attributes and visibility; nothing where the compiler does not lex it.
fn declarations(source: &[u8]) -> Option<Vec<&[u8]>> {
    let text = ascii(source);
    let Lexed::Tokens(tokens) = lex(&text) else {
        return None;
    };
    let pieces = align(&text, &tokens);
    let mut texts = Vec::new();
    for n in 1..pieces.len() {
        let word = token_text(&pieces[n - 1]);
        let named = matches!(&pieces[n], Piece::Token { kind: b'i', .. });
        if named && (word == "struct" || word == "enum") {
            let from = front(&pieces, n - 1);
            texts.push(&source[start(&pieces[from])..end(&pieces, n)]);
        }
    }
    Some(texts)
}

fn token_text(piece: &Piece) -> &str {
    match piece {
        Piece::Token { text, .. } => text,
        _ => "",
    }
}

fn start(piece: &Piece) -> usize {
    match piece {
        Piece::Token { at, .. } | Piece::Doc { at, .. } | Piece::Stray { at } => *at,
    }
}

/// The first piece of a declaration whose word is piece `n`: before it stand visibility, attributes and doc comments.
fn front(pieces: &[Piece], n: usize) -> usize {
    let text = |n: usize| token_text(&pieces[n]);
    let mut first = n;
    if first > 0 && text(first - 1) == "pub" {
        first -= 1;
    } else if first > 0 && text(first - 1) == ")" {
        let open = opening(pieces, first - 1);
        if open > 0 && text(open - 1) == "pub" {
            first = open - 1;
        }
    }
    while first > 0 {
        if let Piece::Doc { .. } = pieces[first - 1] {
            first -= 1;
            continue;
        }
        let open = match text(first - 1) {
            "]" => opening(pieces, first - 1),
            _ => break,
        };
        if open == 0 || text(open - 1) != "#" {
            break;
        }
        first = open - 1;
    }
    first
}

fn opening(pieces: &[Piece], close: usize) -> usize {
    let mut depth = 0;
    for n in (0..=close).rev() {
        match pieces[n] {
            Piece::Token { kind: b'c', .. } => depth += 1,
            Piece::Token { kind: b'o', .. } => depth -= 1,
            _ => {}
        }
        if depth == 0 {
            return n;
        }
    }
    panic!("the compiler has balanced them");
}

/// Where a declaration ends: after the first `;` or brace group, or before the end of what it stands in.
fn end(pieces: &[Piece], from: usize) -> usize {
    let mut depth = 0;
    let mut last = 0;
    for piece in &pieces[from..] {
        let Piece::Token {
            end, kind, text, ..
        } = piece
        else {
            continue;
        };
        match kind {
            b'o' => depth += 1,
            b'c' if depth == 0 => return last,
            b'c' => depth -= 1,
            _ => {}
        }
        last = *end;
        if depth == 0 && matches!(text.as_str(), ";" | "}") {
            return last;
        }
    }
    last
}
