//! Compares the reader with recorded answers, in process, and then reads damaged and random lists.
//! usage: compare FILE [COUNT]: a file in the format of recorded/README.md, and how many damaged copies of its lists are read
//! (default 100,000), and of its source texts; of each kind of random lists it is a tenth.
mod random;
mod reader;

use kusthrila::{check, refusal, Place, Refusal, SourceRefusal, MOST_LISTING, MOST_ROWS, SCRATCH};
use random::{Random, KINDS, MARKED, NAMES};
use reader::{Reader, Writer};
use std::collections::BTreeMap;
use std::io::{BufRead, BufReader};

// The prefix that the recorded answers were asked for.
const PREFIX: &[u8] = b"p";

// A section's name and bytes.
fn section(input: &mut impl BufRead) -> Option<(String, Vec<u8>)> {
    let mut header = String::new();
    if input.read_line(&mut header).expect("a header") == 0 {
        return None;
    }
    let (name, size) = header.trim_end().split_once(' ').expect("name and length");
    let mut body = vec![0; size.parse().expect("a length")];
    input.read_exact(&mut body).expect("a section's bytes");
    Some((name.to_string(), body))
}

fn refused(refusal: &Refusal) -> Vec<u8> {
    let number = refusal.number;
    match refusal.place {
        Place::Row(row) => format!("refused place\n{number} {row}\n").into(),
        Place::End => format!("refused place\n{number} -\n").into(),
    }
}

// The number of a refusal of a source text, and how it is printed.
fn source_refused(refusal: &SourceRefusal) -> (u8, Vec<u8>) {
    match refusal {
        SourceRefusal::At(offset) => (refusal::NO_TOKEN, format!("refused place\n40 {offset}\n").into()),
        SourceRefusal::OverLimit => (refusal::OVER_LIMIT, b"refused place\n41 -\n".to_vec()),
        SourceRefusal::ShortOutput => (refusal::SHORT_BUFFER, b"refused place\n8 -\n".to_vec()),
        SourceRefusal::InList(refusal) => (refusal.number, refused(refusal)),
    }
}

// The role bytes as letters.
fn letters(roles: Vec<u8>) -> Vec<u8> {
    roles.iter().map(|role| b'a' + role).chain([b'\n']).collect()
}

// Whether a value is written, for each variant, by the letters of every row's role. The rows of a variant's name stand together,
// and those of its value before the next name.
fn written(every: &[u8]) -> Vec<bool> {
    let mut variants = Vec::new();
    for (n, letter) in every.iter().enumerate() {
        match letter {
            b'p' if n == 0 || every[n - 1] != b'p' => variants.push(false),
            b'q' => *variants.last_mut().expect("a value has a variant") = true,
            _ => {}
        }
    }
    variants
}

#[derive(Default)]
struct Counts {
    cases: usize,
    compared: BTreeMap<String, usize>,
    refusals: BTreeMap<u8, usize>,
    differences: usize,
}

impl Counts {
    fn count(&mut self, what: &str) {
        *self.compared.entry(what.to_string()).or_default() += 1;
    }

    fn compare(&mut self, what: &str, ours: &[u8], theirs: &[u8]) {
        let same = ours.len() == theirs.len()
            // A row that the Rust's answer does not name may have any role.
            && ours.iter().zip(theirs).all(|(a, b)| a == b || (what == "roles" && *b == b'.'));
        self.count(what);
        if !same {
            self.differences += 1;
            if self.differences <= 10 {
                let [ours, theirs] = [ours, theirs].map(String::from_utf8_lossy);
                println!("differs: case {}, {what}: {ours:?}, recorded {theirs:?}", self.cases);
            }
        }
    }

    // The value of every variant, a line for each, and of one that is not there.
    fn values(&mut self, reader: &mut Reader, list: &[u8], every: &[u8], values: &[u8]) {
        let values = std::str::from_utf8(values).expect("ASCII");
        let written = written(every);
        self.compare("variants", written.len().to_string().as_bytes(), values.lines().count().to_string().as_bytes());
        for (position, (text, written)) in values.lines().zip(written).enumerate() {
            let theirs = if written { text } else { "none" };
            self.compare("values", &value(reader, list, position), theirs.as_bytes());
            if written {
                self.count("values written");
            }
        }
        self.compare("values of no variant", &value(reader, list, values.lines().count()), b"none");
    }
}

// The value of a variant, `none`, or the refusal.
fn value(reader: &mut Reader, list: &[u8], position: usize) -> Vec<u8> {
    match reader.value(list, position, SCRATCH) {
        Ok(Some(text)) => text,
        Ok(None) => b"none".to_vec(),
        Err(refusal) => refused(&refusal),
    }
}

fn main() {
    let mut words = std::env::args().skip(1);
    let path = words.next().expect("usage: compare FILE [COUNT]");
    let count: usize = words.next().map_or(100_000, |word| word.parse().expect("a number"));
    let mut input = BufReader::new(std::fs::File::open(&path).expect("the file"));
    let (mut reader, mut counts) = (Reader::new(), Counts::default());
    let (mut list, mut every, mut lists) = (Vec::new(), Vec::new(), Vec::new());
    let (mut lifetimes, mut types) = (Vec::new(), Vec::new());
    let (mut text, mut texts) = (Vec::new(), Vec::new());
    while let Some((name, body)) = section(&mut input) {
        let fill = counts.cases as u8;
        match name.as_str() {
            "list" => {
                counts.cases += 1;
                if counts.cases % 97 == 0 && body.len() < 4096 {
                    lists.push(body.clone());
                }
                if body.starts_with(MARKED) {
                    counts.count("lists with joint marks");
                }
                (list, every) = (body, Vec::new());
            }
            "check" => {
                let ours = check(&list).map_or_else(|refusal| refused(&refusal), |rows| format!("rows {rows}\n").into());
                counts.compare("check", &ours, &body);
            }
            "roles" => {
                let ours = match reader.read(&list, MOST_ROWS, fill) {
                    Ok(roles) => [b"accepted\n".to_vec(), letters(roles)].concat(),
                    Err(refusal) => {
                        *counts.refusals.entry(refusal.number).or_default() += 1;
                        refused(&refusal)
                    }
                };
                counts.compare("roles", &ours, &body);
                if !body.starts_with(b"accepted") {
                    counts.compare("values refused", &value(&mut reader, &list, 0), &body);
                }
            }
            "values" => counts.values(&mut reader, &list, &every, &body),
            "every" => {
                let ours = reader.read(&list, MOST_ROWS, !fill).map_or_else(|refusal| refused(&refusal), letters);
                counts.compare("every", &ours, &body);
                every = body;
            }
            "listing" => {
                let ours = reader.listing(&list, MOST_LISTING).unwrap_or_else(|refusal| {
                    if refusal.number > 31 {
                        *counts.refusals.entry(refusal.number).or_default() += 1;
                    }
                    refused(&refusal)
                });
                counts.compare("listing", &ours, &body);
            }
            "impl" | "type" | "additional" | "added" => {
                let writer = match name.as_str() {
                    "impl" => Writer::Impl,
                    "type" => Writer::Type,
                    "additional" => Writer::Additional(b"x\n", b"Y\nZ"),
                    _ => Writer::Additional(&lifetimes, &types),
                };
                let ours = match reader.generics(&list, writer, writer.most()) {
                    Ok(list) => list,
                    Err(refusal) => {
                        *counts.refusals.entry(refusal.number).or_default() += 1;
                        refused(&refusal)
                    }
                };
                counts.compare(&name, &ours, &body);
            }
            // A source text, and its token list.
            "text" => {
                counts.cases += 1;
                if counts.cases % 97 == 0 && !body.is_empty() && body.len() < 4096 {
                    texts.push(body.clone());
                }
                text = body;
            }
            "tokens" => {
                let ours = reader.source(&text).unwrap_or_else(|refusal| {
                    let (number, printed) = source_refused(&refusal);
                    *counts.refusals.entry(number).or_default() += 1;
                    printed
                });
                counts.compare("tokens", &ours, &body);
            }
            // The texts of the names that `added` was asked with.
            "lifetimes" => lifetimes = body,
            "types" => types = body,
            "tagged" => {
                let ours = match reader.tagged(&list, PREFIX, MOST_ROWS, fill) {
                    Ok(Some(roles)) => [b"accepted\n".to_vec(), letters(roles)].concat(),
                    Ok(None) => b"none\n".to_vec(),
                    Err(refusal) => {
                        *counts.refusals.entry(refusal.number).or_default() += 1;
                        refused(&refusal)
                    }
                };
                counts.compare("tagged", &ours, &body);
                if NAMES.iter().any(|names| list.strip_prefix(*names).is_some_and(|rows| rows.starts_with(b"o "))) {
                    counts.count("tagged, lists that begin with a group");
                }
            }
            _ => {}
        }
    }
    println!("cases {}", counts.cases);
    for (what, count) in &counts.compared {
        println!("{what} {count}");
    }
    for (number, count) in &counts.refusals {
        println!("refusal {number}: {count}");
    }

    let random = &mut Random(0x9E37_79B9_7F4A_7C15);
    let damaged = if lists.is_empty() { 0 } else { count };
    let mut accepted = 0;
    for _ in 0..damaged {
        let from = random.below(lists.len());
        let list = random.damaged(&lists[from]);
        accepted += usize::from(reader.answer(&list, random));
    }
    println!("damaged lists answered {damaged}, accepted {accepted}");
    if !texts.is_empty() {
        let mut accepted = 0;
        for _ in 0..count {
            let from = random.below(texts.len());
            accepted += usize::from(reader.source(&random.damaged(&texts[from])).is_ok());
        }
        println!("damaged source texts answered {count}, accepted {accepted}");
    }
    for kind in KINDS {
        let mut accepted = 0;
        for n in 0..count / 10 {
            // The first are about as long as a list may be.
            let most = 1 << random.below(13);
            let len = if n < 6 { 65_534 + n } else { random.below(most) };
            let list = random.list(kind, len);
            accepted += usize::from(reader.answer(&list, random));
        }
        println!("random lists ({kind}) answered {}, accepted {accepted}", count / 10);
    }
    println!("differences {}", counts.differences);
    if counts.differences > 0 {
        std::process::exit(1);
    }
}
