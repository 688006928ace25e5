//! Runs the Rust on token lists and writes what it answers in the words of document 01.

use crate::added;
use crate::check::{check, columns, printed, refusal, Check, END};
use crate::expect::{meets, Sections};
use crate::lists::{mates, read_section, to_bytes, write_section, Names, Row};
use crate::literal::sound_literal;
use crate::model;
use crate::parse::{Attribute, AttributeLocation, DataType, Generics, Parse, Visibility};
use crate::reading::{lifetimes, row_of, Reading};
use crate::refusals::{number_and_place, place, Refusal};
use crate::rng::Rng;
use crate::stream_builder::StreamBuilder;
use crate::trees::trees;
use crate::utils::{parse_tagged_attribute, ParsedAttribute};
use crate::written::written;
use proc_macro::{Ident, Literal, Punct, Spacing, Span, TokenStream, TokenTree};
use std::cell::Cell;
use std::collections::{BTreeMap, HashMap};
use std::fs::File;
use std::io::{BufReader, BufWriter, Write};
use std::panic::{catch_unwind, AssertUnwindSafe};
use std::str::FromStr;

/// The names that the writer with additional names gets, in every case.
const ADDED_LIFETIMES: [&str; 1] = ["x"];
const ADDED_TYPES: [&str; 2] = ["Y", "Z"];

/// The prefix that tagged attributes are asked for, in every case.
const PREFIX: &str = "p";

thread_local! {
    static QUIET: Cell<bool> = const { Cell::new(false) };
}

pub fn run(spans: Vec<Span>) {
    let hook = std::panic::take_hook();
    // Refusal 27 is a panic in the Rust; only other panics are worth a message.
    std::panic::set_hook(Box::new(move |info| {
        if !QUIET.with(|q| q.get()) {
            hook(info)
        }
    }));
    let path = |name: &str| std::env::var(name).unwrap_or_else(|_| panic!("{name} is not set"));
    let mut input = BufReader::new(File::open(path("ORACLE_IN")).expect("ORACLE_IN"));
    let mut out = BufWriter::new(File::create(path("ORACLE_OUT")).expect("ORACLE_OUT"));
    let mut oracle = Oracle {
        spans,
        idents: HashMap::new(),
        literals: HashMap::new(),
        counts: BTreeMap::new(),
        added: std::env::var("ORACLE_ADDED")
            .ok()
            .map(|seed| Rng(seed.parse().expect("ORACLE_ADDED"))),
    };
    let mut kind = String::from("?");
    let mut expected = String::new();
    let mut disappointed = 0;
    while let Some((name, body)) = read_section(&mut input).expect("ORACLE_IN") {
        let text = || String::from_utf8_lossy(&body).into_owned();
        if name == "expect" {
            // What an example is said to answer: for the oracle alone.
            expected = text();
            continue;
        }
        write_section(&mut out, &name, &body).expect("ORACLE_OUT");
        if name == "kind" {
            kind = text();
        }
        if name == "list" {
            let sections = oracle.case(&kind, &body);
            for (name, body) in &sections {
                write_section(&mut out, name, body).expect("ORACLE_OUT");
            }
            let names = Names::of(&body).unwrap_or(Names::Plain);
            for words in expected
                .split("=>")
                .map(str::trim)
                .filter(|w| !w.is_empty())
            {
                if !meets(&sections, names, words) {
                    disappointed += 1;
                    eprintln!("not as expected: {words}\n{}", text());
                }
            }
            expected.clear();
        }
    }
    out.flush().expect("ORACLE_OUT");
    let mut counts = File::create(path("ORACLE_COUNTS")).expect("ORACLE_COUNTS");
    for (what, n) in &oracle.counts {
        writeln!(counts, "{what}: {n}").expect("ORACLE_COUNTS");
    }
    assert_eq!(disappointed, 0, "examples that do not answer as expected");
}

/// What the Rust answers, or its panic, without a message.
fn quietly<T>(ask: impl FnOnce() -> T) -> std::thread::Result<T> {
    QUIET.with(|q| q.set(true));
    let answer = catch_unwind(AssertUnwindSafe(ask));
    QUIET.with(|q| q.set(false));
    answer
}

/// What is written for accepted rows: a letter for each.
fn accepted(letters: &[u8]) -> Vec<u8> {
    [&b"accepted\n"[..], letters, b"\n"].concat()
}

/// The rows of a list that passes the list check.
fn to_rows(list: &[u8], names: Names) -> Vec<Row> {
    let text = std::str::from_utf8(list).expect("a checked list is ASCII");
    let row = |line: &str| {
        let (kind, joint, text) = columns(line.as_bytes(), names).expect("checked");
        let text = String::from_utf8_lossy(text).into_owned();
        Row { kind, joint, text }
    };
    text.lines().skip(1).map(row).collect()
}

struct Oracle {
    spans: Vec<Span>,
    // Made once and copied: a literal made from text costs the compiler a source file.
    idents: HashMap<String, Ident>,
    literals: HashMap<String, Literal>,
    counts: BTreeMap<String, usize>,
    // Where names of every kind are added too: what they are taken from.
    added: Option<Rng>,
}

impl Oracle {
    fn count(&mut self, what: String) {
        *self.counts.entry(what).or_insert(0) += 1;
    }

    fn case(&mut self, kind: &str, list: &[u8]) -> Sections {
        let mut sections: Sections = Vec::new();
        let mut put = |name: &'static str, body: &[u8]| sections.push((name, body.to_vec()));
        self.count("all lists".into());
        self.count(format!("kind {kind}, lists"));
        let names = Names::of(list).unwrap_or(Names::Plain);
        if names == Names::Marked {
            self.count(format!("kind {kind}, lists with marks"));
        }
        let answer = check(list);
        put("check", printed(answer).as_bytes());
        if let Check::Refused(number, _) = answer {
            self.count(format!("kind {kind}, refused by the list check"));
            self.count(format!("list check, refusal {number:2}"));
            return sections;
        }
        let rows = to_rows(list, names);
        if rows
            .iter()
            .any(|row| row.kind == b'l' && !sound_literal(&row.text))
        {
            self.count(format!("kind {kind}, not compared (literals)"));
            return sections;
        }
        let mate = mates(&rows);
        // First all punctuation apart, since a joint `'` and its name share a span; then as the list has it.
        let lifetimes = lifetimes(&rows);
        let no_lifetimes = vec![false; rows.len()];
        let trees = self.trees(&rows, |_| Spacing::Alone);
        let joint_trees = self.trees(&rows, spacing);
        let model = model::roles(&rows, &mate);
        let declaration = self.declaration(&trees);
        let joint_declaration = self.declaration(&joint_trees);
        if let (Err(of_model), Err(of_rust)) = (&model, &declaration) {
            assert_eq!(of_model, of_rust, "the model refuses otherwise: {rows:?}");
        }

        match (declaration, joint_declaration) {
            (Err((number, place)), Err(joint)) => {
                assert!(model.is_err(), "the model accepts: {rows:?}");
                assert!(
                    same((number, place), joint, &lifetimes),
                    "joint, {joint:?}: {rows:?}"
                );
                self.count(format!("kind {kind}, refused"));
                self.count(format!("declaration, refusal {number:2}"));
                let text = refusal(number, place);
                put("roles", text.as_bytes());
                put("listing", text.as_bytes());
            }
            (Ok(parse), Ok(joint_parse)) => {
                self.count(format!("kind {kind}, accepted"));
                let reading = Reading::new(&rows, &mate, &no_lifetimes, &parse);
                let joint = Reading::new(&rows, &mate, &lifetimes, &joint_parse);
                assert_eq!(reading.roles, joint.roles, "joint: {rows:?}");
                assert_eq!(reading.listing, joint.listing, "joint: {rows:?}");
                assert_eq!(reading.values, joint.values, "joint: {rows:?}");
                put("roles", &accepted(&reading.roles));
                let mut model =
                    model.unwrap_or_else(|r| panic!("the model refuses {r:?}: {rows:?}"));
                model.iter_mut().for_each(|role| *role += b'a');
                for (of_model, of_rust) in model.iter().zip(&reading.roles) {
                    assert!(
                        *of_rust == b'.' || of_rust == of_model,
                        "the model: {rows:?}"
                    );
                }
                model.push(b'\n');
                put("every", &model);
                put("values", reading.values.as_bytes());
                let listing = reading.listing.unwrap_or_else(|(number, place)| {
                    self.count(format!("listing, refusal {number:2}"));
                    refusal(number, place)
                });
                put("listing", listing.as_bytes());
                let not_joint = Cell::new(0);
                let written = |write: &dyn Fn(&Generics) -> StreamBuilder| {
                    let [apart, joint] = [&parse, &joint_parse].map(|parse| {
                        let (Parse::Struct { generics, .. } | Parse::Enum { generics, .. }) = parse;
                        let stream = generics.as_ref().map(|generics| write(generics).stream);
                        stream.unwrap_or_default()
                    });
                    let (rows, copied_apart) = written(apart, joint, &rows);
                    not_joint.set(not_joint.get() + copied_apart);
                    to_bytes(&rows, names)
                };
                let lifetimes = ADDED_LIFETIMES.map(String::from);
                let types = ADDED_TYPES.map(String::from);
                put("impl", &written(&|g| g.impl_generics()));
                put("type", &written(&|g| g.type_generics()));
                put(
                    "additional",
                    &written(&|g| g.impl_generics_with_additional(&lifetimes, &types)),
                );
                if let Some(rng) = &mut self.added {
                    let texts = [added::text(rng), added::text(rng)];
                    put("lifetimes", &texts[0]);
                    put("types", &texts[1]);
                    let names = texts.map(|text| added::names(&text));
                    let (what, answer) = match names {
                        [Some(lifetimes), Some(types)] => (
                            "added names, written",
                            written(&|g| g.impl_generics_with_additional(&lifetimes, &types)),
                        ),
                        _ => ("added names, refusal 30", refusal(30, END).into_bytes()),
                    };
                    put("added", &answer);
                    self.count(what.into());
                }
                if not_joint.get() > 0 {
                    let what = "written, ' that the Rust copies as not joint";
                    self.count(format!("{what}, lists"));
                    *self.counts.entry(what.into()).or_insert(0) += not_joint.get();
                }
            }
            (declaration, joint) => {
                panic!("{:?}, joint {:?}: {rows:?}", declaration.err(), joint.err())
            }
        }
        let tagged = tagged(&trees, &mate, &no_lifetimes);
        let same_tagged = match (&tagged, self::tagged(&joint_trees, &mate, &lifetimes)) {
            (Tagged::Refused(apart), Tagged::Refused(joint)) => same(*apart, joint, &lifetimes),
            (Tagged::None, Tagged::None) => true,
            (Tagged::Roles(apart), Tagged::Roles(joint)) => *apart == joint,
            _ => false,
        };
        assert!(same_tagged, "joint, tagged: {rows:?}");
        self.count(match &tagged {
            Tagged::Refused((number, _)) => format!("tagged, refusal {number:2}"),
            Tagged::None => "tagged, none".into(),
            Tagged::Roles(_) => "tagged, accepted".into(),
        });
        match tagged {
            Tagged::Refused((number, place)) => put("tagged", refusal(number, place).as_bytes()),
            Tagged::None => put("tagged", b"none\n"),
            Tagged::Roles(roles) => put("tagged", &accepted(&roles)),
        }
        sections
    }

    fn trees(&mut self, rows: &[Row], spacing: impl Fn(&Row) -> Spacing) -> Vec<TokenTree> {
        let Oracle {
            spans,
            idents,
            literals,
            ..
        } = self;
        let leaf = |row: &Row, span: Span| {
            let text = &row.text;
            let mut tree: TokenTree = match row.kind {
                b'i' => idents
                    .entry(text.to_string())
                    .or_insert_with(|| match text.strip_prefix("r#") {
                        Some(name) => Ident::new_raw(name, span),
                        None => Ident::new(text, span),
                    })
                    .clone()
                    .into(),
                b'l' => literals
                    .entry(text.to_string())
                    .or_insert_with(|| {
                        let literal = Literal::from_str(text)
                            .unwrap_or_else(|_| panic!("not a literal: {text}"));
                        assert_eq!(literal.to_string(), *text, "a literal keeps its text");
                        literal
                    })
                    .clone()
                    .into(),
                _ => Punct::new(text.as_bytes()[0] as char, spacing(row)).into(),
            };
            tree.set_span(span);
            tree
        };
        trees(rows, |row| spans[row], leaf)
    }

    fn declaration(&self, trees: &[TokenTree]) -> Result<Parse, Refusal> {
        let input = TokenStream::from_iter(trees.iter().cloned());
        match quietly(|| Parse::new(input)) {
            Ok(Ok(parse)) => Ok(parse),
            Ok(Err(error)) => Err(number_and_place(&error)),
            Err(_) => Err((27, place_of_panic(trees))),
        }
    }
}

/// Reads once more, up to the panic, from an iterator that remembers what it handed out last: the
/// Rust panics on the token it has just taken (27), in `ConstGeneric::take` alone.
fn place_of_panic(trees: &[TokenTree]) -> usize {
    let last = Cell::new(None);
    let mut source = trees.iter().cloned();
    let mut watched = std::iter::from_fn(|| {
        let token = source.next();
        last.set(Some(token.as_ref().map_or(END, |t| place(t.span()))));
        token
    })
    .peekable();
    let input = &mut watched;
    let before = (|| -> crate::Result<()> {
        Attribute::try_take(AttributeLocation::Container, input)?;
        Visibility::try_take(input)?;
        DataType::take(input)?;
        Ok(())
    })();
    assert!(before.is_ok(), "a panic outside generics");
    let generics = quietly(|| Generics::try_take(input).is_ok());
    assert!(generics.is_err(), "a panic outside generics");
    last.get().expect("a token was asked for")
}

/// The spacing that a row of punctuation has in its list.
fn spacing(row: &Row) -> Spacing {
    if row.joint {
        Spacing::Joint
    } else {
        Spacing::Alone
    }
}

/// Whether a refusal is the same from joint tokens, where one of a lifetime's rows may stand for the other.
fn same(apart: Refusal, joint: Refusal, lifetimes: &[bool]) -> bool {
    let (first, last) = (apart.1.min(joint.1), apart.1.max(joint.1));
    apart.0 == joint.0 && (first == last || (first + 1 == last && lifetimes[first]))
}

enum Tagged {
    Refused(Refusal),
    None,
    Roles(Vec<u8>),
}

/// 31 is ours: the Rust is handed a group, never a list.
fn tagged(trees: &[TokenTree], mate: &[usize], lifetimes: &[bool]) -> Tagged {
    let group = match trees.first() {
        None => return Tagged::Refused((31, END)),
        Some(TokenTree::Group(group)) => group,
        Some(_) => return Tagged::Refused((31, 0)),
    };
    if trees.len() > 1 {
        return Tagged::Refused((31, mate[0] + 1));
    }
    match parse_tagged_attribute(group, PREFIX) {
        Err(error) => Tagged::Refused(number_and_place(&error)),
        Ok(None) => Tagged::None,
        Ok(Some(parts)) => {
            // Every row that the answer does not name is "other".
            let mut roles = vec![b'a' + 23; mate.len()];
            for part in parts {
                match part {
                    ParsedAttribute::Tag(tag) => roles[row_of(tag.span(), lifetimes)] = b'a' + 20,
                    ParsedAttribute::Property(key, value) => {
                        roles[row_of(key.span(), lifetimes)] = b'a' + 21;
                        roles[row_of(value.span(), lifetimes)] = b'a' + 22;
                    }
                }
            }
            Tagged::Roles(roles)
        }
    }
}
