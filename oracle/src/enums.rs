//! Enums for the compiler to judge: a Rust program that prints the numbers of its own enums, as the compiler has them, and
//! enums that it refuses. Both come out in the section format of the recorded answers.

use crate::check::refusal;
use crate::lists::{row, to_bytes, tokens, write_section, Names, Row};
use crate::numbers::{
    bare, number, twice, NAME_TWICE, NO_INTEGER, NO_STEP, NUMBER_TWICE, SUFFIXES,
};
use crate::rng::Rng;
use std::fmt::Write;
use std::io;

/// So many enums with literals without suffix or with `i64`, and one constant of each other integer type for every ten
/// of them.
pub fn program(count: usize, seed: u64) -> String {
    let rng = &mut Rng(seed);
    let mut items = String::from("#![allow(dead_code, non_camel_case_types)]\n");
    let mut main = String::new();
    for n in 0..count {
        one_enum(rng, n, &mut items, &mut main);
    }
    let others: Vec<&str> = SUFFIXES.iter().copied().filter(|t| *t != "i64").collect();
    for n in 0..count / 10 * others.len() {
        constant(rng, n, others[n % others.len()], &mut items, &mut main);
    }
    format!(
        "{items}\
fn put(list: &str, name: &str, numbers: &[(&str, i128)]) {{
    let mut listing = format!(\"part name number\\nenum {{name}} {{}}\\n\", numbers.len());
    for (variant, number) in numbers {{
        listing += &format!(\"variant {{variant}} {{number}}\\n\");
    }}
    print!(\"kind 1\\nrlist {{}}\\n{{list}}listing {{}}\\n{{listing}}\", list.len(), listing.len());
}}
fn main() {{
{main}}}
"
    )
}

/// An enum of unit variants with different names and numbers: the compiler refuses two that are equal.
fn one_enum(rng: &mut Rng, n: usize, items: &mut String, main: &mut String) {
    let name = format!("E{n}");
    let mut line = tokens(&format!("enum {name} {{"));
    let mut source = Vec::new();
    let mut names: Vec<String> = Vec::new();
    let mut numbers = Vec::new();
    let mut before = -1;
    for _ in 0..1 + rng.below(9) {
        let (negative, literal) = value(rng);
        let written = format!("{}{literal}", if negative { "-" } else { "" });
        let value = (!rng.one_in(2)).then_some(written.as_str());
        match number(value, before) {
            Ok(number) if !numbers.contains(&number) => {
                numbers.push(number);
                before = number;
            }
            _ => continue,
        }
        let mut variant = near_name(rng);
        while names.iter().any(|name| bare(name) == bare(&variant)) {
            variant = near_name(rng);
        }
        names.push(variant.clone());
        line.push(row(b'i', &variant));
        source.push(match value {
            Some(value) => format!("{variant} = {value}"),
            None => variant.clone(),
        });
        if value.is_some() {
            line.push(row(b'p', "="));
            if negative {
                line.push(row(b'p', "-"));
            }
            line.push(row(b'l', literal));
        }
        line.push(row(b'p', ","));
    }
    line.push(row(b'c', "}"));
    writeln!(items, "#[repr(i64)] enum {name} {{ {} }}", source.join(", ")).expect("a string");
    let pairs: Vec<String> = names
        .iter()
        .map(|v| format!("({v:?}, {name}::{v} as i128)"))
        .collect();
    put(&line, &name, &pairs.join(", "), main);
}

/// A literal with another suffix, as a constant of its type.
fn constant(rng: &mut Rng, n: usize, suffix: &str, items: &mut String, main: &mut String) {
    let bits = match suffix[1..].parse::<u32>() {
        Ok(bits) => bits.min(64),
        Err(_) => 64,
    };
    let most = match suffix.as_bytes()[0] {
        b'u' if bits < 64 => (1 << bits) - 1,
        _ => (1u64 << (bits - 1)) - 1,
    };
    let worth = if rng.one_in(4) { most } else { rng.next() % (most + 1) };
    let literal = written(rng, worth) + suffix;
    let name = format!("C{n}");
    writeln!(items, "const {name}: {suffix} = {literal};").expect("a string");
    let mut line = tokens(&format!("enum {name} {{ A ="));
    line.push(row(b'l', literal));
    line.push(row(b'c', "}"));
    put(&line, &name, &format!("(\"A\", {name} as i128)"), main);
}

fn put(list: &[Row], name: &str, pairs: &str, main: &mut String) {
    let list = String::from_utf8(to_bytes(list, Names::Plain)).expect("ASCII");
    writeln!(main, "    put({list:?}, {name:?}, &[{pairs}]);").expect("a string");
}

/// A literal with its sign. After a `-` only digits may stand.
fn value(rng: &mut Rng) -> (bool, String) {
    let worth = match rng.below(6) {
        0 => i64::MAX as u64 - rng.below(3) as u64,
        1 => i64::MAX as u64 >> rng.below(63),
        2 => rng.next() >> 1,
        _ => rng.below(300) as u64,
    };
    let negative = rng.one_in(3);
    (negative, literal(rng, negative, worth))
}

fn literal(rng: &mut Rng, negative: bool, worth: u64) -> String {
    if negative {
        let zeros = "0".repeat(rng.below(3));
        return format!("{zeros}{worth}");
    }
    let suffix = if rng.one_in(4) { "i64" } else { "" };
    written(rng, worth) + suffix
}

/// One of a few names that are near to each other, now and then with `r#`.
fn near_name(rng: &mut Rng) -> String {
    const NEAR: [&str; 16] = [
        "B", "b", "BB", "B_", "_B", "B1", "B11", "r", "R", "rB", "Main", "Nain", "Main_", "main",
        "r#fn", "r#type",
    ];
    let name = rng.pick(&NEAR);
    let raw = rng.one_in(4) && bare(name) == name;
    format!("{}{name}", if raw { "r#" } else { "" })
}

/// A number in one of the four forms, with zeros in front, letters of either case, and underscores by chance.
fn written(rng: &mut Rng, worth: u64) -> String {
    let (prefix, digits) = match rng.below(4) {
        0 => ("0b", format!("{worth:b}")),
        1 => ("0o", format!("{worth:o}")),
        2 => ("0x", format!("{worth:x}")),
        _ => ("", worth.to_string()),
    };
    let mut text = String::from(prefix);
    let underscores = rng.one_in(3);
    let underscore = |rng: &mut Rng, text: &mut String| {
        // A decimal that began with `_` would be a name.
        while underscores && !text.is_empty() && rng.one_in(4) {
            text.push('_');
        }
    };
    if rng.one_in(4) {
        text += &"0".repeat(1 + rng.below(2));
    }
    for digit in digits.chars() {
        underscore(rng, &mut text);
        text.push(if rng.one_in(2) { digit.to_ascii_uppercase() } else { digit });
    }
    underscore(rng, &mut text);
    text
}

/// What the compiler calls an enum's fault, by the sort of fault, and the number of our refusal.
const FAULTS: [(&str, &str, u8); 5] = [
    ("step", "E0370", NO_STEP),
    ("type", "E0308", NO_INTEGER),
    ("range", "overflowing_literals", NO_INTEGER),
    ("name", "E0428", NAME_TWICE),
    ("number", "E0081", NUMBER_TWICE),
];

/// What stands before an enum in its line.
const BEFORE: &str = "#[repr(i64)] ";

/// So many enums with this sort of fault, each a line of tokens parted by spaces.
pub fn faulty(count: usize, seed: u64, sort: &str) -> String {
    const OTHERS: [&str; 9] = [
        "1.5", "2e3", "1E3", "1f32", "1.0f64", "\"a\"", "'a'", "b'a'", "b\"yz\"",
    ];
    let rng = &mut Rng(seed);
    let mut lines = String::new();
    for n in 0..count {
        let mut variants: Vec<String> = Vec::new();
        // The numbers before the fault differ from those near the end of the range.
        for k in 0..rng.below(4) {
            let value = match rng.below(3) {
                0 => format!(" = - {}", 1000 * n + 100 - k),
                1 => format!(" = {}", written(rng, (1000 + 100 * k) as u64)),
                _ => String::new(),
            };
            variants.push(format!("A{k}{value}"));
        }
        match sort {
            "step" => {
                let steps = rng.below(3);
                let last = written(rng, i64::MAX as u64 - steps as u64);
                variants.push(format!("B = {last}"));
                variants.extend((0..=steps).map(|k| format!("C{k}")));
            }
            "type" => variants.push(format!("B = {}", rng.pick(&OTHERS))),
            // Alone, since the compiler goes on with what is left of a number that is too large.
            "range" => {
                let suffix = if rng.one_in(3) { "i64" } else { "" };
                let worth = rng.next() | 1 << 63;
                variants = vec![format!("B = {}{suffix}", written(rng, worth))];
            }
            "name" => variants = names_twice(rng),
            "number" => variants = numbers_twice(rng),
            _ => panic!("no such fault: {sort}"),
        }
        if sort == "step" || sort == "type" {
            variants.extend((0..rng.below(3)).map(|k| format!("D{k}")));
        }
        writeln!(lines, "{BEFORE}enum R{n} {{ {} }}", variants.join(" , ")).expect("a string");
    }
    lines
}

/// Variants of which two have one name; two numbers may be the same too.
fn names_twice(rng: &mut Rng) -> Vec<String> {
    loop {
        let count = 2 + rng.below(6);
        let names: Vec<String> = (0..count).map(|_| near_name(rng)).collect();
        if twice(&names, &[]).is_some() {
            let variant = |name: &String| match rng.below(6) {
                0 => format!("{name} = - {}", rng.below(3)),
                1 => format!("{name} = {}", rng.below(9)),
                _ => name.clone(),
            };
            return names.iter().map(variant).collect();
        }
    }
}

/// Variants with different names, of which two have one number.
fn numbers_twice(rng: &mut Rng) -> Vec<String> {
    loop {
        let least = match rng.below(4) {
            0 => i64::MAX - 20,
            1 => -i64::MAX,
            _ => -2,
        };
        let (mut variants, mut numbers) = (Vec::new(), Vec::new());
        for k in 0..2 + rng.below(6) {
            let value = (!rng.one_in(2)).then(|| {
                let number = least + rng.below(6) as i64;
                let sign = if number < 0 { "- " } else { "" };
                format!("{sign}{}", literal(rng, number < 0, number.unsigned_abs()))
            });
            variants.push(match &value {
                Some(value) => format!("B{k} = {value}"),
                None => format!("B{k}"),
            });
            let value = value.map(|value| value.replace("- ", "-"));
            let before = numbers.last().copied().unwrap_or(-1);
            numbers.push(number(value.as_deref(), before).expect("in the range"));
        }
        if twice(&[], &numbers).is_some() {
            return variants;
        }
    }
}

/// What a message of the compiler points at.
struct Label<'a> {
    line: usize,
    column: usize,
    primary: bool,
    text: &'a str,
}

/// The labels of a message, which is a line of JSON; its notes follow them.
fn labels(message: &str) -> impl Iterator<Item = Label<'_>> {
    let (message, _) = message.split_once("\"children\":").expect("a message");
    message.split("{\"file_name\":").skip(1).map(|span| {
        let value = |key: &str, end: &str| {
            let (_, rest) = span.split_once(&format!("\"{key}\":")).expect("a key");
            rest.split(end).next().expect("a value")
        };
        let number = |key| value(key, ",").parse().expect("a number");
        Label {
            line: number("line_start"),
            column: number("column_start"),
            primary: value("is_primary", ",") == "true",
            text: value("label", ",\"suggested_replacement\""),
        }
    })
}

/// The line and the column of the fault that a message tells of, both from 0.
fn fault(message: &str, sort: &str) -> (usize, usize) {
    let mut found: Vec<Label> = match sort {
        // The enum is what the message is about; every variant with the number has a label.
        "number" => labels(message)
            .filter(|label| label.text.ends_with("assigned here\""))
            .collect(),
        _ => labels(message).filter(|label| label.primary).collect(),
    };
    found.sort_by_key(|label| label.column);
    let label = &found[usize::from(sort == "number")];
    (label.line - 1, label.column - 1)
}

/// Each enum of such a source with the refusal that the compiler's messages tell, lines of JSON: its number by the
/// fault, its row by the first column that they give.
pub fn judged(out: &mut impl io::Write, source: &str, sort: &str, errors: &str) -> io::Result<()> {
    let (_, code, refused) = FAULTS
        .iter()
        .find(|(name, ..)| *name == sort)
        .expect("a sort of fault");
    let code = format!("\"code\":{{\"code\":\"{code}\"");
    let errors = errors.lines().filter(|error| error.contains(&code));
    let faults: Vec<(usize, usize)> = errors.map(|error| fault(error, sort)).collect();
    for (n, line) in source.lines().enumerate() {
        let columns = faults
            .iter()
            .filter(|(at, _)| *at == n)
            .map(|(_, column)| *column);
        let mut column = columns
            .min()
            .unwrap_or_else(|| panic!("the compiler takes {line}"));
        if sort == "number" {
            // The label stands at the value where one is written: back to the name.
            column = line[..column].rfind([',', '{']).expect("a variant") + 2;
        }
        // Before the token stand as many spaces as rows.
        let row = line[BEFORE.len()..column].matches(' ').count();
        let list = to_bytes(&tokens(&line[BEFORE.len()..]), Names::Plain);
        write_section(out, "kind", b"r")?;
        write_section(out, "list", &list)?;
        write_section(out, "listing", refusal(*refused, row).as_bytes())?;
    }
    Ok(())
}
