//! Writes test lists in the section format of the recorded answers, to standard output:
//!   lists cases COUNT SEED EXAMPLES   kinds a to e, after the examples of a file
//!   lists checks                      the table of bad input, with the answers of the list check
//!   lists tokens LINE..               one list for each line of tokens
//!   lists counts                      what a replay of the sections in standard input is to print
//!   lists enums COUNT SEED            a Rust program that prints such sections with the numbers of its own enums
//!   lists faulty COUNT SEED FAULT     enums that rustc refuses for their numbers or names, a line each
//!   lists judged SOURCE FAULT         such enums, with rustc's messages in standard input, as sections
//!   lists sources COUNT SEED PART EXAMPLES   source texts; the first part, 0, has the examples and more
//!   lists confirm ASKS                whether rustc's messages in standard input say of each text what they are to say

mod bad_input;
mod bodies;
mod chain;
mod check;
mod confirm;
mod contexts;
mod damage;
mod enums;
mod grammar;
mod limits;
mod lists;
mod marks;
mod numbers;
mod rng;
mod source;
mod source_limits;
mod source_pieces;

use lists::{read_section, to_bytes, tokens, write_section, Names};
use rng::Rng;
use std::io::{self, BufWriter, Write};

fn main() -> io::Result<()> {
    let args: Vec<String> = std::env::args().skip(1).collect();
    let out = &mut BufWriter::new(io::stdout().lock());
    match args.first().map(String::as_str) {
        Some("cases") if args.len() == 4 => {
            let count = args[1].parse().expect("COUNT is a number");
            let seed = args[2].parse().expect("SEED is a number");
            let examples = std::fs::read_to_string(&args[3])?;
            cases(out, count, seed, &examples)?;
        }
        Some("checks") => {
            for (name, list) in bad_input::table() {
                write_section(out, "name", name.as_bytes())?;
                write_section(out, "list", &list)?;
                write_section(out, "check", check::printed(check::check(&list)).as_bytes())?;
            }
        }
        Some("tokens") => {
            for line in &args[1..] {
                write_section(out, "list", &list(line))?;
            }
        }
        Some("counts") => counts(out)?,
        Some("enums") if args.len() == 3 => {
            let count = args[1].parse().expect("COUNT is a number");
            let seed = args[2].parse().expect("SEED is a number");
            write!(out, "{}", enums::program(count, seed))?;
        }
        Some("faulty") if args.len() == 4 => {
            let count = args[1].parse().expect("COUNT is a number");
            let seed = args[2].parse().expect("SEED is a number");
            write!(out, "{}", enums::faulty(count, seed, &args[3]))?;
        }
        Some("judged") if args.len() == 3 => {
            let source = std::fs::read_to_string(&args[1])?;
            let errors = io::read_to_string(io::stdin())?;
            enums::judged(out, &source, &args[2], &errors)?;
        }
        Some("sources") if args.len() == 5 => {
            let number = |n: usize| args[n].parse::<u64>().expect("a number");
            let table = std::fs::read_to_string(&args[4])?;
            source::cases(out, number(1) as usize, number(2), number(3), &table)?;
        }
        Some("confirm") if args.len() == 2 => {
            let asks = std::fs::File::open(&args[1])?;
            let messages = io::stdin().lock();
            confirm::confirm(out, &mut io::BufReader::new(asks), messages)?;
        }
        _ => {
            eprintln!("usage: lists cases COUNT SEED EXAMPLES | checks | tokens LINE.. | counts | enums COUNT SEED");
            eprintln!("       lists faulty COUNT SEED FAULT | judged SOURCE FAULT");
            eprintln!("       lists sources COUNT SEED PART EXAMPLES | confirm ASKS");
            std::process::exit(2);
        }
    }
    out.flush()
}

/// The list of tokens in one line; the names with marks where the word `joint` stands before them.
fn list(line: &str) -> Vec<u8> {
    match line.trim_start().strip_prefix("joint ") {
        Some(line) => to_bytes(&tokens(line), Names::Marked),
        None => to_bytes(&tokens(line), Names::Plain),
    }
}

/// The lines of the file of examples: tokens, ` => `, what is expected.
fn examples(text: &str) -> impl Iterator<Item = (&str, &str)> {
    text.lines()
        .filter(|line| !line.starts_with("//") && !line.trim().is_empty())
        .map(|line| line.split_once("=>").expect("an example has =>"))
}

fn cases(out: &mut impl Write, count: usize, seed: u64, example_text: &str) -> io::Result<()> {
    let rng = &mut Rng(seed);
    let mut put = |kind: &str, expected: &str, list: &[u8]| {
        write_section(out, "kind", kind.as_bytes())?;
        if !expected.is_empty() {
            write_section(out, "expect", expected.as_bytes())?;
        }
        write_section(out, "list", list)
    };
    for (line, expected) in examples(example_text) {
        put("a", expected, &list(line))?;
    }
    let mut put = |kind: &str, list: &[u8]| put(kind, "", list);
    for rows in limits::small() {
        put("d", &to_bytes(&rows, Names::Plain))?;
        if rng.one_in(3) {
            put("d", &marks::list(rng, rows, Names::Marked))?;
        }
    }
    let mut long = limits::large(rng, Names::Plain);
    long.extend(limits::long(rng, Names::Plain));
    let marked = limits::large(rng, Names::Marked);
    // A small sample has room for few long lists: with marks those that pass, the others are in the table.
    if count < 10_000 {
        let passes = |list: &Vec<u8>| matches!(check::check(list), check::Check::Rows(_));
        long.extend(marked.into_iter().filter(passes));
    } else {
        long.extend(marked);
        long.extend(limits::long(rng, Names::Marked));
        long.extend(limits::larger(rng, Names::Plain));
        long.extend(limits::larger(rng, Names::Marked));
    }
    for list in long {
        put("d", &list)?;
    }
    let share = |hundredths: usize| count * hundredths / 100;
    for _ in 0..share(2) {
        let rows = limits::negative(rng);
        put("d", &marks::some(rng, rows))?;
    }
    for _ in 0..share(8) {
        put("e", &damage::bad_bytes(rng))?;
    }
    for rows in contexts::lists(rng, share(40)) {
        put("c", &marks::some(rng, rows))?;
    }
    for _ in 0..share(25) {
        let rows = damage::damaged(rng);
        put("b", &marks::some(rng, rows))?;
    }
    for _ in 0..count - share(2) - share(8) - share(40) - share(25) {
        let rows = if rng.one_in(6) {
            grammar::tagged(rng)
        } else {
            grammar::declaration(rng)
        };
        put("a", &marks::some(rng, rows))?;
    }
    Ok(())
}

/// How many sections of each sort there are, and no differences.
fn counts(out: &mut impl Write) -> io::Result<()> {
    const SORTS: [(&str, &[&str]); 6] = [
        ("check", &["check"]),
        ("roles", &["roles"]),
        ("every", &["every"]),
        ("listing", &["listing"]),
        ("generics", &["impl", "type", "additional"]),
        ("tagged", &["tagged"]),
    ];
    let mut counts = [0; SORTS.len()];
    let input = &mut io::stdin().lock();
    while let Some((name, _)) = read_section(input)? {
        if let Some(n) = SORTS
            .iter()
            .position(|(_, names)| names.contains(&name.as_str()))
        {
            counts[n] += 1;
        }
    }
    for ((sort, _), count) in SORTS.iter().zip(counts) {
        writeln!(out, "{sort} {count}")?;
    }
    writeln!(out, "differences 0")
}
