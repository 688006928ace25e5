//! Reads the Rust source text in the file that its argument names, and prints its token list, or the refusal. With the word `roles` it
//! prints the role of each row of that list instead, from the text in one call; with a row where that row's text stands in the file:
//! its offset and its length.
use kusthrila::{read_source, row_place, tokens, Kind, Place, SourceRefusal, MOST_ROWS, MOST_TOKENS, NO_ROLE};
use std::io::Write;

fn print_roles(kind: Kind, roles: &[u8]) {
    println!("{}", if kind == Kind::Enum { "enum" } else { "struct" });
    for (row, role) in roles.iter().take_while(|role| **role != NO_ROLE).enumerate() {
        println!("row {row} has role {role}");
    }
}

fn main() {
    let mut words = std::env::args().skip(1);
    let Some(path) = words.next() else {
        eprintln!("usage: tokens FILE [roles | ROW]");
        std::process::exit(2);
    };
    let text = std::fs::read(&path).unwrap_or_else(|error| {
        eprintln!("{path}: {error}");
        std::process::exit(2);
    });
    let (mut out, mut roles) = ([0; MOST_TOKENS], [0; MOST_ROWS]);
    let answer = match words.next().as_deref() {
        None => tokens(&text, &mut out).map(|list| std::io::stdout().write_all(list).expect("standard output")),
        Some("roles") => read_source(&text, &mut roles).map(|kind| print_roles(kind, &roles)),
        Some(row) => {
            let place = row_place(&text, row.parse().expect("a row"));
            println!("{} {}", place.start, place.len());
            Ok(())
        }
    };
    if let Err(refusal) = answer {
        println!("refused place");
        match refusal {
            SourceRefusal::At(offset) => println!("40 {offset}"),
            SourceRefusal::OverLimit => println!("41 -"),
            SourceRefusal::ShortOutput => println!("8 -"),
            SourceRefusal::InList(refusal) => match refusal.place {
                Place::Row(row) => println!("{} {row}", refusal.number),
                Place::End => println!("{} -", refusal.number),
            },
        }
        std::process::exit(1);
    }
}
