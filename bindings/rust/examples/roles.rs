//! Reads the token list in the file that its argument names, and prints the role of each row, or the refusal.
use kusthrila::{read, Kind, Place, MOST_ROWS, NO_ROLE};

fn main() {
    let Some(path) = std::env::args().nth(1) else {
        eprintln!("usage: roles FILE");
        std::process::exit(2);
    };
    let list = std::fs::read(&path).unwrap_or_else(|error| {
        eprintln!("{path}: {error}");
        std::process::exit(2);
    });
    let mut roles = [0; MOST_ROWS];
    match read(&list, &mut roles) {
        Ok(kind) => {
            println!("{}", if kind == Kind::Enum { "enum" } else { "struct" });
            for (row, role) in roles.iter().take_while(|role| **role != NO_ROLE).enumerate() {
                println!("row {row} has role {role}");
            }
        }
        Err(refusal) => {
            match refusal.place {
                Place::Row(row) => println!("refused {} at row {row}", refusal.number),
                Place::End => println!("refused {} at the end", refusal.number),
            }
            std::process::exit(1);
        }
    }
}
