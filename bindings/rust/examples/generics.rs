//! Prints what stands behind `impl` and behind the type's name for the token list in the file that its argument names, or the
//! refusal. Further arguments are added names: one that begins with `'` is a lifetime, any other a type.
use kusthrila::{impl_generics_with_additional, most_added, type_generics, Place, Refusal};
use std::io::Write;

fn print(answer: Result<&[u8], Refusal>) {
    match answer {
        Ok(list) => std::io::stdout().write_all(list).expect("standard output"),
        Err(refusal) => {
            match refusal.place {
                Place::Row(row) => println!("refused {} at row {row}", refusal.number),
                Place::End => println!("refused {} at the end", refusal.number),
            }
            std::process::exit(1);
        }
    }
}

fn main() {
    let mut words = std::env::args().skip(1);
    let Some(path) = words.next() else {
        eprintln!("usage: generics FILE [NAME]..");
        std::process::exit(2);
    };
    let list = std::fs::read(&path).unwrap_or_else(|error| {
        eprintln!("{path}: {error}");
        std::process::exit(2);
    });
    let (mut lifetimes, mut types) = (String::new(), String::new());
    for word in words {
        let (text, name) = match word.strip_prefix('\'') {
            Some(name) => (&mut lifetimes, name),
            None => (&mut types, word.as_str()),
        };
        // A name that holds an LF would be two; an empty one is refused.
        text.push_str(if name.contains('\n') { "" } else { name });
        text.push('\n');
    }
    let mut out = vec![0; most_added(lifetimes.len(), types.len())];
    print(impl_generics_with_additional(&list, lifetimes.as_bytes(), types.as_bytes(), &mut out));
    print(type_generics(&list, &mut out));
}
