//! Whether the compiler says of each text what the judge's answers rest on.

use crate::lists::read_section;
use std::collections::HashSet;
use std::io::{self, BufRead, Write};

/// A text's number is that of the line that asks about it. Messages are in the short form, `asks.rs:LINE:COLUMN: error..`;
/// the macro itself tells of brackets.
pub fn confirm(
    out: &mut impl Write,
    asks: &mut impl BufRead,
    messages: impl BufRead,
) -> io::Result<()> {
    let (mut faulty, mut unbalanced) = (HashSet::new(), HashSet::new());
    let mut asked = 0;
    for line in messages.lines() {
        let line = line?;
        let number = |text: &str| text.parse::<usize>().expect("a number");
        if let Some(rest) = line.strip_prefix("asks.rs:") {
            let mut parts = rest.splitn(3, ':');
            let at = number(parts.next().expect("a line"));
            let message = parts.nth(1).expect("a message");
            if message.starts_with(" error") {
                faulty.insert(at);
            }
        } else if let Some(n) = line.strip_prefix("unbalanced ") {
            unbalanced.insert(number(n));
        } else if let Some(n) = line.strip_prefix("asked ") {
            asked = number(n);
        }
    }
    let (mut all, mut otherwise) = (0, 0);
    while let Some((expected, text)) = read_section(asks)? {
        all += 1;
        let said = match (faulty.contains(&all), unbalanced.contains(&all)) {
            (true, _) => "faulty",
            (_, true) => "unbalanced",
            _ => "clean",
        };
        if said != expected {
            otherwise += 1;
            let text = String::from_utf8_lossy(&text);
            eprintln!("{said}, not {expected}: {:.200}", format!("{text:?}"));
        }
    }
    assert_eq!(asked, all, "not every text was asked about");
    writeln!(out, "asked once more: {all}")?;
    assert_eq!(otherwise, 0, "the compiler says otherwise of so many texts");
    Ok(())
}
