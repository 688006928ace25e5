//! What the examples are said to answer.

use crate::lists::{to_bytes, tokens, Names};

/// The sections of one answer.
pub type Sections = Vec<(&'static str, Vec<u8>)>;

/// Whether the answer to a list with these names is what the words of an example say (see examples.txt).
pub fn meets(sections: &Sections, names: Names, words: &str) -> bool {
    let section = |name: &str| {
        let found = sections.iter().find(|(n, _)| *n == name);
        found.map_or(String::new(), |(_, body)| {
            String::from_utf8_lossy(body).into_owned()
        })
    };
    // Numbers as the letters that stand for them.
    let letters = |text: &str| -> String {
        let letter = |n: &str| (b'a' + n.parse::<u8>().expect("a role")) as char;
        text.split(' ').map(letter).collect()
    };
    let in_rows = |text: &str| String::from_utf8(to_bytes(&tokens(text), names)).expect("ASCII");
    let (first, rest) = words.split_once(' ').unwrap_or((words, ""));
    match first {
        "accepted" => section("roles").starts_with("accepted\n"),
        "roles" => section("every") == letters(rest) + "\n",
        "count" => {
            let listing = section("listing");
            let item = listing.lines().nth(1);
            item.is_some_and(|line| line.ends_with(&format!(" {rest}")))
        }
        "listing" => section("listing") == format!("refused place\n{rest}\n"),
        "line" => section("listing").lines().any(|line| line == rest),
        "impl" | "type" | "additional" => section(first) == in_rows(rest),
        "tagged" => match rest.split_once(' ') {
            Some(("roles", numbers)) => {
                section("tagged") == format!("accepted\n{}\n", letters(numbers))
            }
            Some(_) => section("tagged") == format!("refused place\n{rest}\n"),
            None => section("tagged") == format!("{rest}\n"),
        },
        _ => section("roles") == format!("refused place\n{words}\n"),
    }
}
