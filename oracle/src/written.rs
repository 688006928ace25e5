//! What the Rust's writers of generics hand back, as rows with marks.

use crate::check::END;
use crate::lists::{row, Row};
use crate::refusals::place;
use proc_macro::{Delimiter, Spacing, TokenStream, TokenTree};

/// The rows of a stream, each with the row of the list that it was copied from, where that is known.
fn rows_of(stream: TokenStream, out: &mut Vec<(Row, usize)>) {
    for token in stream {
        let from = place(token.span());
        match token {
            TokenTree::Ident(ident) => out.push((row(b'i', ident.to_string()), from)),
            TokenTree::Literal(literal) => out.push((row(b'l', literal.to_string()), from)),
            TokenTree::Punct(punct) => {
                let joint = punct.spacing() == Spacing::Joint;
                let row = row(b'p', punct.as_char());
                out.push((Row { joint, ..row }, from));
            }
            TokenTree::Group(group) => {
                let (open, close) = match group.delimiter() {
                    Delimiter::Parenthesis => ("(", ")"),
                    Delimiter::Bracket => ("[", "]"),
                    Delimiter::Brace => ("{", "}"),
                    Delimiter::None => ("0", "0"),
                };
                out.push((row(b'o', open), from));
                rows_of(group.stream(), out);
                out.push((row(b'c', close), from));
            }
        }
    }
}

/// The rows that the Rust writes from a list, every `'` joint, and how many of these it copies as not
/// joint. `apart` is what it writes after a reading of the list with all punctuation apart, `joint`
/// after one with the list's marks. Both are the same tokens; copied ones have the marks of the list,
/// the writers' own only `'` joint.
pub fn written(apart: TokenStream, joint: TokenStream, list: &[Row]) -> (Vec<Row>, usize) {
    let (mut by_rule, mut rows) = (Vec::new(), Vec::new());
    rows_of(apart, &mut by_rule);
    rows_of(joint, &mut rows);
    assert_eq!(by_rule.len(), rows.len(), "written from {list:?}");
    let mut not_joint = 0;
    let mut out = Vec::new();
    for ((rule, from), (row, _)) in by_rule.into_iter().zip(rows) {
        // Apart, only the writer's own `'` is joint.
        let copied = rule.kind == b'p' && from != END && !rule.joint;
        let joint = if copied { list[from].joint } else { rule.joint };
        let same = rule.kind == row.kind && rule.text == row.text && joint == row.joint;
        assert!(same, "written {row:?}, by the rule {joint}: {list:?}");
        let quote = row.kind == b'p' && row.text == "'";
        not_joint += usize::from(quote && !joint);
        out.push(Row {
            joint: joint || quote,
            ..row
        });
    }
    (out, not_joint)
}
