//! Rows as token trees.

use crate::lists::Row;
use crate::prelude::{Delimiter, Group, Span, TokenStream, TokenTree};

/// The trees of rows that pass the list check. `leaf` makes the token of a row that is no delimiter;
/// a group has the span of its opening row.
pub fn trees(
    rows: &[Row],
    span: impl Fn(usize) -> Span,
    mut leaf: impl FnMut(&Row, Span) -> TokenTree,
) -> Vec<TokenTree> {
    let mut stack: Vec<(usize, Vec<TokenTree>)> = vec![(0, Vec::new())];
    for (n, row) in rows.iter().enumerate() {
        let tree = match row.kind {
            b'o' => {
                stack.push((n, Vec::new()));
                continue;
            }
            b'c' => {
                let (open, inside) = stack.pop().expect("checked");
                let delimiter = match row.text.as_str() {
                    ")" => Delimiter::Parenthesis,
                    "]" => Delimiter::Bracket,
                    "}" => Delimiter::Brace,
                    _ => Delimiter::None,
                };
                let mut group = Group::new(delimiter, TokenStream::from_iter(inside));
                group.set_span(span(open));
                TokenTree::Group(group)
            }
            _ => leaf(row, span(n)),
        };
        stack.last_mut().expect("checked").1.push(tree);
    }
    stack.pop().expect("checked").1
}
