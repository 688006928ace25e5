//! The compiler's own lexer: a text's tokens, as far as `TokenStream::from_str` tells them.

use proc_macro::{Delimiter, Literal, TokenStream, TokenTree};
use std::panic::catch_unwind;
use std::str::FromStr;

pub struct Token {
    pub kind: u8,
    pub text: String,
    /// A literal that the compiler has refused and handed out all the same.
    pub faulty: bool,
}

pub enum Lexed {
    Tokens(Vec<Token>),
    /// A bracket without its mate. What stands after it may not have been looked at.
    Unbalanced,
    /// The lexer has given up, at a place that it does not tell here.
    Fatal,
}

/// The text is UTF-8. It is asked with a space in front, or a first line that begins with `#!` would be dropped.
pub fn lex(text: &[u8]) -> Lexed {
    let text = format!(" {}", std::str::from_utf8(text).expect("UTF-8"));
    match catch_unwind(|| TokenStream::from_str(&text)) {
        Ok(Ok(stream)) => Lexed::Tokens(flat(stream)),
        Ok(Err(_)) => Lexed::Unbalanced,
        // The compiler's bug on mismatched brackets (rustc 1.95); a fatal error has no such message.
        Err(panic) if panic.is::<String>() => Lexed::Unbalanced,
        Err(_) => Lexed::Fatal,
    }
}

/// Rows of the kinds of a list. Without recursion, since texts may be nested deeply.
fn flat(stream: TokenStream) -> Vec<Token> {
    let mut out = Vec::new();
    let mut open = vec![(stream.into_iter(), "")];
    while let Some((trees, close)) = open.last_mut() {
        match trees.next() {
            None => {
                if !close.is_empty() {
                    out.push(token(b'c', close, false));
                }
                open.pop();
            }
            Some(TokenTree::Group(group)) => {
                let (opening, closing) = match group.delimiter() {
                    Delimiter::Parenthesis => ("(", ")"),
                    Delimiter::Bracket => ("[", "]"),
                    Delimiter::Brace => ("{", "}"),
                    Delimiter::None => panic!("no text has such a group"),
                };
                out.push(token(b'o', opening, false));
                open.push((group.stream().into_iter(), closing));
            }
            Some(TokenTree::Ident(name)) => out.push(token(b'i', &name.to_string(), false)),
            Some(TokenTree::Punct(punct)) => out.push(token(b'p', &punct.to_string(), false)),
            Some(TokenTree::Literal(literal)) => {
                out.push(token(b'l', &literal.to_string(), is_faulty(&literal)));
            }
        }
    }
    out
}

fn token(kind: u8, text: &str, faulty: bool) -> Token {
    let text = text.to_string();
    Token { kind, text, faulty }
}

/// Nothing but the printed form tells it. The kind stands before the text, which may hold these words too.
fn is_faulty(literal: &Literal) -> bool {
    format!("{literal:?}").starts_with("Literal { kind: Err")
}
