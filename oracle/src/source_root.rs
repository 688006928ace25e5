//! A proc-macro crate that asks the compiler's lexer about source texts.

extern crate proc_macro;

mod align;
#[allow(dead_code)]
mod check;
mod judge;
mod lexing;
#[allow(dead_code)]
mod lists;
mod sources;

use proc_macro::TokenStream;

/// Judges the texts of a file; see `sources.rs`.
#[proc_macro]
pub fn judge(_: TokenStream) -> TokenStream {
    sources::judge_all();
    TokenStream::new()
}

/// The declarations in files, as texts.
#[proc_macro]
pub fn cut(_: TokenStream) -> TokenStream {
    sources::cut_all();
    TokenStream::new()
}

/// Asks about one text. Each has an invocation of its own, since the compiler tells no error twice of one place.
#[proc_macro]
pub fn ask(number: TokenStream) -> TokenStream {
    sources::ask(number.to_string().parse().expect("a number"));
    TokenStream::new()
}
