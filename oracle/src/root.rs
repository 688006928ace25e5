//! A proc-macro crate around virtue's sources: real tokens exist only inside the compiler.

extern crate proc_macro;

include!("virtue.rs");

mod added;
mod answers;
mod check;
mod expect;
mod lists;
mod literal;
mod model;
mod numbers;
mod reading;
mod refusals;
mod rng;
mod trees;
mod written;

/// Reads the cases in the file `ORACLE_IN` and writes them with the answers to `ORACLE_OUT`, the
/// counts to `ORACLE_COUNTS`. The tokens of the invocation are commas whose spans stand for rows.
#[proc_macro]
pub fn answer(commas: proc_macro::TokenStream) -> proc_macro::TokenStream {
    answers::run(commas.into_iter().map(|t| t.span()).collect());
    proc_macro::TokenStream::new()
}
