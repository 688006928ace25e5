//! How long it takes from a source text to roles: ours in one call, and in two by a list, beside proc_macro2's lexer with virtue's
//! parser and beside syn 1, on the same texts. Nanoseconds a byte, and how many times as long as the one call the others take; every
//! ratio is of times measured in this one run.
//! Built by oracle/speed.sh source.
extern crate proc_macro2 as proc_macro;

include!("virtue.rs");

#[path = "../../bindings/rust/src/lib.rs"]
#[allow(dead_code)]
mod kusthrila;

use kusthrila::{read, read_source, tokens, MOST_ROWS, MOST_TOKENS};
use prelude::TokenStream;
use std::hint::black_box;
use std::str::FromStr;
use std::time::Instant;

/// As many parts as make about so many bytes.
fn filled(bytes: usize, before: &str, part: impl Fn(usize) -> String, after: &str) -> String {
    let mut text = before.to_string();
    for next in (0..).map(part) {
        if text.len() + next.len() + after.len() > bytes {
            break;
        }
        text += &next;
    }
    text + after
}

fn inputs() -> Vec<(&'static str, String)> {
    let variant = |n: usize| format!("    /// The valve of block {n}.\n    Block{n}(u16, &'a [Emitter<N>]), // row {n}\n");
    let field = |n: usize| format!("    #[drip(flow = 2.30, label = \"north\")]\n    pub(crate) line_{n}: Option<Vec<u8>>,\n");
    let value = |n: usize| format!("    V{n} = 0x{n:04x}_u16,\n");
    let small = "pub enum Valve {\n    Main = 14, // at the pump\n    Block { minutes: u16, lines: u8 },\n    Drain = -2\n}\n";
    vec![
        ("small", small.to_string()),
        ("enum", filled(10_000, "pub enum Valve<'a, const N: usize> {\n", variant, "}\n")),
        ("struct", filled(10_000, "#[repr(C)]\npub struct Record {\n", field, "}\n")),
        ("values", filled(10_000, "enum Code {\n", value, "}\n")),
        ("comment", format!("/*{}*/ struct A;", "a word and another ".repeat(1000))),
    ]
}

/// The least time of a call over 300, in nanoseconds; what it answers is freed in it, as a program would.
fn least<A>(mut call: impl FnMut() -> A) -> f64 {
    let mut best = f64::MAX;
    for _ in 0..300 {
        let start = Instant::now();
        drop(black_box(call()));
        best = best.min(start.elapsed().as_nanos() as f64);
    }
    best
}

fn main() {
    println!("text bytes | ours ns a byte (list alone) | two calls | proc_macro2 and virtue | syn | times as long");
    let mut out = vec![0; MOST_TOKENS];
    let mut roles = vec![0; MOST_ROWS];
    for (name, text) in inputs() {
        let bytes = text.len() as f64;
        let list = least(|| tokens(black_box(text.as_bytes()), &mut out).expect("a list").len());
        let ours = least(|| read_source(black_box(text.as_bytes()), &mut roles).expect("a declaration"));
        let two = least(|| {
            let list = tokens(black_box(text.as_bytes()), &mut out).expect("a list");
            read(list, &mut roles).expect("a declaration")
        });
        let virtue = least(|| parse::Parse::new(TokenStream::from_str(black_box(&text)).expect("tokens")));
        let syn = least(|| syn::parse_str::<syn::DeriveInput>(black_box(&text)).expect("a declaration"));
        println!(
            "{name} {bytes} | {:.2} ({:.2}) | {:.2} | {:.2} | {:.2} | {:.1} and {:.1}",
            ours / bytes,
            list / bytes,
            two / bytes,
            virtue / bytes,
            syn / bytes,
            virtue / ours,
            syn / ours
        );
    }
}
