//! What the Rust's answer to an accepted list says of its rows, and its listing.

use crate::check::END;
use crate::lists::Row;
use crate::numbers::{number, twice};
use crate::parse::{Attribute, Fields, Generic, Parse, UnnamedField};
use crate::refusals::{place, Refusal};
use proc_macro::{Span, TokenTree};

/// Whether a row is a joint `'` with a name after it. The compiler makes one token of the two, so that
/// the name's span begins where the `'` does.
pub fn lifetimes(rows: &[Row]) -> Vec<bool> {
    let next_is_name = |n: usize| rows.get(n + 1).is_some_and(|next| next.kind == b'i');
    let lifetime = |(n, row): (usize, &Row)| row.joint && row.text == "'" && next_is_name(n);
    rows.iter().enumerate().map(lifetime).collect()
}

/// The row whose name or literal has this span, or the end mark.
pub fn row_of(span: Span, lifetimes: &[bool]) -> usize {
    match place(span) {
        END => END,
        row => row + usize::from(lifetimes[row]),
    }
}

pub struct Reading<'a> {
    mate: &'a [usize],
    lifetimes: &'a [bool],
    rows: &'a [Row],
    /// A letter for each row that is named, `.` for the others.
    pub roles: Vec<u8>,
    /// The listing, or the refusal of the first variant that has no number, or of the first that is an earlier one
    /// again.
    pub listing: Result<String, Refusal>,
    /// A line with the value of each variant, empty where none is written.
    pub values: String,
}

impl<'a> Reading<'a> {
    pub fn new(rows: &'a [Row], mate: &'a [usize], lifetimes: &'a [bool], parse: &Parse) -> Self {
        let mut r = Reading {
            mate,
            lifetimes,
            rows,
            roles: vec![b'.'; mate.len()],
            listing: Ok(String::from("part name number\n")),
            values: String::new(),
        };
        let (
            Parse::Struct {
                attributes,
                name,
                generics,
                generic_constraints,
                ..
            }
            | Parse::Enum {
                attributes,
                name,
                generics,
                generic_constraints,
                ..
            },
        ) = (parse,);
        r.attributes(attributes);
        r.mark(name.span(), 7);
        let (word, count) = match parse {
            Parse::Struct { body, .. } => ("struct", count(&body.fields)),
            Parse::Enum { body, .. } => ("enum", body.variants.len()),
        };
        r.line(word, &name.to_string(), &count.to_string());
        if let Some(generics) = generics {
            for generic in generics.iter() {
                r.param(generic);
            }
        }
        if let Some(constraints) = generic_constraints {
            // The run is private; the Rust's own `where` clause is the word and then the run.
            for token in constraints.where_clause().stream.into_iter().skip(1) {
                r.tree(&token, 13);
            }
        }
        match parse {
            Parse::Struct { body, .. } => r.fields(&body.fields),
            Parse::Enum { body, .. } => {
                let mut before = -1;
                let (mut names, mut numbers) = (Vec::new(), Vec::new());
                for variant in &body.variants {
                    r.attributes(&variant.attributes);
                    r.mark(variant.name.span(), 15);
                    let value = variant.value.as_ref().map(|value| {
                        // A negative is a new literal, with no row.
                        r.mark(value.span(), 16);
                        value.to_string()
                    });
                    match number(value.as_deref(), before) {
                        Ok(number) => {
                            before = number;
                            numbers.push(number);
                            r.line("variant", &variant.name.to_string(), &number.to_string());
                        }
                        Err(refusal) => {
                            let place = match &variant.value {
                                Some(value) => place(value.span()),
                                None => r.name_place(variant.name.span()),
                            };
                            // The first is told.
                            r.listing = r.listing.and(Err((refusal, place)));
                        }
                    }
                    names.push(variant.name.to_string());
                    r.values += &(value.unwrap_or_default() + "\n");
                    r.fields(&variant.fields);
                }
                if let Some((refusal, position)) = twice(&names, &numbers) {
                    let place = r.name_place(body.variants[position].name.span());
                    r.listing = r.listing.and(Err((refusal, place)));
                }
            }
        }
        r
    }

    fn line(&mut self, part: &str, name: &str, number: &str) {
        if let Ok(listing) = &mut self.listing {
            *listing += &format!("{part} {name} {number}\n");
        }
    }

    /// The place of the name of a variant that is not the first: where a group wraps it, its opening row.
    fn name_place(&self, name: Span) -> usize {
        let row = row_of(name, self.lifetimes);
        row - usize::from(self.rows[row - 1].kind == b'o')
    }

    fn set(&mut self, row: usize, role: u8) {
        assert_eq!(self.roles[row], b'.', "no row is named twice");
        self.roles[row] = b'a' + role;
    }

    fn mark(&mut self, span: Span, role: u8) {
        let row = row_of(span, self.lifetimes);
        if row != END {
            self.set(row, role);
        }
    }

    /// A token of a run or an attribute: a group with all its rows.
    fn tree(&mut self, token: &TokenTree, role: u8) {
        let row = match token {
            TokenTree::Ident(name) => row_of(name.span(), self.lifetimes),
            _ => place(token.span()),
        };
        assert_ne!(row, END, "a token of the list has a row");
        for n in row..=self.mate[row].max(row) {
            self.set(n, role);
        }
    }

    fn attributes(&mut self, attributes: &[Attribute]) {
        for attribute in attributes {
            self.mark(attribute.punct.span(), 1);
            self.tree(&TokenTree::Group(attribute.tokens.clone()), 2);
        }
    }

    fn param(&mut self, generic: &Generic) {
        let name = generic.ident();
        self.mark(name.span(), 9);
        let mut text = name.to_string();
        match generic {
            Generic::Lifetime(lifetime) => {
                // The Rust drops the `'`, which stands directly before the name.
                let row = row_of(name.span(), self.lifetimes);
                self.set(row - 1, 9);
                text.insert(0, '\'');
                for token in &lifetime.constraint {
                    self.tree(token, 11);
                }
            }
            Generic::Generic(simple) => {
                for token in simple.constraints.iter().chain(&simple.default_value) {
                    self.tree(token, 11);
                }
            }
            Generic::Const(constant) => {
                self.mark(constant.const_token.span(), 9);
                for token in &constant.constraints {
                    self.tree(token, 11);
                }
            }
        }
        self.line("param", &text, "-");
    }

    fn fields(&mut self, fields: &Option<Fields>) {
        match fields {
            None => {}
            Some(Fields::Struct(fields)) => {
                for (position, (name, field)) in fields.iter().enumerate() {
                    self.mark(name.span(), 17);
                    self.field(field);
                    self.line("field", &name.to_string(), &position.to_string());
                }
            }
            Some(Fields::Tuple(fields)) => {
                for (position, field) in fields.iter().enumerate() {
                    self.field(field);
                    self.line("field", "-", &position.to_string());
                }
            }
        }
    }

    fn field(&mut self, field: &UnnamedField) {
        self.attributes(&field.attributes);
        for token in &field.r#type {
            self.tree(token, 18);
        }
    }
}

fn count(fields: &Option<Fields>) -> usize {
    match fields {
        None => 0,
        Some(Fields::Struct(fields)) => fields.len(),
        Some(Fields::Tuple(fields)) => fields.len(),
    }
}
