//! From the Rust's errors to document 01's refusals.

use crate::check::END;
use crate::Error;
use proc_macro::Span;

/// The column of the first comma in the driver. Whatever has no row's span starts in column 1.
const FIRST_COLUMN: usize = 11;

/// Number and place.
pub type Refusal = (u8, usize);

/// The row whose span this is, or the end mark.
pub fn place(span: Span) -> usize {
    match span.column() {
        column if column >= FIRST_COLUMN => column - FIRST_COLUMN,
        _ => END,
    }
}

/// The one table from the Rust's errors to document 01's numbers. The Rust names no numbers; the
/// function that raises each error is known by the words it expects.
pub fn number_and_place(error: &Error) -> Refusal {
    const EXPECTED: [(&str, u8); 13] = [
        ("ident, got ", 11),                        // DataType::take, EnumBody::take
        ("[] bracket, got ", 12),                   // Attribute::try_take
        ("[] group or next # attribute, got ", 13), // Attribute::try_take
        ("', > or an ident, got ", 14),             // Generics::try_take
        ("one of [", 15),                           // read_tokens_until_punct
        ("group or punct, got ", 16),               // StructBody::take
        ("brace or parenthesis, found ", 17),       // StructBody::take
        ("group or ;, got ", 18),                   // EnumBody::take
        ("Brace or parenthesis, found ", 19),       // EnumBody::take
        ("group, comma or =, got ", 20),            // EnumBody::take
        ("literal, got ", 21),                      // EnumBody::take
        ("ident or end of group, got ", 22),        // UnnamedField::parse_with_name
        (":, got ", 23),                            // UnnamedField::parse_with_name
    ];
    match error {
        Error::ExpectedIdent(span) => (24, place(*span)), // Lifetime::take
        Error::UnknownDataType(span) => (25, place(*span)), // DataType::take
        Error::InvalidRustSyntax { span, expected } => {
            let (_, number) = EXPECTED
                .iter()
                .find(|(words, _)| expected.starts_with(words))
                .unwrap_or_else(|| panic!("an error without a number: {expected}"));
            (*number, place(*span))
        }
        Error::Custom { error, span } => {
            let number = match error.as_str() {
                "parse::<i64> failed" => 26,               // EnumBody::take
                "Expected `,`" => 28,                      // parse_tagged_attribute
                "Expected `key` or `key = \"val\"`" => 29, // parse_tagged_attribute
                other => panic!("an error without a number: {other}"),
            };
            (number, span.map_or(END, place))
        }
        Error::PushParse { .. } => panic!("push_parsed is never called"),
    }
}
