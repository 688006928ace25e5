// The published sources of virtue 0.0.19, which stand unchanged in the folder `virtue` beside the built
// files (a link that the build script sets), with what they take from their own crate: the prelude,
// `Result`, and a `Generator` that nothing here uses. They name these by `crate::`, so each root
// includes this file; `proc_macro` is the crate that the root calls so.

#[path = "../../target/oracle/virtue/error.rs"]
#[allow(warnings)]
mod error;
#[path = "../../target/oracle/virtue/parse/mod.rs"]
#[allow(warnings)]
mod parse;
#[path = "../../target/oracle/virtue/generate/stream_builder.rs"]
#[allow(warnings)]
mod stream_builder;
#[path = "../../target/oracle/virtue/utils.rs"]
#[allow(warnings)]
mod utils;

pub(crate) use error::Error;
pub(crate) type Result<T = (), E = Error> = std::result::Result<T, E>;

#[allow(dead_code, unused_imports)]
mod generate {
    use crate::parse::{GenericConstraints, Generics};
    pub(crate) use crate::stream_builder::{PushParseError, StreamBuilder};
    use proc_macro::Ident;

    pub struct Generator;

    impl Generator {
        pub fn new(_: Ident, _: Option<Generics>, _: Option<GenericConstraints>) -> Self {
            Generator
        }
    }
}

#[allow(unused_imports)]
mod prelude {
    pub(crate) use crate::Result;
    pub(crate) use proc_macro::{
        Delimiter, Group, Ident, LexError, Literal, Punct, Spacing, Span, TokenStream, TokenTree,
    };
}
