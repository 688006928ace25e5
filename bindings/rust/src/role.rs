//! The roles, with the names of `crates/reading/specs/Role.antt`.

/// After the body.
pub const LEFT_OVER: u8 = 0;
/// The `#` of an attribute.
pub const ATTRIBUTE_MARK: u8 = 1;
/// An attribute's `[` group, with all rows in it.
pub const ATTRIBUTE_GROUP: u8 = 2;
/// A `#` before another `#`.
pub const IDLE_MARK: u8 = 3;
/// `pub`.
pub const VISIBILITY: u8 = 4;
/// The group after `pub`, with all rows in it.
pub const SCOPE: u8 = 5;
/// `struct` or `enum`.
pub const ITEM_WORD: u8 = 6;
/// The item's name.
pub const ITEM_NAME: u8 = 7;
/// The `<` and `>` of the generics.
pub const ANGLE: u8 = 8;
/// A parameter's name, with its `'` or `const`.
pub const PARAMETER_NAME: u8 = 9;
/// `,` `:` `=` between these parts.
pub const SEPARATOR: u8 = 10;
/// A parameter's bound, default or const type.
pub const BOUND: u8 = 11;
/// `where`.
pub const WHERE_WORD: u8 = 12;
/// What follows `where`, up to the body.
pub const WHERE_RUN: u8 = 13;
/// A delimiter of the body or of a variant's group; the `;` for a body.
pub const DELIMITER: u8 = 14;
/// A variant's name.
pub const VARIANT_NAME: u8 = 15;
/// A variant's value, with its `-`.
pub const VALUE: u8 = 16;
/// A field's name.
pub const FIELD_NAME: u8 = 17;
/// A field's type.
pub const TYPE: u8 = 18;
