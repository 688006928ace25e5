//! The roles of a tagged attribute's rows, with the names of `crates/tagged_reading/specs/Role.antt`.

/// A tag, as `skip`.
pub const TAG: u8 = 20;
/// The key of `key = literal`.
pub const KEY: u8 = 21;
/// Its literal.
pub const VALUE: u8 = 22;
/// Any other row.
pub const OTHER: u8 = 23;
