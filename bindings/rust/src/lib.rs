//! Safe functions over the proved reader of token lists. Nothing is allocated, but for the vector that `tagged` returns, and
//! nothing global is kept; a call needs at most 16,384 bytes of stack, that of `tokens` 32,768 and that of `listing` or `read_source` 98,304
//! (`include/kusthrila.h` says how that was measured).
//!
//! A list is a text: a line of names, `kind text` or `kind joint text`, then a line for each row, as `p :` or, with the second
//! names, `p 1 :`. The column between kind and text is the row's mark: 1 for a punctuation that is joint, that is, the next one
//! (after `'` the name) follows it at once, else 0; kinds other than `p` have 0. With the names `kind text`, `'` is joint and no
//! other punctuation is. Every function takes lists with either names. Marks change no role, refusal, place, listing, value or
//! entry; only what the writers of generics write has marks.

pub mod refusal;
pub mod role;
pub mod tagged_role;

extern "C" {
    fn kusthrila_check(list: *const u8, list_len: usize) -> u64;
    fn kusthrila_read(list: *const u8, list_len: usize, roles: *mut u8, roles_len: usize) -> u64;
    fn kusthrila_listing(list: *const u8, list_len: usize, out: *mut u8, out_len: usize) -> u64;
    fn kusthrila_value(list: *const u8, list_len: usize, position: usize, scratch: *mut u8, scratch_len: usize) -> u64;
    fn kusthrila_tagged(
        list: *const u8,
        list_len: usize,
        prefix: *const u8,
        prefix_len: usize,
        roles: *mut u8,
        roles_len: usize,
    ) -> u64;
    fn kusthrila_impl_generics(list: *const u8, list_len: usize, out: *mut u8, out_len: usize) -> u64;
    fn kusthrila_type_generics(list: *const u8, list_len: usize, out: *mut u8, out_len: usize) -> u64;
    fn kusthrila_impl_generics_with_additional(
        list: *const u8,
        list_len: usize,
        lifetimes: *const u8,
        lifetimes_len: usize,
        types: *const u8,
        types_len: usize,
        out: *mut u8,
        out_len: usize,
    ) -> u64;
    fn kusthrila_same_name(a: *const u8, a_len: usize, b: *const u8, b_len: usize) -> u64;
    fn kusthrila_tokens(text: *const u8, text_len: usize, out: *mut u8, out_len: usize, place: *mut u64) -> u64;
    fn kusthrila_read_source(text: *const u8, text_len: usize, roles: *mut u8, roles_len: usize, place: *mut u64) -> u64;
    fn kusthrila_row_place(text: *const u8, text_len: usize, row: usize, length: *mut u64) -> u64;
}

/// No list has more rows.
pub const MOST_ROWS: usize = 4096;

/// No listing is longer: `MOST` in `crates/describe/specs/Listing.antt`, of which the law `fits` is proved.
pub const MOST_LISTING: usize = 176_145;

/// No list that `impl_generics` or `type_generics` writes is longer, with either names: `MOST` in
/// `crates/writing/specs/Answer.antt`, of which the laws are proved in `crates/writing/proofs/Lengths.antt`.
pub const MOST_GENERICS: usize = 114_688;

/// How many bytes of output `impl_generics_with_additional` needs at most, by the lengths of the two texts.
pub const fn most_added(lifetimes: usize, types: usize) -> usize {
    MOST_GENERICS.saturating_add(lifetimes.saturating_mul(18)).saturating_add(types.saturating_mul(12))
}

/// No list that `tokens` writes is longer: the law `answer-few` in `crates/source/proofs/Reports.antt`.
pub const MOST_TOKENS: usize = 65_536;

/// A scratch must have as many bytes.
pub const SCRATCH: usize = 20;

/// A role byte after the last row's, and every role byte after a refusal.
pub const NO_ROLE: u8 = 255;

/// Where a refusal stands.
#[derive(Clone, Copy, Debug, PartialEq, Eq)]
pub enum Place {
    Row(usize),
    End,
}

/// A refusal: its number, one of the module `refusal`, and its place.
#[derive(Clone, Copy, Debug, PartialEq, Eq)]
pub struct Refusal {
    pub number: u8,
    pub place: Place,
}

#[derive(Clone, Copy, Debug, PartialEq, Eq)]
pub enum Kind {
    Struct,
    Enum,
}

/// An entry of a tagged attribute: a tag's text, or the texts of a key and its literal.
#[derive(Clone, Copy, Debug, PartialEq, Eq)]
pub enum Entry<'a> {
    Tag(&'a [u8]),
    Property(&'a [u8], &'a [u8]),
}

/// Two names compared: whether they are the same, and how many pairs of bytes were looked at.
#[derive(Clone, Copy, Debug, PartialEq, Eq)]
pub struct Compared {
    pub same: bool,
    pub pairs: usize,
}

/// A refusal of a source text.
#[derive(Clone, Copy, Debug, PartialEq, Eq)]
pub enum SourceRefusal {
    /// `refusal::NO_TOKEN`, at this offset: the text is no tokens, or a bracket does not match.
    At(usize),
    /// `refusal::OVER_LIMIT`: the list passes a limit of lists.
    OverLimit,
    /// `refusal::SHORT_BUFFER`: the output is too short for the list, or the role bytes for its rows.
    ShortOutput,
    /// Another refusal, of the text's list; `tokens` has none.
    InList(Refusal),
}

impl SourceRefusal {
    // The refusal of a text, and the offset that 40 has written.
    fn new(refusal: Refusal, place: u64) -> Self {
        match refusal.number {
            refusal::NO_TOKEN => SourceRefusal::At(place as usize),
            refusal::OVER_LIMIT => SourceRefusal::OverLimit,
            refusal::SHORT_BUFFER => SourceRefusal::ShortOutput,
            _ => SourceRefusal::InList(refusal),
        }
    }
}

// An answer below 2^32 refuses nothing; else it is 2^32 times the refusal's number, plus its place.
fn answer(code: u64) -> Result<u64, Refusal> {
    if code < 1 << 32 {
        return Ok(code);
    }
    let place = match code % (1 << 32) {
        65535 => Place::End,
        row => Place::Row(row as usize),
    };
    Err(Refusal { number: (code >> 32) as u8, place })
}

fn kind(code: u64) -> Kind {
    if code == 0 { Kind::Struct } else { Kind::Enum }
}

/// Checks a list: the number of its rows, or refusal 1 to 7.
pub fn check(list: &[u8]) -> Result<usize, Refusal> {
    // SAFETY: the pointer and the length are those of a slice, which the call only reads.
    answer(unsafe { kusthrila_check(list.as_ptr(), list.len()) }).map(|rows| rows as usize)
}

/// Reads a declaration: its kind, with a byte of the module `role` for each row at the front of `roles` and `NO_ROLE` in the
/// rest. After a refusal every byte of `roles` is `NO_ROLE`.
pub fn read(list: &[u8], roles: &mut [u8]) -> Result<Kind, Refusal> {
    // SAFETY: both are slices, `roles` is borrowed alone, and the call writes nothing past it.
    let code = unsafe { kusthrila_read(list.as_ptr(), list.len(), roles.as_mut_ptr(), roles.len()) };
    answer(code).map(kind)
}

/// Writes the listing at the start of `out` and returns that part. After a refusal `out` is as it was.
/// `refusal::NO_INTEGER` and `refusal::NO_STEP`, where a variant has no number, and `refusal::NAME_TWICE` and
/// `refusal::NUMBER_TWICE`, where two variants have one name or one number, are refusals of this function alone.
pub fn listing<'a>(list: &[u8], out: &'a mut [u8]) -> Result<&'a [u8], Refusal> {
    // SAFETY: both are slices, `out` is borrowed alone, and the call writes nothing past it.
    let code = unsafe { kusthrila_listing(list.as_ptr(), list.len(), out.as_mut_ptr(), out.len()) };
    answer(code).map(|len| &out[..len as usize])
}

/// Writes the generics as they stand behind `impl`, without defaults, as a token list at the start of `out` and returns that part.
/// After a refusal `out` is as it was. What is written has the names of the list that was read. With marks, a copied bound or const
/// type keeps its own, but that every `'` goes out joint; the rows that the writer makes itself are not joint, but for `'`.
pub fn impl_generics<'a>(list: &[u8], out: &'a mut [u8]) -> Result<&'a [u8], Refusal> {
    // SAFETY: both are slices, `out` is borrowed alone, and the call writes nothing past it.
    let code = unsafe { kusthrila_impl_generics(list.as_ptr(), list.len(), out.as_mut_ptr(), out.len()) };
    answer(code).map(|len| &out[..len as usize])
}

/// Writes the names of the generics, as they stand behind the type's name, as `impl_generics` does.
pub fn type_generics<'a>(list: &[u8], out: &'a mut [u8]) -> Result<&'a [u8], Refusal> {
    // SAFETY: both are slices, `out` is borrowed alone, and the call writes nothing past it.
    let code = unsafe { kusthrila_type_generics(list.as_ptr(), list.len(), out.as_mut_ptr(), out.len()) };
    answer(code).map(|len| &out[..len as usize])
}

/// `impl_generics` with added lifetimes in front and added types behind. Each is a text: a name a line, without `'`; the last
/// line may lack its LF, and an empty text has no names.
pub fn impl_generics_with_additional<'a>(
    list: &[u8],
    lifetimes: &[u8],
    types: &[u8],
    out: &'a mut [u8],
) -> Result<&'a [u8], Refusal> {
    // SAFETY: all are slices, `out` is borrowed alone, and the call writes nothing past it.
    let code = unsafe {
        let (lifetimes_ptr, types_ptr, out_ptr) = (lifetimes.as_ptr(), types.as_ptr(), out.as_mut_ptr());
        let names = (lifetimes_ptr, lifetimes.len(), types_ptr, types.len());
        kusthrila_impl_generics_with_additional(
            list.as_ptr(), list.len(), names.0, names.1, names.2, names.3, out_ptr, out.len(),
        )
    };
    answer(code).map(|len| &out[..len as usize])
}

/// The value text of the variant at this position, a part of the list or of the scratch, which must have `SCRATCH` bytes.
pub fn value<'a>(list: &'a [u8], position: usize, scratch: &'a mut [u8]) -> Result<Option<&'a [u8]>, Refusal> {
    // SAFETY: both are slices, `scratch` is borrowed alone, and the call writes nothing past it.
    let code = unsafe { kusthrila_value(list.as_ptr(), list.len(), position, scratch.as_mut_ptr(), scratch.len()) };
    Ok(match answer(code)? as usize {
        0 => None,
        len if len < 65536 => Some(&scratch[..len]),
        part => Some(&list[part / 65536..part % 65536]),
    })
}

/// Reads a tagged attribute, of a list that is its group, as `[ prefix ( skip , name = "a" ) ]`: its entries, with a byte of the
/// module `tagged_role` for each row at the front of `roles` and `NO_ROLE` in the rest. `None` where the prefix does not stand
/// there or no group follows it. After `None` or a refusal every byte of `roles` is `NO_ROLE`.
pub fn tagged<'a>(list: &'a [u8], prefix: &[u8], roles: &mut [u8]) -> Result<Option<Vec<Entry<'a>>>, Refusal> {
    // SAFETY: all are slices, `roles` is borrowed alone, and the call writes nothing past it.
    let code = unsafe {
        let (prefix_ptr, roles_ptr) = (prefix.as_ptr(), roles.as_mut_ptr());
        kusthrila_tagged(list.as_ptr(), list.len(), prefix_ptr, prefix.len(), roles_ptr, roles.len())
    };
    if answer(code)? == 0 {
        return Ok(None);
    }
    // Row n is line n + 1 after the line of names: its kind, its joint mark where the names have it, its text.
    let before = if list.starts_with(b"kind joint text\n") { 4 } else { 2 };
    let texts = list.split(|byte| *byte == b'\n').skip(1).map(|line| line.get(before..).unwrap_or_default());
    let (mut entries, mut key) = (Vec::new(), &list[..0]);
    for (text, role) in texts.zip(roles.iter()) {
        match *role {
            tagged_role::TAG => entries.push(Entry::Tag(text)),
            tagged_role::KEY => key = text,
            tagged_role::VALUE => entries.push(Entry::Property(key, text)),
            _ => {}
        }
    }
    Ok(Some(entries))
}

/// Compares two names: their lengths, then their bytes from the last to the first. No pair of bytes is looked at where the lengths
/// differ, else those from the last down to the first unequal one, or all.
pub fn same_name(a: &[u8], b: &[u8]) -> Compared {
    // SAFETY: both are slices, which the call only reads.
    let code = unsafe { kusthrila_same_name(a.as_ptr(), a.len(), b.as_ptr(), b.len()) };
    Compared { same: code % 2 == 1, pairs: (code / 2) as usize }
}

/// Writes the token list of Rust source text, with the names `kind text`, at the start of `out` and returns that part. After a
/// refusal `out` is as it was; `MOST_TOKENS` bytes are always long enough.
pub fn tokens<'a>(text: &[u8], out: &'a mut [u8]) -> Result<&'a [u8], SourceRefusal> {
    let mut place = 0;
    // SAFETY: both are slices, `out` and `place` are borrowed alone, and the call writes nothing past them.
    let code = unsafe { kusthrila_tokens(text.as_ptr(), text.len(), out.as_mut_ptr(), out.len(), &mut place) };
    answer(code).map(|len| &out[..len as usize]).map_err(|refusal| SourceRefusal::new(refusal, place))
}

/// Reads the declaration in Rust source text at one go, as `read` does for the list that `tokens` writes: its kind, with a byte of
/// the module `role` for each row of that list at the front of `roles` and `NO_ROLE` in the rest. After a refusal every byte of
/// `roles` is `NO_ROLE`; `MOST_ROWS` bytes are always long enough.
pub fn read_source(text: &[u8], roles: &mut [u8]) -> Result<Kind, SourceRefusal> {
    let mut place = 0;
    // SAFETY: both are slices, `roles` and `place` are borrowed alone, and the call writes nothing past them.
    let code = unsafe { kusthrila_read_source(text.as_ptr(), text.len(), roles.as_mut_ptr(), roles.len(), &mut place) };
    answer(code).map(kind).map_err(|refusal| SourceRefusal::new(refusal, place))
}

/// Where the text of a row of that list stands in the source text. A doc line's six rows have the whole line; a row that the list
/// does not have, the text's end.
pub fn row_place(text: &[u8], row: usize) -> std::ops::Range<usize> {
    let mut length = 0;
    // SAFETY: the text is a slice, which the call only reads, and `length` is borrowed alone.
    let offset = unsafe { kusthrila_row_place(text.as_ptr(), text.len(), row, &mut length) } as usize;
    offset..offset + length as usize
}

#[cfg(test)]
mod tests {
    use super::*;

    #[test]
    fn reads_and_refuses() {
        let mut roles = [7u8; 5];
        assert_eq!(read(b"kind text\ni struct\ni A\np ;\n", &mut roles), Ok(Kind::Struct));
        assert_eq!(roles, [role::ITEM_WORD, role::ITEM_NAME, role::DELIMITER, NO_ROLE, NO_ROLE]);
        let refused = Refusal { number: refusal::NO_STRUCT_BODY, place: Place::End };
        assert_eq!(read(b"kind text\ni struct\ni A\n", &mut roles), Err(refused));
        assert_eq!(roles, [NO_ROLE; 5]);
        let short = Refusal { number: refusal::SHORT_BUFFER, place: Place::End };
        assert_eq!(read(b"kind text\ni struct\ni A\np ;\n", &mut roles[..2]), Err(short));
        assert_eq!(check(b"kind text\nc )\n"), Err(Refusal { number: 5, place: Place::Row(0) }));
        assert_eq!(check(b"kind text\n"), Ok(0));
        assert_eq!(check(b""), Err(Refusal { number: 2, place: Place::End }));
    }

    #[test]
    fn lists_and_gives_values() {
        let list = b"kind text\ni enum\ni E\no {\ni A\np =\np -\nl 007\np ,\ni B\np =\nl 0x1F\np ,\ni C\nc }\n";
        let mut out = [7u8; 64];
        let listed = b"part name number\nenum E 3\nvariant A -7\nvariant B 31\nvariant C 32\n";
        assert_eq!(listing(list, &mut out), Err(Refusal { number: 8, place: Place::End }));
        assert_eq!(out, [7; 64]);
        let mut out = [7u8; 128];
        assert_eq!(listing(list, &mut out), Ok(&listed[..]));
        assert_eq!(out[listed.len()..], [7; 128][listed.len()..]);
        let mut scratch = [7u8; 20];
        assert_eq!(value(list, 1, &mut scratch), Ok(Some(&b"0x1F"[..])));
        assert_eq!(value(list, 2, &mut scratch), Ok(None));
        assert_eq!(value(list, 3, &mut scratch), Ok(None));
        assert_eq!(scratch, [7; 20]);
        assert_eq!(value(list, 0, &mut scratch), Ok(Some(&b"-7"[..])));
        assert_eq!(scratch[2..], [7; 18]);
        assert_eq!(value(list, 0, &mut scratch[..19]), Err(Refusal { number: 8, place: Place::End }));
    }

    #[test]
    fn refuses_variants_without_a_number() {
        // The second variant's value and what follows it; the listing's refusal, and the text of that value.
        let cases: [(&str, u8, usize, &[u8]); 4] = [
            ("l 9223372036854775808\n", refusal::NO_INTEGER, 7, b"9223372036854775808"),
            ("l \"a\"\np ,\n", refusal::NO_INTEGER, 7, b"\"a\""),
            ("l 9223372036854775807\np ,\ni C\n", refusal::NO_STEP, 9, b"9223372036854775807"),
            ("l 0x7FFF_FFFF_FFFF_FFFFi64\np ,\no (\ni C\nc )\n", refusal::NO_STEP, 9, b"0x7FFF_FFFF_FFFF_FFFFi64"),
        ];
        for (rows, number, row, text) in cases {
            let list = format!("kind text\ni enum\ni E\no {{\ni A\np ,\ni B\np =\n{rows}c }}\n");
            let refused = Err(Refusal { number, place: Place::Row(row) });
            // Told before an output that is too short.
            for lent in [0, 128] {
                let mut out = [7u8; 128];
                assert_eq!(listing(list.as_bytes(), &mut out[..lent]), refused);
                assert_eq!(out, [7; 128]);
            }
            let mut roles = [7u8; 16];
            assert_eq!(read(list.as_bytes(), &mut roles), Ok(Kind::Enum));
            assert_eq!(value(list.as_bytes(), 1, &mut [0; SCRATCH]), Ok(Some(text)));
        }
    }

    #[test]
    fn refuses_a_second_variant_of_one_name_or_number() {
        // What follows a first variant, `A = 1`, and the listing's refusal.
        let cases = [
            ("i A\n", refusal::NAME_TWICE, 7),
            ("o (\ni r#A\nc )\n", refusal::NAME_TWICE, 7),
            ("i B\np =\nl 0x1\n", refusal::NUMBER_TWICE, 7),
            ("i B\np =\nl 0\np ,\ni C\n", refusal::NUMBER_TWICE, 11),
            ("i B\np =\nl 1\np ,\ni A\n", refusal::NAME_TWICE, 11),
            ("i A\np ,\ni C\np =\nl \"a\"\n", refusal::NO_INTEGER, 11),
        ];
        for (rows, number, row) in cases {
            let list = format!("kind text\ni enum\ni E\no {{\ni A\np =\nl 1\np ,\n{rows}c }}\n");
            let refused = Err(Refusal { number, place: Place::Row(row) });
            // Told before an output that is too short.
            for lent in [0, 128] {
                let mut out = [7u8; 128];
                assert_eq!(listing(list.as_bytes(), &mut out[..lent]), refused);
                assert_eq!(out, [7; 128]);
            }
            assert_eq!(read(list.as_bytes(), &mut [7; 16]), Ok(Kind::Enum));
            assert_eq!(value(list.as_bytes(), 0, &mut [0; SCRATCH]), Ok(Some(&b"1"[..])));
        }
    }

    #[test]
    fn writes_generics() {
        let list = b"kind text\ni struct\ni A\np <\np '\ni a\np ,\ni T\np =\ni u8\np ,\ni const\ni N\np >\np ;\n";
        let mut out = [7u8; 128];
        let written = b"kind text\np <\np '\ni a\np ,\ni T\np ,\ni const\ni N\np :\np >\n";
        assert_eq!(impl_generics(list, &mut out), Ok(&written[..]));
        assert_eq!(out[written.len()..], [7; 128][written.len()..]);
        let names = b"kind text\np <\np '\ni a\np ,\ni T\np ,\ni N\np >\n";
        assert_eq!(type_generics(list, &mut out), Ok(&names[..]));
        // Exactly the length, one byte less, and none.
        let short = Err(Refusal { number: refusal::SHORT_BUFFER, place: Place::End });
        let mut out = [7u8; 128];
        assert_eq!(type_generics(list, &mut out[..names.len()]), Ok(&names[..]));
        let mut out = [7u8; 128];
        assert_eq!(type_generics(list, &mut out[..names.len() - 1]), short);
        assert_eq!(type_generics(list, &mut out[..0]), short);
        assert_eq!(out, [7; 128]);
        // No generics, and none between the angles.
        assert_eq!(impl_generics(b"kind text\ni struct\ni A\np ;\n", &mut out), Ok(&b"kind text\n"[..]));
        let empty = b"kind text\ni struct\ni A\np <\np >\np ;\n";
        assert_eq!(impl_generics(empty, &mut out), Ok(&b"kind text\np <\np >\n"[..]));
        // A refusal of the reader is passed on.
        let mut out = [7u8; 128];
        let refused = Err(Refusal { number: refusal::NO_PARAMETER, place: Place::Row(2) });
        assert_eq!(impl_generics(b"kind text\ni struct\ni A\np <\ni T\n", &mut out), refused);
        assert_eq!(out, [7; 128]);
    }

    #[test]
    fn adds_names_to_generics() {
        let (plain, angled) = (b"kind text\ni struct\ni A\np ;\n", b"kind text\ni struct\ni A\np <\ni T\np >\np ;\n");
        let mut out = [7u8; 1024];
        let added = b"kind text\np <\np '\ni x\np ,\ni T\np ,\ni Y\np ,\ni _\np >\n";
        assert_eq!(impl_generics_with_additional(angled, b"x", b"Y\n_\n", &mut out), Ok(&added[..]));
        assert_eq!(impl_generics_with_additional(plain, b"x", b"Y", &mut out), Ok(&b"kind text\n"[..]));
        assert_eq!(out[added.len()..], [7; 1024][added.len()..]);
        let long = [b'n'; 255];
        // The line of names, the rows of `< ' , T >`, and the row of the long name.
        let len = 10 + 5 * 4 + 258;
        assert_eq!(impl_generics_with_additional(angled, &long, b"", &mut out).map(|part| part.len()), Ok(len));
        let mut out = [7u8; 1024];
        let wrong = Err(Refusal { number: refusal::ADDED_NAME, place: Place::End });
        for name in [&b"\n"[..], b"a\n\nb", b"9", b"r#a", b"a b", b"a\0", b"\xC3\xA9", &[b'n'; 256], b"'a"] {
            for list in [&plain[..], angled] {
                assert_eq!(impl_generics_with_additional(list, name, b"", &mut out), wrong, "{name:?}");
                assert_eq!(impl_generics_with_additional(list, b"", name, &mut out), wrong, "{name:?}");
                // 30 comes before 8.
                assert_eq!(impl_generics_with_additional(list, b"", name, &mut []), wrong, "{name:?}");
            }
        }
        let refused = Err(Refusal { number: refusal::NO_WORD, place: Place::End });
        assert_eq!(impl_generics_with_additional(b"kind text\n", b"9", b"", &mut out), refused);
        assert_eq!(out, [7; 1024]);
    }

    #[test]
    fn reads_tagged_attributes() {
        use tagged_role::{KEY, OTHER, TAG, VALUE};
        let list = b"kind text\no [\ni p\no (\ni skip\np ,\ni name\np =\nl \"a b\"\nc )\nc ]\n";
        let mut roles = [7u8; 11];
        let entries = vec![Entry::Tag(b"skip"), Entry::Property(b"name", b"\"a b\"")];
        assert_eq!(tagged(list, b"p", &mut roles), Ok(Some(entries)));
        assert_eq!(roles, [OTHER, OTHER, OTHER, TAG, OTHER, KEY, OTHER, VALUE, OTHER, OTHER, NO_ROLE]);
        assert_eq!(tagged(list, b"q", &mut roles), Ok(None));
        assert_eq!(roles, [NO_ROLE; 11]);
        assert_eq!(tagged(list, b"", &mut roles), Ok(None));
        assert_eq!(tagged(list, &[b'p'; 256], &mut roles), Ok(None));
        let short = Refusal { number: refusal::SHORT_BUFFER, place: Place::End };
        assert_eq!(tagged(list, b"p", &mut roles[..9]), Err(short));
        let refused = |number, place| Err(Refusal { number, place });
        assert_eq!(tagged(b"kind text\n", b"p", &mut roles), refused(refusal::NOT_ONE_GROUP, Place::End));
        let before = b"kind text\ni x\no [\nc ]\n";
        assert_eq!(tagged(before, b"p", &mut roles), refused(refusal::NOT_ONE_GROUP, Place::Row(0)));
        let after = b"kind text\no [\nc ]\ni x\n";
        assert_eq!(tagged(after, b"p", &mut roles), refused(refusal::NOT_ONE_GROUP, Place::Row(2)));
        let two = b"kind text\no [\nc ]\no [\nc ]\n";
        assert_eq!(tagged(two, b"p", &mut roles), refused(refusal::NOT_ONE_GROUP, Place::Row(2)));
        let key = b"kind text\no [\ni p\no (\no (\nc )\nc )\nc ]\n";
        assert_eq!(tagged(key, b"p", &mut roles), refused(refusal::NO_ENTRY, Place::Row(3)));
        let value = b"kind text\no [\ni p\no (\ni k\np =\no (\nc )\nc )\nc ]\n";
        assert_eq!(tagged(value, b"p", &mut roles), Ok(Some(vec![])));
        assert_eq!(roles, [OTHER, OTHER, OTHER, OTHER, OTHER, OTHER, OTHER, OTHER, OTHER, NO_ROLE, NO_ROLE]);
        let comma = b"kind text\no [\ni p\no (\ni k\np =\nl 1\ni b\nc )\nc ]\n";
        assert_eq!(tagged(comma, b"p", &mut roles), refused(refusal::NO_ENTRY_COMMA, Place::Row(6)));
        assert_eq!(roles, [NO_ROLE; 11]);
    }

    // The list with marks of a list without: 0 in every row but those that are named.
    fn marked(list: &[u8], joint: &[usize]) -> Vec<u8> {
        let rows = list.strip_prefix(b"kind text\n").unwrap().split_inclusive(|byte| *byte == b'\n');
        let mut made = b"kind joint text\n".to_vec();
        for (n, row) in rows.enumerate() {
            made.extend_from_slice(&row[..2]);
            made.extend_from_slice(if joint.contains(&n) { b"1 " } else { b"0 " });
            made.extend_from_slice(&row[2..]);
        }
        made
    }

    #[test]
    fn reads_alike_with_marks() {
        let list = b"kind text\ni enum\ni E\no {\ni A\np =\np -\nl 007\np ,\ni B\np =\nl 0x1F\nc }\n";
        let puncts = [4, 5, 7, 9];
        let (mut roles, mut out, mut scratch) = ([7u8; 16], [7u8; 128], [7u8; SCRATCH]);
        assert_eq!(read(list, &mut roles), Ok(Kind::Enum));
        let listed = listing(list, &mut out).unwrap().to_vec();
        for joint in [&[][..], &puncts[..1], &puncts[1..], &puncts[..]] {
            let list = marked(list, joint);
            let mut again = [7u8; 16];
            assert_eq!(check(&list), Ok(12));
            assert_eq!(read(&list, &mut again), Ok(Kind::Enum));
            assert_eq!(again, roles);
            assert_eq!(listing(&list, &mut out), Ok(&listed[..]));
            assert_eq!(value(&list, 0, &mut scratch), Ok(Some(&b"-7"[..])));
            assert_eq!(value(&list, 1, &mut scratch), Ok(Some(&b"0x1F"[..])));
        }
        let list = b"kind text\no [\ni p\no (\ni skip\np ,\ni name\np =\nl \"a b\"\nc )\nc ]\n";
        let entries = vec![Entry::Tag(b"skip"), Entry::Property(b"name", b"\"a b\"")];
        assert_eq!(tagged(&marked(list, &[4, 6]), b"p", &mut roles), Ok(Some(entries)));
        // The place of a refusal stays.
        let list = b"kind text\ni struct\ni A\no {\ni a\np :\ni u8\np >\nc }\n";
        let refused = Err(Refusal { number: refusal::UNMATCHED_ANGLE, place: Place::Row(6) });
        assert_eq!(read(list, &mut roles), refused);
        assert_eq!(read(&marked(list, &[4, 6]), &mut roles), refused);
    }

    #[test]
    fn refuses_wrong_marks() {
        let refused = |number, place| Err(Refusal { number, place });
        assert_eq!(check(b"kind joint text\n"), Ok(0));
        assert_eq!(check(b"kind joint text\np 1 :\np 0 :\nl 0 0 1\no 0 0\nc 0 0\n"), Ok(5));
        for row in ["i 1 A", "l 1 1", "o 1 (", "c 1 )", "p 2 :", "p :", "p  :", "p 1:", "p 0 0 :", "p 11 :", "i A", "i 0 "] {
            let list = format!("kind joint text\ni 0 struct\n{row}\n");
            assert_eq!(check(list.as_bytes()), refused(refusal::ROW_FORM, Place::Row(1)), "{row}");
        }
        assert_eq!(check(b"kind text\np 1 :\n"), refused(refusal::ROW_FORM, Place::Row(0)));
        let third = ["kind joint  text", "kind joint", "kind joint text ", "kind text joint", "joint kind text", "kind Joint text"];
        for names in third {
            let list = format!("{names}\ni 0 struct\n");
            assert_eq!(check(list.as_bytes()), refused(refusal::LINE_OF_NAMES, Place::End), "{names}");
        }
        assert_eq!(check(b"kind joint text"), refused(refusal::LINE_OF_NAMES, Place::End));
    }

    #[test]
    fn writes_marks() {
        // `struct A < ' a : ' b , T : x : : y , const N > ;`: the first `:` of `::` is joint, all punctuation that is not copied is,
        // and no `'` is.
        let list = b"kind joint text\ni 0 struct\ni 0 A\np 1 <\np 0 '\ni 0 a\np 1 :\np 0 '\ni 0 b\np 1 ,\ni 0 T\np 1 :\n\
            i 0 x\np 1 :\np 0 :\ni 0 y\np 1 ,\ni 0 const\ni 0 N\np 1 >\np 1 ;\n";
        let mut out = [7u8; 512];
        let written = b"kind joint text\np 0 <\np 1 '\ni 0 a\np 0 :\np 1 '\ni 0 b\np 0 ,\ni 0 T\np 0 :\n\
            i 0 x\np 1 :\np 0 :\ni 0 y\np 0 ,\ni 0 const\ni 0 N\np 0 :\np 0 >\n";
        assert_eq!(impl_generics(list, &mut out), Ok(&written[..]));
        assert_eq!(out[written.len()..], [7; 512][written.len()..]);
        let names = b"kind joint text\np 0 <\np 1 '\ni 0 a\np 0 ,\ni 0 T\np 0 ,\ni 0 N\np 0 >\n";
        assert_eq!(type_generics(list, &mut out), Ok(&names[..]));
        let angled = b"kind joint text\ni 0 struct\ni 0 A\np 0 <\np 0 >\np 0 ;\n";
        let added = b"kind joint text\np 0 <\np 1 '\ni 0 x\np 0 ,\ni 0 Y\np 0 >\n";
        assert_eq!(impl_generics_with_additional(angled, b"x", b"Y", &mut out), Ok(&added[..]));
        let plain = b"kind joint text\ni 0 struct\ni 0 A\np 0 ;\n";
        assert_eq!(impl_generics(plain, &mut out), Ok(&b"kind joint text\n"[..]));
    }

    #[test]
    fn reads_source_texts() {
        let text = b"/// a\nfn f<'a>(x: &'a str) { 0x1F + b'a' /* b */ }";
        let mut out = [7u8; 256];
        let list = b"kind text\np #\no [\ni doc\np =\nl \" a\"\nc ]\ni fn\ni f\np <\np '\ni a\np >\no (\ni x\np :\np &\np '\ni a\n\
            i str\nc )\no {\nl 0x1F\np +\nl b'a'\nc }\n";
        assert_eq!(tokens(text, &mut out), Ok(&list[..]));
        assert_eq!(out[list.len()..], [7; 256][list.len()..]);
        // Where each row's text stands.
        let rows = list.split(|byte| *byte == b'\n').skip(1).filter(|row| !row.is_empty());
        for (row, line) in rows.enumerate() {
            let place = row_place(text, row);
            assert_eq!(&text[place], if row < 6 { &b"/// a"[..] } else { &line[2..] }, "row {row}");
        }
        assert_eq!(row_place(text, 25), text.len()..text.len());
        assert_eq!(row_place(text, usize::MAX), text.len()..text.len());
        assert_eq!(tokens(b"", &mut out), Ok(&b"kind text\n"[..]));
        assert_eq!(row_place(b"", 0), 0..0);
    }

    #[test]
    fn reads_source_texts_at_one_go() {
        let mut roles = [7u8; 7];
        assert_eq!(read_source(b"/* a */ enum E { A } // b", &mut roles), Ok(Kind::Enum));
        let (word, name, delimiter) = (role::ITEM_WORD, role::ITEM_NAME, role::DELIMITER);
        assert_eq!(roles, [word, name, delimiter, role::VARIANT_NAME, delimiter, NO_ROLE, NO_ROLE]);
        assert_eq!(read_source(b"struct A;", &mut roles), Ok(Kind::Struct));
        assert_eq!(roles[..4], [word, name, delimiter, NO_ROLE]);
        let no_body = Refusal { number: refusal::NO_STRUCT_BODY, place: Place::Row(2) };
        for (text, refusal) in [
            (&b"enum E { A = 0b12 }"[..], SourceRefusal::At(13)),
            (&[b','; 4097], SourceRefusal::OverLimit),
            (b"struct A(u8, u8);", SourceRefusal::ShortOutput),
            (b"struct A,", SourceRefusal::InList(no_body)),
            (b"", SourceRefusal::InList(Refusal { number: refusal::NO_WORD, place: Place::End })),
        ] {
            roles = [7; 7];
            assert_eq!(read_source(text, &mut roles), Err(refusal));
            assert_eq!(roles, [NO_ROLE; 7]);
        }
    }

    #[test]
    fn refuses_source_texts() {
        let mut out = [7u8; 65];
        assert_eq!(tokens(b"enum E { A = 0b12 }", &mut out), Err(SourceRefusal::At(13)));
        assert_eq!(tokens(b"a \\", &mut out), Err(SourceRefusal::At(2)));
        assert_eq!(tokens(b"f(]", &mut out), Err(SourceRefusal::At(2)));
        assert_eq!(tokens(b"{ ( )", &mut out), Err(SourceRefusal::At(0)));
        assert_eq!(tokens(&[b'a'; 256], &mut out), Err(SourceRefusal::OverLimit));
        assert_eq!(tokens(&[b','; 4097], &mut out), Err(SourceRefusal::OverLimit));
        let nested = |groups| [vec![b'('; groups], vec![b')'; groups]].concat();
        assert_eq!(tokens(&nested(33), &mut out), Err(SourceRefusal::OverLimit));
        assert_eq!(tokens(&nested(32), &mut out), Err(SourceRefusal::ShortOutput));
        assert_eq!(tokens(&nested(7), &mut out), Err(SourceRefusal::ShortOutput));
        assert_eq!(out, [7; 65]);
        assert_eq!(tokens(b"pub(crate) struct A(u8);", &mut out).map(<[u8]>::len), Ok(10 + 6 + 4 + 8 + 4 + 9 + 4 + 4 + 5 + 4 + 4));
    }

    // What `same_name` is to answer, said with the standard library.
    fn compared(a: &[u8], b: &[u8]) -> Compared {
        let unequal = a.iter().rev().zip(b.iter().rev()).position(|(x, y)| x != y);
        let pairs = if a.len() == b.len() { unequal.map_or(a.len(), |equal| equal + 1) } else { 0 };
        Compared { same: a == b, pairs }
    }

    // A xorshift generator: the same numbers each time.
    struct Random(u64);

    impl Random {
        fn below(&mut self, end: usize) -> usize {
            self.0 ^= self.0 << 13;
            self.0 ^= self.0 >> 7;
            self.0 ^= self.0 << 17;
            (self.0 % end as u64) as usize
        }

        // Few letters, so that pairs are equal now and then.
        fn name_of(&mut self, len: usize) -> Vec<u8> {
            (0..len).map(|_| b"drip"[self.below(4)]).collect()
        }

        fn name(&mut self) -> Vec<u8> {
            let len = self.below(301);
            self.name_of(len)
        }
    }

    #[test]
    fn compares_names() {
        assert_eq!(same_name(b"", b""), Compared { same: true, pairs: 0 });
        assert_eq!(same_name(b"north_1", b"north_1"), Compared { same: true, pairs: 7 });
        assert_eq!(same_name(b"north_1", b"north_2"), Compared { same: false, pairs: 1 });
        assert_eq!(same_name(b"north_1", b"forth_1"), Compared { same: false, pairs: 7 });
        assert_eq!(same_name(b"north_1", b"north"), Compared { same: false, pairs: 0 });
        let mut random = Random(3);
        for _ in 0..20_000 {
            let (a, b) = (random.name(), random.name());
            assert_eq!(same_name(&a, &b), compared(&a, &b), "{a:?} {b:?}");
            let len = a.len().min(b.len());
            assert_eq!(same_name(&a[..len], &b[..len]), compared(&a[..len], &b[..len]), "{a:?} {b:?}");
        }
        // Near-equal ones: the same bytes elsewhere, a byte more, then at each place another byte, and before it a second one.
        for len in 0..=300 {
            let name = random.name_of(len);
            let mut near = name.clone();
            assert_eq!(same_name(&name, &near), Compared { same: true, pairs: len });
            near.push(b'a');
            assert_eq!(same_name(&name, &near), Compared { same: false, pairs: 0 });
            near.pop();
            for at in 0..len {
                let before = random.below(at + 1);
                near[before] = random.below(256) as u8;
                near[at] = name[at] ^ (1 << random.below(8));
                assert_eq!(same_name(&name, &near), Compared { same: false, pairs: len - at }, "{name:?} {near:?}");
                assert_eq!(same_name(&near, &name), compared(&near, &name), "{name:?} {near:?}");
                (near[before], near[at]) = (name[before], name[at]);
            }
        }
    }
}
