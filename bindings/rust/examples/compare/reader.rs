//! The functions of the reader, called with buffers between guard bytes, and what holds of every answer.
use crate::random::{Random, MARKED, NAMES};
use kusthrila::{check, impl_generics, impl_generics_with_additional, listing, most_added, read, refusal, role, tagged};
use kusthrila::{read_source, row_place, tagged_role, tokens, type_generics, value};
use kusthrila::{Entry, Place, Refusal, SourceRefusal, MOST_GENERICS, MOST_LISTING, MOST_ROWS, MOST_TOKENS, NO_ROLE, SCRATCH};

const GUARD: u8 = 0xA5;
const MARGIN: usize = 8;
/// No text of added names is longer.
pub const MOST_NAMES: usize = 4096;
const SHORT: Refusal = Refusal { number: refusal::SHORT_BUFFER, place: Place::End };

// The bytes of a buffer with its margins, and what they are to be again after each call.
struct Buffer {
    bytes: Vec<u8>,
    before: Vec<u8>,
}

impl Buffer {
    fn new(len: usize) -> Self {
        let bytes = vec![GUARD; len + 2 * MARGIN];
        Buffer { before: bytes.clone(), bytes }
    }

    fn lend(&mut self, len: usize) -> &mut [u8] {
        &mut self.bytes[MARGIN..MARGIN + len]
    }

    // Puts back the first bytes lent, which a call was to write, and looks for any other that it wrote.
    fn restore(&mut self, written: usize) {
        self.lend(written).fill(GUARD);
        assert!(self.bytes == self.before, "a byte that is not to be written");
    }
}

fn cleared(roles: &[u8]) {
    assert!(roles.iter().all(|role| *role == NO_ROLE), "a role byte where nothing was read");
}

// The texts of a list's rows: what follows the other columns.
fn texts(list: &[u8]) -> impl Iterator<Item = &[u8]> {
    let columns = if list.starts_with(MARKED) { 3 } else { 2 };
    let rows = list.split(|byte| *byte == b'\n').skip(1);
    rows.map(move |row| row.splitn(columns, |byte| *byte == b' ').last().unwrap_or_default())
}

/// A writer of generics, with the texts of its added names.
#[derive(Clone, Copy)]
pub enum Writer<'a> {
    Impl,
    Type,
    Additional(&'a [u8], &'a [u8]),
}

impl Writer<'_> {
    /// So many bytes of output are always enough.
    pub fn most(self) -> usize {
        match self {
            Writer::Impl | Writer::Type => MOST_GENERICS,
            Writer::Additional(lifetimes, types) => most_added(lifetimes.len(), types.len()),
        }
    }
}

pub struct Reader {
    roles: Buffer,
    out: Buffer,
    scratch: Buffer,
}

impl Reader {
    pub fn new() -> Self {
        Reader { roles: Buffer::new(MOST_ROWS), out: Buffer::new(MOST_LISTING.max(most_added(MOST_NAMES, MOST_NAMES))), scratch: Buffer::new(64) }
    }

    /// The role of each row, with so many role bytes lent, which hold `fill`.
    pub fn read(&mut self, list: &[u8], lent: usize, fill: u8) -> Result<Vec<u8>, Refusal> {
        let bytes = self.roles.lend(lent);
        bytes.fill(fill);
        let answer = read(list, bytes);
        let mut roles = bytes.to_vec();
        self.roles.restore(lent);
        if let Err(refusal) = answer {
            cleared(&roles);
            return Err(refusal);
        }
        let rest = roles.split_off(check(list).expect("an accepted list passes the check"));
        assert!(roles.iter().all(|role| *role <= role::TYPE), "a role of an accepted list");
        assert!(rest.iter().all(|role| *role == NO_ROLE), "a byte after the roles");
        Ok(roles)
    }

    /// The role of each row of a tagged attribute, with so many role bytes lent, which hold `fill`; none where the prefix does not
    /// stand there. The entries are those that the roles name.
    pub fn tagged(&mut self, list: &[u8], prefix: &[u8], lent: usize, fill: u8) -> Result<Option<Vec<u8>>, Refusal> {
        let bytes = self.roles.lend(lent);
        bytes.fill(fill);
        let answer = tagged(list, prefix, bytes);
        let mut roles = bytes.to_vec();
        self.roles.restore(lent);
        let Some(entries) = answer.inspect_err(|_| cleared(&roles))? else {
            cleared(&roles);
            return Ok(None);
        };
        let rest = roles.split_off(check(list).expect("an accepted list passes the check"));
        assert!(roles.iter().all(|role| (tagged_role::TAG..=tagged_role::OTHER).contains(role)), "a role of a tagged attribute");
        assert!(rest.iter().all(|role| *role == NO_ROLE), "a byte after the roles");
        let named = texts(list).zip(&roles).filter(|(_, role)| **role != tagged_role::OTHER).map(|(text, _)| text);
        let parts = entries.iter().flat_map(|entry| match entry {
            Entry::Tag(tag) => vec![*tag],
            Entry::Property(key, value) => vec![*key, *value],
        });
        assert!(parts.eq(named), "the entries and the roles");
        Ok(Some(roles))
    }

    /// The listing. After a refusal the whole output is as it was, else the bytes after the listing are.
    pub fn listing(&mut self, list: &[u8], lent: usize) -> Result<Vec<u8>, Refusal> {
        let answer = listing(list, self.out.lend(lent)).map(<[u8]>::to_vec);
        self.out.restore(answer.as_ref().map_or(0, Vec::len));
        answer
    }

    /// What a writer of generics writes. After a refusal the whole output is as it was, else the bytes after the list are.
    pub fn generics(&mut self, list: &[u8], writer: Writer, lent: usize) -> Result<Vec<u8>, Refusal> {
        let out = self.out.lend(lent);
        let answer = match writer {
            Writer::Impl => impl_generics(list, out),
            Writer::Type => type_generics(list, out),
            Writer::Additional(lifetimes, types) => impl_generics_with_additional(list, lifetimes, types, out),
        };
        let answer = answer.map(<[u8]>::to_vec);
        self.out.restore(answer.as_ref().map_or(0, Vec::len));
        answer
    }

    /// The token list of a source text. After a refusal the whole output is as it was, else the bytes after the list are.
    pub fn tokens(&mut self, text: &[u8], lent: usize) -> Result<Vec<u8>, SourceRefusal> {
        let answer = tokens(text, self.out.lend(lent)).map(<[u8]>::to_vec);
        self.out.restore(answer.as_ref().map_or(0, Vec::len));
        answer
    }

    // A source text read at one go, with so many role bytes lent, is read as its list is: kind and role bytes are the same, or the
    // refusal, and where there is no list the role bytes are cleared.
    fn at_one_go(&mut self, text: &[u8], tokens: &Result<Vec<u8>, SourceRefusal>, lent: usize) {
        let bytes = self.roles.lend(lent);
        let answer = read_source(text, bytes);
        let roles = bytes.to_vec();
        bytes.fill(NO_ROLE);
        let right = tokens.clone().and_then(|list| {
            read(&list, bytes).map_err(|refusal| match refusal {
                SHORT => SourceRefusal::ShortOutput,
                other => SourceRefusal::InList(other),
            })
        });
        assert_eq!(answer, right, "at one go, with {lent} role bytes");
        assert!(roles == bytes, "the role bytes at one go");
        self.roles.restore(lent);
    }

    /// The same, of whose answer more is known: a list passes the check, its rows' texts stand in the source text one behind the
    /// other, a shorter output is refused, and to read the text at one go is to read the list.
    pub fn source(&mut self, text: &[u8]) -> Result<Vec<u8>, SourceRefusal> {
        let answer = self.tokens(text, MOST_TOKENS);
        self.at_one_go(text, &answer, MOST_ROWS);
        let Ok(list) = &answer else {
            assert_eq!(self.tokens(text, 0), answer, "with no output");
            return answer;
        };
        assert_eq!(self.tokens(text, list.len()).as_ref(), Ok(list), "with an output as long as the list");
        assert_eq!(self.tokens(text, list.len() - 1), Err(SourceRefusal::ShortOutput), "with one byte less");
        let rows = check(list).expect("a list");
        self.at_one_go(text, &answer, rows);
        self.at_one_go(text, &answer, rows.saturating_sub(1));
        // Each place is searched from the text's start, so that of a long list only the first rows are looked up.
        let (mut last, mut doc) = (0..0, 0);
        for (row, part) in texts(list).take(rows.min(64)).enumerate() {
            let place = row_place(text, row);
            if doc > 0 {
                // A doc line's rows have the whole line.
                doc -= 1;
                assert_eq!(place, last, "the place of row {row}");
            } else {
                assert!(last.end <= place.start, "the place of row {row}");
                if text[place.clone()].starts_with(b"///") {
                    doc = 5;
                } else {
                    assert!(&text[place.clone()] == part, "the place of row {row}");
                }
            }
            last = place;
        }
        assert_eq!(row_place(text, rows), text.len()..text.len(), "the place of no row");
        answer
    }

    /// A variant's value. The scratch is written only where the text is a part of it.
    pub fn value(&mut self, list: &[u8], position: usize, lent: usize) -> Result<Option<Vec<u8>>, Refusal> {
        let scratch = self.scratch.lend(lent);
        let part = scratch.as_ptr_range();
        let answer = value(list, position, scratch);
        let written = match answer {
            Ok(Some(text)) if part.contains(&text.as_ptr()) => text.len(),
            _ => 0,
        };
        let answer = answer.map(|text| text.map(<[u8]>::to_vec));
        self.scratch.restore(written);
        answer
    }

    /// Any bytes: the functions refuse alike, and a buffer that is too short in its turn. Whether a declaration is read.
    pub fn answer(&mut self, list: &[u8], random: &mut Random) -> bool {
        let (fill, position) = (random.byte(), random.below(4));
        let checked = check(list);
        let roles = self.read(list, MOST_ROWS, fill);
        let lines = self.listing(list, MOST_LISTING);
        let text = self.value(list, position, SCRATCH);
        let refusal = roles.as_ref().err();
        assert!(checked.is_ok() || checked.as_ref().err() == refusal, "the check and the reader");
        // What the reader takes, the listing refuses for a variant without a number, or that is there twice, at a row.
        let numbers = [refusal::NO_INTEGER, refusal::NO_STEP, refusal::NAME_TWICE, refusal::NUMBER_TWICE];
        match lines.as_ref().err() {
            Some(Refusal { number, place: Place::Row(_) }) if refusal.is_none() && numbers.contains(number) => {}
            other => assert_eq!(other, refusal, "the listing and the reader"),
        }
        assert_eq!(text.as_ref().err(), refusal, "the value and the reader");

        // The lengths of role bytes and scratch are tested after the list check, that of the output last.
        let lent = random.below(64);
        let right = if checked.is_ok_and(|rows| lent < rows) { Err(SHORT) } else { roles.clone() };
        assert_eq!(self.read(list, lent, fill), right, "with {lent} role bytes");
        let right = if checked.is_ok() && lent < SCRATCH { Err(SHORT) } else { text };
        assert_eq!(self.value(list, position, lent), right, "with {lent} bytes of scratch");
        let right = if lines.as_ref().is_ok_and(|lines| lent < lines.len()) { Err(SHORT) } else { lines };
        assert_eq!(self.listing(list, lent), right, "with {lent} bytes of output");

        // The writers refuse as the reader does, then a wrong name, then a short output.
        let names = random.names();
        let right_names = names.iter().all(|text| right_names(text));
        let wrong = Refusal { number: refusal::ADDED_NAME, place: Place::End };
        for writer in [Writer::Impl, Writer::Type, Writer::Additional(&names[0], &names[1])] {
            let written = self.generics(list, writer, writer.most());
            let refused = match writer {
                Writer::Additional(..) if refusal.is_none() && !right_names => Some(&wrong),
                _ => refusal,
            };
            assert_eq!(written.as_ref().err(), refused, "the writer and the reader");
            if let Ok(out) = &written {
                let again = matches!(check(out), Ok(_) | Err(Refusal { number: 4, .. }));
                assert!(out.len() > 65_536 || again, "a list again");
                let same = NAMES.iter().any(|names| list.starts_with(names) && out.starts_with(names));
                assert!(same, "the names of the list");
            }
            let right = if written.as_ref().is_ok_and(|list| lent < list.len()) { Err(SHORT) } else { written };
            assert_eq!(self.generics(list, writer, lent), right, "with {lent} bytes of output");
        }

        let prefix = [&b"p"[..], b"", b"result", &[b'p'; 300]][random.below(4)];
        let parts = self.tagged(list, prefix, MOST_ROWS, fill);
        assert!(checked.is_ok() || checked.as_ref().err() == parts.as_ref().err(), "the check and the tagged attribute");
        let right = if checked.is_ok_and(|rows| lent < rows) { Err(SHORT) } else { parts };
        assert_eq!(self.tagged(list, prefix, lent, !fill), right, "with {lent} role bytes");
        roles.is_ok()
    }
}

/// Whether every line of a text is a name of at most 255 bytes without `r#`.
pub fn right_names(text: &[u8]) -> bool {
    let right = |name: &[u8]| {
        let mut bytes = name.iter();
        bytes.next().is_some_and(|b| b.is_ascii_alphabetic() || *b == b'_')
            && bytes.all(|b| b.is_ascii_alphanumeric() || *b == b'_')
            && name.len() <= 255
    };
    text.is_empty() || text.strip_suffix(b"\n").unwrap_or(text).split(|b| *b == b'\n').all(right)
}
