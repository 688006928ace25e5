//! Document 01's role grammar as a reader of rows, written from its lines and not from the Rust.
//! It gives a role to every row, also to those that the Rust's answer drops, and is itself
//! compared with the Rust on every list.

use crate::check::END;
use crate::lists::Row;
use crate::refusals::Refusal;

/// The role of every row, or the refusal.
pub fn roles(rows: &[Row], mate: &[usize]) -> Result<Vec<u8>, Refusal> {
    let mut reader = Reader {
        rows,
        mate,
        roles: vec![255; rows.len()],
    };
    let mut list = Stream {
        at: 0,
        end: rows.len(),
    };
    reader.item(&mut list)?;
    assert!(!reader.roles.contains(&255), "every row has a role");
    Ok(reader.roles)
}

/// What is left of a stream: its next row, and the row after its last.
struct Stream {
    at: usize,
    end: usize,
}

struct Reader<'a> {
    rows: &'a [Row],
    mate: &'a [usize],
    roles: Vec<u8>,
}

type Read = Result<(), Refusal>;

impl Reader<'_> {
    fn ended(&self, s: &Stream) -> bool {
        s.at == s.end
    }

    /// The place of the next token.
    fn place(&self, s: &Stream) -> usize {
        if self.ended(s) {
            END
        } else {
            s.at
        }
    }

    fn next_is(&self, s: &Stream, kind: u8, text: &str) -> bool {
        !self.ended(s) && self.rows[s.at].kind == kind && self.rows[s.at].text == text
    }

    fn next_punct(&self, s: &Stream, text: &str) -> bool {
        self.next_is(s, b'p', text)
    }

    fn next_kind(&self, s: &Stream, kind: u8) -> bool {
        !self.ended(s) && self.rows[s.at].kind == kind
    }

    /// The opening delimiter of the group that comes next.
    fn next_group(&self, s: &Stream) -> Option<&str> {
        self.next_kind(s, b'o')
            .then(|| self.rows[s.at].text.as_str())
    }

    /// Gives the next token its role, a group with all its rows.
    fn take(&mut self, s: &mut Stream, role: u8) {
        let last = self.mate[s.at];
        self.roles[s.at..=last].fill(role);
        s.at = last + 1;
    }

    /// Gives both delimiters of the next group role 14 and answers its inside.
    fn enter(&mut self, s: &mut Stream) -> Stream {
        let (open, close) = (s.at, self.mate[s.at]);
        self.roles[open] = 14;
        self.roles[close] = 14;
        s.at = close + 1;
        Stream {
            at: open + 1,
            end: close,
        }
    }

    /// The `i` row of the word that comes next: the row itself, or alone in a group.
    fn word(&self, s: &Stream) -> Option<usize> {
        if self.next_kind(s, b'i') {
            return Some(s.at);
        }
        let alone = self.next_kind(s, b'o') && self.mate[s.at] == s.at + 2;
        (alone && self.rows[s.at + 1].kind == b'i').then_some(s.at + 1)
    }

    fn optional(&mut self, s: &mut Stream, punct: &str) -> bool {
        let there = self.next_punct(s, punct);
        if there {
            self.take(s, 10);
        }
        there
    }

    fn run(&mut self, s: &mut Stream, stops: &str, role: u8) -> Read {
        let mut depth = 0;
        let mut after_minus = false;
        while !self.ended(s) {
            let (kind, text) = (self.rows[s.at].kind, self.rows[s.at].text.clone());
            let stop = stops.contains(text.as_str());
            match kind {
                b'p' if text == ">" && after_minus => {}
                b'p' if text == "<" => depth += 1,
                b'p' if text == ">" && depth > 0 => depth -= 1,
                b'p' if text == ">" && !stop => return Err((15, s.at)),
                b'p' if stop && depth == 0 => return Ok(()),
                b'o' if stop && depth == 0 => return Ok(()),
                _ => {}
            }
            after_minus = kind == b'p' && text == "-";
            self.take(s, role);
        }
        Ok(())
    }

    fn item(&mut self, s: &mut Stream) -> Read {
        self.attributes(s)?;
        self.visibility(s);
        let word = self.word(s).ok_or((11, self.place(s)))?;
        let is_struct = match self.rows[word].text.as_str() {
            "struct" => true,
            "enum" => false,
            _ => return Err((25, word)),
        };
        self.take(s, 6);
        self.word(s).ok_or((11, self.place(s)))?;
        self.take(s, 7);
        if self.next_punct(s, "<") {
            self.generics(s)?;
        }
        if self.next_is(s, b'i', "where") {
            self.take(s, 12);
            self.run(s, "{(", 13)?;
        }
        self.body(s, is_struct)?;
        while !self.ended(s) {
            self.take(s, 0);
        }
        Ok(())
    }

    fn body(&mut self, s: &mut Stream, is_struct: bool) -> Read {
        if self.next_punct(s, ";") {
            self.take(s, 14);
            return Ok(());
        }
        let delimiter = match self.next_group(s) {
            Some(open) => open.to_string(),
            None if is_struct => return Err((16, self.place(s))),
            None => return Err((18, self.place(s))),
        };
        if is_struct {
            self.fields(s, &delimiter, 17)
        } else {
            let mut inside = self.enter(s);
            while !self.ended(&inside) {
                self.variant(&mut inside)?;
            }
            Ok(())
        }
    }

    /// A group of fields; another delimiter is refused with the given number.
    fn fields(&mut self, s: &mut Stream, delimiter: &str, number: u8) -> Read {
        let place = s.at;
        let mut inside = self.enter(s);
        match delimiter {
            "{" => self.named_fields(&mut inside),
            "(" => self.types(&mut inside),
            _ => Err((number, place)),
        }
    }

    fn attributes(&mut self, s: &mut Stream) -> Read {
        while self.next_punct(s, "#") {
            let mark = s.at;
            s.at += 1;
            if self.next_group(s) == Some("[") {
                self.roles[mark] = 1;
                self.take(s, 2);
            } else if self.next_punct(s, "#") {
                self.roles[mark] = 3;
            } else if self.next_group(s).is_some() {
                return Err((12, s.at));
            } else {
                return Err((13, self.place(s)));
            }
        }
        Ok(())
    }

    fn visibility(&mut self, s: &mut Stream) {
        if self.next_is(s, b'i', "pub") {
            self.take(s, 4);
            if self.next_group(s) == Some("(") {
                let Row { kind, text, .. } = &self.rows[s.at + 1];
                if *kind == b'i' && ["crate", "self", "super", "in"].contains(&text.as_str()) {
                    self.take(s, 5);
                }
            }
        } else if self.next_kind(s, b'o')
            && self.word(s).is_some_and(|w| self.rows[w].text == "pub")
        {
            self.take(s, 4);
            if self.next_kind(s, b'o') {
                self.take(s, 5);
            }
        }
    }

    fn generics(&mut self, s: &mut Stream) -> Read {
        let angle = s.at;
        self.take(s, 8);
        while !self.next_punct(s, ">") {
            let mut may_have_default = false;
            if self.next_punct(s, "'") {
                let quote = s.at;
                self.take(s, 9);
                if self.ended(s) {
                    return Err((24, quote));
                }
                if !self.next_kind(s, b'i') {
                    return Err((24, s.at));
                }
            } else if self.next_is(s, b'i', "const") {
                self.take(s, 9);
                if !self.next_kind(s, b'i') {
                    return Err((27, self.place(s)));
                }
            } else if self.next_kind(s, b'i') {
                may_have_default = true;
            } else if self.ended(s) {
                return Err((14, angle));
            } else {
                return Err((14, s.at));
            }
            self.take(s, 9);
            if self.optional(s, ":") || (may_have_default && self.optional(s, "=")) {
                self.run(s, ",>", 11)?;
            }
            self.optional(s, ",");
        }
        self.take(s, 8);
        Ok(())
    }

    fn named_fields(&mut self, s: &mut Stream) -> Read {
        loop {
            self.attributes(s)?;
            self.visibility(s);
            if self.ended(s) {
                return Ok(());
            }
            if !self.next_kind(s, b'i') {
                return Err((22, s.at));
            }
            self.take(s, 17);
            if !self.optional(s, ":") {
                return Err((23, self.place(s)));
            }
            self.run(s, ",", 18)?;
            self.optional(s, ",");
        }
    }

    fn types(&mut self, s: &mut Stream) -> Read {
        while !self.ended(s) {
            self.attributes(s)?;
            self.visibility(s);
            self.run(s, ",", 18)?;
            self.optional(s, ",");
        }
        Ok(())
    }

    fn variant(&mut self, s: &mut Stream) -> Read {
        self.attributes(s)?;
        self.word(s).ok_or((11, self.place(s)))?;
        self.take(s, 15);
        if let Some(delimiter) = self.next_group(s).map(str::to_string) {
            self.fields(s, &delimiter, 19)?;
        }
        if self.optional(s, "=") {
            self.value(s)?;
            self.optional(s, ",");
        } else if !self.optional(s, ",") && !self.ended(s) {
            return Err((20, s.at));
        }
        Ok(())
    }

    fn value(&mut self, s: &mut Stream) -> Read {
        let negative = self.next_punct(s, "-");
        if negative {
            self.take(s, 16);
        }
        if !self.next_kind(s, b'l') {
            return Err((21, self.place(s)));
        }
        if negative {
            // Worth counts, not length: without leading zeros, compared as text.
            let text = &self.rows[s.at].text;
            let digits = text.trim_start_matches('0');
            let most = "9223372036854775807";
            let fits = (digits.len(), digits) <= (most.len(), most);
            if !fits || !text.bytes().all(|b| b.is_ascii_digit()) {
                return Err((26, s.at));
            }
        }
        self.take(s, 16);
        Ok(())
    }
}
