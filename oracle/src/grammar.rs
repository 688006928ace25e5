//! Kind a: declarations (and tagged attributes) made along the grammar of document 01, with all of
//! its optional parts, and now and then a turn that it refuses.

use crate::lists::{row, Row, PUNCTUATION};
use crate::rng::Rng;

pub const DELIMITERS: [(&str, &str); 4] = [("(", ")"), ("[", "]"), ("{", "}"), ("0", "0")];

pub const NAMES: [&str; 34] = [
    "a", "b", "x", "y", "A", "B", "E", "T", "U", "N", "p", "k", "u8", "u32", "Vec", "Fn", "Foo",
    "bar_1", "_", "_z", "Self", "self", "crate", "dyn", "type", "for", "mut", "impl", "r#pub",
    "r#struct", "r#type", "r#a", "r#where", "r#const",
];
pub const CAPITALS: [&str; 9] = ["A", "B", "C", "D", "E", "Main", "Drain", "Block", "r#A"];
const WORDS: [&str; 9] = [
    "pub", "struct", "enum", "where", "const", "in", "super", "self", "crate",
];
const INTEGERS: [&str; 23] = [
    "9223372036854775807",
    "9223372036854775807",
    "0x7FFF_FFFF_FFFF_FFFFi64",
    "0o777_777_777_777_777_777_777",
    "9223372036854775806",
    "9223372036854775805",
    "9223372036854775808",
    "0x8000000000000000",
    "18446744073709551615u64",
    "18446744073709551616",
    "0b_1",
    "0b1010_1010u8",
    "0o17usize",
    "0x1f32",
    "0x1_i8",
    "0xAbCdEf_u32",
    "1_",
    "1__0",
    "300u8",
    "007i16",
    "1f32",
    "1e3",
    "1E3",
];

const LITERALS: [&str; 35] = [
    "0",
    "1",
    "2",
    "3",
    "7",
    "14",
    "00",
    "007",
    "1000",
    "1_000",
    "0x1F",
    "0b11",
    "0o17",
    "5i64",
    "5u8",
    "1.5",
    "2e3",
    "1.0f32",
    "9223372036854775807",
    "9223372036854775808",
    "18446744073709551616",
    "\"s\"",
    "\"a b\"",
    "\"\"",
    "'c'",
    "' '",
    "b'x'",
    "b\"yz\"",
    "c\"q\"",
    "r#\"raw\"#",
    "\"a\\\"b\"",
    "'\\''",
    "b'\\\\'",
    "br\"x\"",
    "cr#\"x\"#",
];

pub struct Builder<'r> {
    pub rng: &'r mut Rng,
    pub rows: Vec<Row>,
}

fn built(rng: &mut Rng, build: fn(&mut Builder)) -> Vec<Row> {
    let rows = Vec::new();
    let mut builder = Builder { rng, rows };
    build(&mut builder);
    builder.rows
}

pub fn declaration(rng: &mut Rng) -> Vec<Row> {
    built(rng, |b| b.item())
}

pub fn tagged(rng: &mut Rng) -> Vec<Row> {
    built(rng, |b| b.tagged_list())
}

/// Any row that is no delimiter.
pub fn plain_row(rng: &mut Rng) -> Row {
    match rng.below(10) {
        0..=2 => row(b'i', rng.pick(&NAMES)),
        3..=4 => row(b'i', rng.pick(&WORDS)),
        5 => row(b'l', rng.pick(&LITERALS)),
        6..=8 => row(
            b'p',
            rng.pick(&["<", ">", "-", ",", ":", "=", "#", "'", ";"]),
        ),
        _ => {
            let n = rng.below(PUNCTUATION.len());
            row(b'p', &PUNCTUATION[n..n + 1])
        }
    }
}

impl Builder<'_> {
    pub fn chance(&mut self, in_n: usize) -> bool {
        self.rng.one_in(in_n)
    }

    /// What is left out once in so many times.
    pub fn unless(&mut self, in_n: usize, part: impl FnOnce(&mut Self)) {
        if !self.chance(in_n) {
            part(self);
        }
    }

    pub fn i(&mut self, text: &str) {
        self.rows.push(row(b'i', text));
    }

    pub fn p(&mut self, text: &str) {
        for c in text.chars() {
            self.rows.push(row(b'p', c));
        }
    }

    pub fn l(&mut self) {
        let text = if self.chance(4) {
            self.rng.below(1000).to_string()
        } else {
            self.rng.pick(&LITERALS).to_string()
        };
        self.rows.push(row(b'l', text));
    }

    /// A literal that is an integer, or nearly one; often on the edge of i64's range.
    pub fn integer(&mut self) {
        let text = match self.rng.below(8) {
            0..=3 => self.rng.below(1000).to_string(),
            4 => format!("0x{:X}", self.rng.next() >> self.rng.below(64)),
            _ => self.rng.pick(&INTEGERS).to_string(),
        };
        self.rows.push(row(b'l', text));
    }

    /// One of few, so that two are often worth the same.
    pub fn small_integer(&mut self) {
        let text = self
            .rng
            .pick(&["0", "1", "2", "3", "00", "01", "2", "0x1", "0b1_0i8", "0u8"]);
        self.rows.push(row(b'l', text));
    }

    pub fn group(&mut self, delimiter: usize, inside: impl FnOnce(&mut Self)) {
        let (open, close) = DELIMITERS[delimiter];
        self.rows.push(row(b'o', open));
        inside(self);
        self.rows.push(row(b'c', close));
    }

    pub fn any_group(&mut self, inside: impl FnOnce(&mut Self)) {
        let d = self.rng.below(4);
        self.group(d, inside);
    }

    /// A group of the usual delimiter; once in so many times, of any.
    pub fn group_mostly(&mut self, usual: usize, in_n: usize, inside: impl FnOnce(&mut Self)) {
        let d = if self.chance(in_n) {
            self.rng.below(4)
        } else {
            usual
        };
        self.group(d, inside);
    }

    fn plain(&mut self) {
        let row = plain_row(self.rng);
        self.rows.push(row);
    }

    pub fn name(&mut self) {
        let text = if self.chance(30) {
            self.rng.pick(&WORDS)
        } else {
            self.rng.pick(&NAMES)
        };
        self.i(text);
    }

    fn capital(&mut self) {
        let text = self.rng.pick(&CAPITALS);
        self.i(text);
    }

    /// A word: plain, or alone in a group of any delimiter.
    pub fn word(&mut self, text: &str) {
        if self.chance(8) {
            self.any_group(|b| b.i(text));
        } else {
            self.i(text);
        }
    }

    /// Balanced rows without a rule.
    pub fn stuff(&mut self, most: usize, levels: usize) {
        for _ in 0..self.rng.below(most + 1) {
            if levels > 0 && self.chance(5) {
                self.any_group(|b| b.stuff(most, levels - 1));
            } else {
                self.plain();
            }
        }
    }

    fn item(&mut self) {
        self.attributes();
        self.visibility();
        let is_struct = self.chance(2);
        if self.chance(60) {
            self.word("union");
        } else {
            self.word(if is_struct { "struct" } else { "enum" });
        }
        if !self.chance(80) {
            if self.chance(3) {
                let text = self
                    .rng
                    .pick(&["A", "B", "Foo", "r#A", "_", "pub", "where"])
                    .to_string();
                self.word(&text);
            } else {
                let d = self.rng.below(40);
                if d < 4 {
                    self.group(d, |b| b.capital());
                } else {
                    self.capital();
                }
            }
        }
        if self.chance(2) {
            self.generics();
        }
        let has_where = self.chance(4);
        if has_where {
            self.i("where");
            self.run(2, true);
            if self.chance(4) {
                self.p(",");
            }
        }
        if is_struct {
            self.struct_body();
        } else {
            self.enum_body();
        }
        if self.chance(4) {
            if self.chance(2) {
                self.p(";");
            }
            self.stuff(4, 2);
        }
    }

    pub fn attributes(&mut self) {
        while self.chance(4) {
            self.p("#");
            if self.chance(8) {
                self.p("#");
            }
            if self.chance(60) {
                self.stuff(2, 1);
            } else {
                self.group(1, |b| {
                    b.name();
                    b.stuff(3, 2);
                });
            }
        }
    }

    pub fn visibility(&mut self) {
        match self.rng.below(12) {
            0..=6 => {}
            7 => self.i("pub"),
            8 | 9 => {
                self.i("pub");
                let first = self
                    .rng
                    .pick(&["crate", "self", "super", "in", "in", "a", "r#in"]);
                self.group_mostly(0, 8, |b| {
                    b.i(first);
                    match b.rng.below(4) {
                        0 => {
                            b.p("::");
                            b.name();
                        }
                        1 if first == "in" => b.name(),
                        _ => {}
                    }
                });
            }
            _ => {
                self.any_group(|b| b.i("pub"));
                if self.chance(2) {
                    self.any_group(|b| b.stuff(2, 1));
                }
            }
        }
    }

    fn generics(&mut self) {
        self.p("<");
        let n = self.rng.below(4);
        for k in 0..n {
            self.param();
            if !self.chance(10) && (k + 1 < n || self.chance(4)) {
                self.p(",");
            }
        }
        self.unless(40, |b| b.p(">"));
    }

    fn param(&mut self) {
        match self.rng.below(4) {
            0 => {
                self.p("'");
                if !self.chance(30) {
                    let text = self.rng.pick(&["a", "b", "static", "_", "r#a", "const"]);
                    self.i(text);
                }
                if self.chance(2) {
                    self.p(":");
                    if self.chance(2) {
                        self.p("'");
                        self.i("b");
                    } else {
                        self.run(1, false);
                    }
                }
            }
            1 => {
                self.i("const");
                if self.chance(20) {
                    self.plain();
                } else {
                    let text = self.rng.pick(&["N", "M", "const", "_", "r#N"]);
                    self.i(text);
                }
                if !self.chance(5) {
                    self.p(":");
                    self.run(1, false);
                    if self.chance(4) {
                        self.p("=");
                        self.l();
                    }
                }
            }
            _ => {
                self.name();
                match self.rng.below(4) {
                    0 => {
                        self.p(":");
                        self.run(2, false);
                        if self.chance(5) {
                            self.p("=");
                            self.run(1, false);
                        }
                    }
                    1 => {
                        self.p("=");
                        self.run(2, false);
                    }
                    _ => {}
                }
            }
        }
    }

    /// A run: types, bounds and what else may stand there. With `no_groups` braces and
    /// parentheses are kept inside angles, because they would end a `where` run.
    pub fn run(&mut self, levels: usize, no_groups: bool) {
        if self.chance(14) {
            return;
        }
        for k in 0..1 + self.rng.below(3) {
            if k > 0 && self.chance(2) {
                self.p("+");
            }
            self.piece(levels, no_groups);
        }
    }

    fn piece(&mut self, levels: usize, no_groups: bool) {
        let deep = levels > 0;
        match self.rng.below(22) {
            0..=4 => self.name(),
            5 => {
                self.name();
                self.p("::");
                self.name();
            }
            6 | 7 if deep => {
                self.name();
                self.p("<");
                let n = self.rng.below(3);
                for k in 0..=n {
                    self.run(levels - 1, false);
                    if k < n {
                        self.p(",");
                    }
                }
                self.p(">");
            }
            8 => {
                self.p("&'");
                self.i("a");
                self.name();
            }
            9 if deep => self.group(1, |b| {
                b.run(levels - 1, false);
                if b.chance(2) {
                    b.p(";");
                    b.l();
                }
            }),
            10 if deep && !no_groups => self.group(0, |b| {
                b.run(levels - 1, false);
                b.p(",");
                b.run(levels - 1, false);
            }),
            11 | 12 if deep => {
                if no_groups {
                    self.i("Box");
                    self.p("<");
                }
                self.i("Fn");
                self.group(0, |b| b.run(levels - 1, false));
                self.p("->");
                self.run(levels - 1, false);
                if no_groups {
                    self.p(">");
                }
            }
            13 => {
                self.i("for");
                self.p("<'");
                self.i("a");
                self.p(">");
                self.name();
            }
            14 => self.l(),
            15 if deep => self.group(3, |b| b.run(levels - 1, false)),
            16 if deep && !no_groups => self.group(2, |b| b.stuff(3, 1)),
            17 => {
                let text = self
                    .rng
                    .pick(&["?", "*", "!", "->", "&", "'", "=", "-", ":"]);
                self.p(text);
                self.name();
            }
            18 if self.chance(4) => self.p("<"),
            19 if self.chance(4) => self.p(">"),
            20 if self.chance(3) => self.p("->"),
            21 if self.chance(4) => self.p("#"),
            _ => {
                self.name();
                self.p(":");
                self.name();
            }
        }
    }
}
