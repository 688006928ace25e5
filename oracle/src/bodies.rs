//! The second half of kind a: bodies, variants, and the inside of tagged attributes.

use crate::grammar::{Builder, CAPITALS, NAMES};
use crate::numbers::bare;

/// The words that the list check refuses after `r#`.
const NEVER_RAW: [&str; 5] = ["crate", "self", "super", "Self", "_"];

impl Builder<'_> {
    pub fn struct_body(&mut self) {
        match self.rng.below(24) {
            0..=3 => self.p(";"),
            4..=13 => self.group(2, |b| b.fields(true)),
            14..=21 => {
                self.group(0, |b| b.fields(false));
                self.unless(4, |b| b.p(";"));
            }
            22 => self.wrong_group(),
            _ => self.stuff(2, 1),
        }
    }

    /// Fields in a group that cannot hold them.
    fn wrong_group(&mut self) {
        let d = if self.chance(2) { 1 } else { 3 };
        self.group(d, |b| b.fields(false));
    }

    fn fields(&mut self, named: bool) {
        for _ in 0..self.rng.below(4) {
            self.field_start();
            if named {
                self.unless(80, |b| b.name());
                self.unless(80, |b| b.p(":"));
            }
            self.run(2, false);
            self.unless(8, |b| b.p(","));
        }
        if self.chance(12) {
            self.field_start();
        }
    }

    fn field_start(&mut self) {
        self.attributes();
        self.visibility();
    }

    pub fn enum_body(&mut self) {
        match self.rng.below(24) {
            0 => self.p(";"),
            1 => self.stuff(2, 1),
            2 | 3 => self.any_group(|b| b.variants()),
            _ => self.group(2, |b| b.variants()),
        }
    }

    fn variants(&mut self) {
        let mut names = Vec::new();
        // With numbers so near to each other that two are often the same.
        let near = self.chance(6);
        let count = self.rng.below(5) + usize::from(near);
        for _ in 0..count {
            self.attributes();
            self.variant_name(&mut names);
            match self.rng.below(6) {
                0 => self.group(2, |b| b.fields(true)),
                1 => self.group(0, |b| b.fields(false)),
                2 if self.chance(12) => self.wrong_group(),
                _ => {}
            }
            let has_value = self.chance(if near { 2 } else { 3 });
            if has_value {
                self.p("=");
                if self.chance(3) {
                    self.p("-");
                }
                match self.rng.below(40) {
                    0 => self.stuff(2, 1),
                    _ if near => self.small_integer(),
                    1..=8 => self.l(),
                    _ => self.integer(),
                }
            }
            self.unless(if has_value { 3 } else { 20 }, |b| b.p(","));
        }
        if self.chance(30) {
            self.attributes();
        }
    }

    /// A name that no variant before has; now and then one that a variant has, there with `r#` or without.
    fn variant_name(&mut self, before: &mut Vec<&'static str>) {
        let text = if !before.is_empty() && self.chance(12) {
            let name = bare(before[self.rng.below(before.len())]);
            let raw = self.chance(2) && !NEVER_RAW.contains(&name);
            format!("{}{name}", if raw { "r#" } else { "" })
        } else {
            let names = if self.chance(6) {
                &NAMES[..]
            } else {
                &CAPITALS
            };
            let mut name = self.rng.pick(names);
            while before.iter().any(|earlier| bare(earlier) == bare(name)) {
                name = self.rng.pick(names);
            }
            before.push(name);
            name.to_string()
        };
        self.word(&text);
    }

    pub fn tagged_list(&mut self) {
        self.group_mostly(1, 6, |b| {
            b.unless(12, |b| {
                let text = if b.chance(10) {
                    b.rng.pick(&NAMES)
                } else {
                    "p"
                };
                b.i(text);
            });
            b.unless(12, |b| b.group_mostly(0, 4, |b| b.tags()));
            if b.chance(6) {
                b.stuff(3, 1);
            }
        });
        if self.chance(12) {
            self.stuff(2, 1);
        }
    }

    fn tags(&mut self) {
        let n = self.rng.below(5);
        for k in 0..n {
            self.name();
            match self.rng.below(10) {
                0..=4 => {}
                5..=8 => {
                    self.p("=");
                    self.l();
                }
                _ => {
                    self.p("=");
                    self.stuff(1, 1);
                }
            }
            if !self.chance(6) && (k + 1 < n || self.chance(3)) {
                self.p(",");
            }
            if self.chance(20) {
                self.stuff(1, 1);
            }
        }
    }
}
