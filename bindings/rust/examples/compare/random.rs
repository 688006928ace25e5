//! Damaged lists and random ones.

const PLAIN: &[u8] = b"kind text\n";
/// The names of a list whose rows have a joint mark.
pub const MARKED: &[u8] = b"kind joint text\n";
pub const NAMES: [&[u8]; 2] = [PLAIN, MARKED];

/// The kinds of random lists. Those with names begin with a right first line, those with marks with the one that has a
/// column for them.
pub const KINDS: [&str; 8] = [
    "bytes",
    "letters",
    "names, bytes",
    "names, letters",
    "names, rows",
    "marks, bytes",
    "marks, letters",
    "marks, rows",
];

pub struct Random(pub u64);

impl Random {
    pub fn below(&mut self, n: usize) -> usize {
        self.0 ^= self.0 << 13;
        self.0 ^= self.0 >> 7;
        self.0 ^= self.0 << 17;
        (self.0 % n.max(1) as u64) as usize
    }

    pub fn byte(&mut self) -> u8 {
        self.below(256) as u8
    }

    pub fn pick<T: Copy>(&mut self, from: &[T]) -> T {
        from[self.below(from.len())]
    }

    /// Two texts of added names: most of them right, some of them not.
    pub fn names(&mut self) -> [Vec<u8>; 2] {
        const NAMES: [&[u8]; 16] = [
            b"a", b"T", b"_", b"const", b"self", b"Valve_2", b"x", b"Y", b"Z", b"in", b"r#a", b"9", b"a b", b"", b"a\0", b"\xC3\xA9",
        ];
        [(); 2].map(|()| {
            let mut text = Vec::new();
            for _ in 0..self.below(4) {
                match self.below(24) {
                    0 => text.resize(text.len() + 255, b'n'),
                    1 => text.resize(text.len() + 256, b'n'),
                    2 => text.extend_from_slice(self.pick(&NAMES)),
                    _ => text.extend_from_slice(self.pick(&NAMES[..10])),
                }
                text.push(b'\n');
            }
            if self.below(2) == 0 {
                text.pop();
            }
            text
        })
    }

    /// A copy with a byte changed, dropped or put in, up to three times over.
    pub fn damaged(&mut self, list: &[u8]) -> Vec<u8> {
        let mut bytes = list.to_vec();
        for _ in 0..=self.below(3) {
            let at = self.below(bytes.len());
            match self.below(3) {
                0 if !bytes.is_empty() => bytes[at] = self.byte(),
                1 if !bytes.is_empty() => drop(bytes.remove(at)),
                _ => bytes.insert(at, self.byte()),
            }
        }
        bytes
    }

    /// A random list of one of the kinds, so many bytes long; with rows, a little longer.
    pub fn list(&mut self, kind: &str, len: usize) -> Vec<u8> {
        let (names, kind) = match kind.split_once(", ") {
            Some(("marks", kind)) => (MARKED, kind),
            Some((_, kind)) => (PLAIN, kind),
            None => (&b""[..], kind),
        };
        let mut list = names[..names.len().min(len)].to_vec();
        match kind {
            "rows" => self.rows(&mut list, len, names == MARKED),
            "letters" => list.resize_with(len, || self.pick(b"iplocx    \n\n\n\nabrZ_09#=<>-,:;'\"([{0)]}")),
            _ => list.resize_with(len, || self.byte()),
        }
        list
    }

    // The start of a declaration, then right rows in any order, with every group closed. Punctuation may have any mark.
    fn rows(&mut self, list: &mut Vec<u8>, len: usize, marked: bool) {
        const STARTS: [&[&str]; 5] = [
            &[],
            &["i struct", "i A", "o {"],
            &["i struct", "i A", "o ("],
            &["i struct", "i A", "p <"],
            &["i enum", "i E", "o {"],
        ];
        // `c` closes what is open; `i n` becomes a longer name.
        const ROWS: [&str; 33] = [
            "i a", "i B", "i r#c", "i pub", "i crate", "i in", "i where", "i const", "i struct", "i n", "i n", "i n", "i n",
            "l 1", "l 007", "l \"s\"", "p ,", "p ,", "p ,", "p :", "p :", "p =", "p -", "p <", "p >", "p #", "p ;", "p '", "o (",
            "o [", "o {", "o 0", "c",
        ];
        let mut start = self.pick(&STARTS).iter();
        let mut open = Vec::new();
        while list.len() < len || !open.is_empty() {
            let mut row = match start.next() {
                Some(row) => row,
                None if list.len() < len => self.pick(&ROWS),
                None => "c",
            };
            match row {
                "c" if open.is_empty() => continue,
                "c" => row = open.pop().expect("an open group"),
                "o (" => open.push("c )"),
                "o [" => open.push("c ]"),
                "o {" => open.push("c }"),
                "o 0" => open.push("c 0"),
                _ => {}
            }
            let (kind, text) = row.as_bytes().split_at(2);
            list.extend_from_slice(kind);
            if marked {
                let joint = kind == b"p " && self.below(2) == 0;
                list.extend_from_slice(if joint { b"1 " } else { b"0 " });
            }
            list.extend_from_slice(text);
            if row == "i n" {
                list.resize(list.len() + self.below(255), b'n');
            }
            list.push(b'\n');
        }
    }
}
