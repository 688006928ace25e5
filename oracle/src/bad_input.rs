//! The table of bad input, item by item, with names.

use crate::check::{check, printed};
use crate::grammar::DELIMITERS;
use crate::limits::{bytes_exactly, name, nest, repeat};
use crate::lists::{Names, Row, PUNCTUATION};

pub fn table() -> Vec<(String, Vec<u8>)> {
    let mut out: Vec<(String, Vec<u8>)> = Vec::new();
    let mut add = |name: &str, list: Vec<u8>| out.push((name.into(), list));
    let raw = |text: &str| text.as_bytes().to_vec();
    let rows = |text: &str| [b"kind text\n", text.as_bytes()].concat();
    let to_bytes = |rows: &[Row]| crate::lists::to_bytes(rows, Names::Plain);
    let bytes_exactly = |total: usize| to_bytes(&bytes_exactly(total, Names::Plain));

    add("empty input", raw(""));
    add("no rows", raw("kind text\n"));
    add("the line of names without its LF", raw("kind text"));
    add("another line of names", raw("kind name\n"));
    add("a space after the line of names", raw("kind text \n"));
    add("two spaces in the line of names", raw("kind  text\n"));
    add("no line of names", raw("i struct\ni A\np ;\n"));
    add(
        "a byte before the line of names",
        raw("\u{feff}kind text\n"),
    );
    add("struct A ;", rows("i struct\ni A\np ;\n"));
    add("a missing last LF", rows("i struct\ni A\np ;"));
    add("a last line with a kind alone", rows("i struct\ni"));
    add(
        "CR LF lines",
        raw("kind text\r\ni struct\r\ni A\r\np ;\r\n"),
    );
    add("CR LF from the first row on", rows("i struct\r\ni A\r\n"));
    add("CR after a literal", rows("l \"a\"\r\n"));
    add("an empty first row", rows("\n"));
    add("an empty line", rows("i struct\n\ni A\n"));
    add("a NUL byte in a name", rows("i a\0b\n"));
    add("a NUL byte in a literal", rows("l \"\0\"\n"));
    add("a NUL byte in the line of names", raw("kind\0text\n"));
    add("a NUL byte after the last row", rows("i a\n\0"));
    add("byte 127 in a literal", rows("l \"\u{7f}\"\n"));
    add(
        "byte 128 in a literal",
        [b"kind text\nl \"".to_vec(), vec![128, b'"', b'\n']].concat(),
    );
    add("UTF-8 in a literal", rows("l \"\u{e9}\"\n"));
    add("UTF-8 in a name", rows("i \u{e9}\n"));
    add("byte 31 in a literal", rows("l \"\u{1f}\"\n"));
    add("a tab in a literal", rows("l \"\t\"\n"));
    add("bytes 32 and 126 in a literal", rows("l \" ~\"\n"));
    add("a tab for the space", rows("i\ta\n"));
    add("no space", rows("ia\n"));
    add("two spaces", rows("i  a\n"));
    add("a space after the text", rows("i a \n"));
    add("an empty text", rows("i \n"));
    add("a kind without space and text", rows("i\n"));
    add("another kind", rows("x a\n"));
    add("a kind in capitals", rows("I a\n"));
    for n in [255, 256] {
        add(
            &format!("a name of {n} bytes"),
            rows(&format!("i {}\n", name(n))),
        );
        add(
            &format!("a raw name of {n} bytes"),
            rows(&format!("i r#{}\n", name(n - 2))),
        );
        add(
            &format!("a literal of {n} bytes"),
            rows(&format!("l {}\n", "1".repeat(n))),
        );
    }
    let marks: Vec<&str> = PUNCTUATION.split_inclusive(|_| true).collect();
    let texts: [(&str, char, &[&str]); 5] = [
        (
            "the name",
            'i',
            &[
                "r#self", "r#crate", "r#super", "r#Self", "r#_", "r#", "_", "__", "r#__", "r#pub",
                "r#r", "r", "r##a", "R#a", "9a", "a9", "r#9", "r#selfs", "self", "a-b", "a b",
                "r#r#a", "#a",
            ],
        ),
        (
            "the punctuation",
            'p',
            &[
                "::", "->", "''", "(", "\"", "\\", "`", "a", "_", "0", " ", "  ",
            ],
        ),
        ("the punctuation", 'p', &marks),
        (
            "the literal",
            'l',
            &[
                "0", "9", "\"", "'", "b", "c", "r", "a", "-1", " 1", ".5", "_", "0x", "1 2", "#",
            ],
        ),
        (
            "a group that opens with",
            'o',
            &["(", "[", "{", "0", "<", ")", "((", "1"],
        ),
    ];
    for (what, kind, texts) in texts {
        for text in texts {
            add(&format!("{what} {text}"), rows(&format!("{kind} {text}\n")));
        }
    }
    for (open, _) in DELIMITERS {
        for close in [")", "]", "}", "0", ">", "("] {
            add(
                &format!("a group that opens with {open} and closes with {close}"),
                rows(&format!("o {open}\nc {close}\n")),
            );
        }
    }
    for (_, close) in DELIMITERS {
        add(
            &format!("{close} at depth 0"),
            rows(&format!("i a\nc {close}\n")),
        );
        add(
            &format!("{close} after a closed group"),
            rows(&format!("o (\nc )\nc {close}\n")),
        );
        add(
            &format!("{close} at depth 2"),
            rows(&format!("o (\no [\nc {close}\nc ]\nc )\n")),
        );
        add(
            &format!("{close} back at depth 1"),
            rows(&format!("o (\no [\nc ]\nc {close}\n")),
        );
    }
    add("one group left open", rows("i a\no (\ni b\n"));
    add("two groups left open", rows("o (\no [\ni b\n"));
    add("an outer group left open", rows("o (\no [\nc ]\n"));
    for depth in [31, 32, 33] {
        add(
            &format!("{depth} open groups"),
            to_bytes(&nest(depth, 0, &[])),
        );
        add(
            &format!("{depth} groups left open"),
            rows(&"o {\n".repeat(depth)),
        );
    }
    add(
        "64 groups, one after the other",
        to_bytes(&repeat("( )", 64)),
    );
    for n in [4_095, 4_096, 4_097] {
        add(&format!("{n} rows"), to_bytes(&repeat(";", n)));
    }
    for n in [65_535, 65_536, 65_537] {
        add(&format!("{n} bytes"), bytes_exactly(n));
    }
    add(
        "a text of 60000 bytes",
        rows(&format!("i {}\n", name(60_000))),
    );
    let mut cut = bytes_exactly(65_536);
    cut[65_535] = b'n';
    add("65536 bytes without the last LF", cut);
    add("65536 bytes without a line of names", vec![b'x'; 65_536]);

    // Wrong in two ways: the first in the order is told.
    add("65537 bytes and no line of names", vec![b'x'; 65_537]);
    add("another line of names and a bad row", raw("kind\nx\n"));
    let full = to_bytes(&repeat(";", 4_096));
    add("a malformed 4097th row", [full.clone(), raw("x")].concat());
    add("an empty 4097th row", [full.clone(), raw("\n")].concat());
    add(
        "a 4097th row that closes nothing",
        [full, raw("c )\n")].concat(),
    );
    add(
        "a 4096th row without its LF",
        [to_bytes(&repeat(";", 4_095)), raw("p ;")].concat(),
    );
    let open = [to_bytes(&repeat("(", 1)), b"p ;\n".repeat(4_095)].concat();
    add("4096 rows with an open group", open.clone());
    add(
        "4097 rows with an open group",
        [open, raw("p ;\n")].concat(),
    );
    add("a bad row before a wrong close", rows("i 9\nc )\n"));
    add("a wrong close before a bad row", rows("c )\ni 9\n"));
    add("a wrong close and an open group", rows("o (\no [\nc )\n"));
    add(
        "a 33rd group before a bad row",
        rows(&("o (\n".repeat(33) + "i 9\n")),
    );
    add(
        "a bad row before a 33rd group",
        rows(&("i 9\n".to_string() + &"o (\n".repeat(33))),
    );
    add(
        "a 33rd group with another form",
        rows(&("o (\n".repeat(32) + "o <\n")),
    );
    add(
        "a 33rd group without its LF",
        rows(&("o (\n".repeat(32) + "o (")),
    );
    add("an open group and a missing last LF", rows("o (\ni a"));
    add("two bad rows", rows("i a\ni 9\np ::\n"));
    for (what, list, answer) in marked() {
        let refused = format!("refused place\n{answer}\n");
        let right = [format!("{answer}\n"), refused].contains(&printed(check(&list)));
        assert!(right, "{what} is to be {answer}");
        add(&what, list);
    }
    out
}

/// Names and marks, each item with what it is to answer: rows, or number and place.
fn marked() -> Vec<(String, Vec<u8>, &'static str)> {
    let mut out = Vec::new();
    let mut add = |what: &str, list: String, answer| out.push((what.into(), list.into(), answer));
    let raw = |text: &str| text.to_string();
    let rows = |text: &str| Names::Marked.line().to_string() + text;
    let plain = |text: &str| Names::Plain.line().to_string() + text;
    let list = |rows: Vec<Row>| {
        String::from_utf8(crate::lists::to_bytes(&rows, Names::Marked)).expect("ASCII")
    };

    for line in [
        "kind",
        "joint",
        "kind joint",
        "kind joint ",
        "joint text",
        "kind joint text ",
        "kind joint text\t",
        "kind joint text\r",
        "kind joint text\0",
        "kind joint  text",
        "kind  joint text",
        " kind joint text",
        "\u{feff}kind joint text",
        "joint kind text",
        "kind text joint",
        "text joint kind",
        "kind joint texts",
        "kind joint tex",
        "kind joints text",
        "kind join text",
        "kind jointtext",
        "kind joint name",
        "kind mark text",
        "kind joint joint text",
        "kind joint text text",
        "kind\tjoint text",
        "kind,joint,text",
        "Kind joint text",
        "kind Joint text",
        "KIND JOINT TEXT",
    ] {
        add(
            &format!("the names {}", line.escape_debug()),
            format!("{line}\ni 0 A\n"),
            "2 -",
        );
    }
    add(
        "the names kind joint text without their LF",
        raw("kind joint text"),
        "2 -",
    );
    add(
        "an LF in the names kind joint text",
        raw("kind joint\ntext\n"),
        "2 -",
    );
    add(
        "the names kind joint text twice",
        raw("kind joint text\nkind joint text\n"),
        "3 0",
    );
    add(
        "one line of names after the other",
        plain("kind joint text\n"),
        "3 0",
    );
    add(
        "another line of names and a wrong mark",
        raw("kind mark text\np 2 :\n"),
        "2 -",
    );

    add("marks, no rows", rows(""), "rows 0");
    add(
        "marks, struct A ;",
        rows("i 0 struct\ni 0 A\np 0 ;\n"),
        "rows 3",
    );
    add("marks, :: joint", rows("p 1 :\np 0 :\n"), "rows 2");
    add("marks, ' joint and not", rows("p 1 '\np 0 '\n"), "rows 2");
    add(
        "marks, groups without delimiter",
        rows("o 0 0\no 0 0\nc 0 0\nc 0 0\n"),
        "rows 4",
    );
    add("marks, the literal 0", rows("l 0 0\n"), "rows 1");
    add("marks, the literal 1", rows("l 0 1\n"), "rows 1");
    add("marks, the name _", rows("i 0 _\n"), "rows 1");
    for mark in ["0", "1"] {
        let all: String = PUNCTUATION
            .chars()
            .map(|p| format!("p {mark} {p}\n"))
            .collect();
        add(
            &format!("marks, all punctuation with {mark}"),
            rows(&all),
            "rows 22",
        );
    }

    for row in [
        "p 2 :",
        "p 9 :",
        "p / :",
        "p - :",
        "p -1 :",
        "p +1 :",
        "p x :",
        "p O :",
        "p l :",
        "p true :",
        "p : :",
        "p 00 :",
        "p 01 :",
        "p 10 :",
        "p 11 :",
        "p 0 0 :",
        "p 1 1 :",
        "p 1 0 :",
        "p 0 : 0",
        "p : 0",
        "p : 1",
        "p :",
        "p  :",
        "p  0 :",
        "p 0  :",
        "p 0 : ",
        "p 0:",
        "p0 :",
        "p0:",
        "p:",
        " p 0 :",
        "0 p :",
        "p\t0 :",
        "p 0\t:",
        "p 0 :\r",
        "p 0 ",
        "p 1 ",
        "p 0",
        "p 1",
        "p ",
        "p",
        "p\n0 :",
        "p \n:",
        "p 0\n:",
        "p \0 :",
        "p \u{661} :",
        "p 0 ::",
        "p 1 a",
        "p 1 (",
        "p 1 \"",
        "p 1  ",
        "i 1 a",
        "i 2 a",
        "i a",
        "i 0",
        "i 0 ",
        "i 0 0 a",
        "i 0 0",
        "i 0 9",
        "i 0 r#self",
        "i 0 a b",
        "l 1 1",
        "l 2 1",
        "l 1",
        "l 0",
        "l 0 ",
        "l 0 a",
        "l 0  1",
        "l \"s\"",
        "o 1 (",
        "o 2 (",
        "o (",
        "o 0",
        "o 0 0 (",
        "o 0 )",
        "o 0 <",
        "o 1 0",
        "c 1 )",
        "x 0 a",
        "I 0 a",
        "p 0 1",
        "p 1 0",
        "",
    ] {
        let what = format!("marks, the row {}", row.escape_debug());
        add(&what, rows(&format!("{row}\n")), "3 0");
    }
    add("marks, c with 1", rows("o 0 (\nc 1 )\n"), "3 1");
    add("marks, c without one", rows("o 0 (\nc )\n"), "3 1");
    add("marks, c 0 alone", rows("o 0 0\nc 0\n"), "3 1");
    add(
        "marks, the second row without one",
        rows("i 0 A\np :\n"),
        "3 1",
    );
    add(
        "marks, the third row with 2",
        rows("p 1 :\np 1 :\np 2 :\n"),
        "3 2",
    );
    add("marks, CR LF", rows("i 0 struct\r\n"), "3 0");
    add("marks, no last LF", rows("i 0 struct\ni 0 A\np 0 ;"), "3 2");
    add("marks, no last LF after a mark", rows("i 0 A\np 1"), "3 1");
    add("marks, no last LF after a kind", rows("i 0 A\np"), "3 1");
    // What follows the mark is the text, and a literal may begin with a digit.
    add("marks, a literal with two", rows("l 0 0 1\n"), "rows 1");
    add(
        "marks, a literal with 0 and 1",
        rows("l 0 1 \"s\"\n"),
        "rows 1",
    );
    add("no marks, a literal with one", plain("l 0 1\n"), "rows 1");
    for row in [
        "p 1 :",
        "p 0 ,",
        "p 1 '",
        "i 0 A",
        "o 0 {",
        "o 0 0",
        "c 0 0",
        "l \"s\"\nl 0",
    ] {
        let answer = if row.contains('\n') { "rows 2" } else { "3 0" };
        let what = format!("no marks, the row {}", row.escape_debug());
        add(&what, plain(&format!("{row}\n")), answer);
    }

    add(
        "marks, a name of 255 bytes",
        rows(&format!("i 0 {}\n", name(255))),
        "rows 1",
    );
    add(
        "marks, a name of 256 bytes",
        rows(&format!("i 0 {}\n", name(256))),
        "3 0",
    );
    add(
        "marks, a raw name of 255 bytes",
        rows(&format!("i 0 r#{}\n", name(253))),
        "rows 1",
    );
    add(
        "marks, a raw name of 256 bytes",
        rows(&format!("i 0 r#{}\n", name(254))),
        "3 0",
    );
    add(
        "marks, a literal of 255 bytes",
        rows(&format!("l 0 {}\n", "1".repeat(255))),
        "rows 1",
    );
    add(
        "marks, a literal of 256 bytes",
        rows(&format!("l 0 {}\n", "1".repeat(256))),
        "3 0",
    );
    add("marks, 32 open groups", list(nest(32, 0, &[])), "rows 64");
    add("marks, 33 open groups", list(nest(33, 0, &[])), "6 32");
    add("marks, 4096 rows", list(repeat(";1", 4_096)), "rows 4096");
    add("marks, 4097 rows", list(repeat(";1", 4_097)), "4 4096");
    add(
        "marks, 65536 bytes",
        list(bytes_exactly(65_536, Names::Marked)),
        "rows 255",
    );
    add(
        "marks, 65537 bytes",
        list(bytes_exactly(65_537, Names::Marked)),
        "1 -",
    );

    add("marks, ) at depth 0", rows("c 0 )\n"), "5 0");
    add(
        "marks, a group that opens with ( and closes with 0",
        rows("o 0 (\nc 0 0\n"),
        "5 1",
    );
    add(
        "marks, a group that opens with 0 and closes with )",
        rows("o 0 0\nc 0 )\n"),
        "5 1",
    );
    add(
        "marks, two groups left open",
        rows("o 0 (\no 0 [\ni 0 b\n"),
        "7 1",
    );
    add(
        "a wrong mark before a wrong close",
        rows("p 2 :\nc 0 )\n"),
        "3 0",
    );
    add(
        "a wrong close before a wrong mark",
        rows("c 0 )\np 2 :\n"),
        "5 0",
    );
    add("a wrong close with a wrong mark", rows("c 1 )\n"), "3 0");
    add(
        "a wrong mark in an open group",
        rows("o 0 (\np 2 :\n"),
        "3 1",
    );
    let groups = "o 0 (\n".repeat(32);
    add(
        "a 33rd group with a wrong mark",
        rows(&(groups + "o 1 (\n")),
        "3 32",
    );
    let full = list(repeat(";", 4_096));
    add("a 4097th row with a wrong mark", full + "p 2 ;\n", "4 4096");
    out
}
