//! Kind d: lists on the limits.

use crate::chain;
use crate::grammar::DELIMITERS;
use crate::lists::{row, to_bytes, tokens, Names, Row};
use crate::marks;
use crate::rng::Rng;

/// The line's tokens with the `@` in it replaced by other rows.
fn around(line: &str, inside: &[Row]) -> Vec<Row> {
    let (before, after) = line.split_once('@').expect("an @ in the line");
    [&tokens(before)[..], inside, &tokens(after)].concat()
}

pub fn nest(depth: usize, first: usize, inside: &[Row]) -> Vec<Row> {
    let delimiter = |n: usize| DELIMITERS[(first + n) % 4];
    let mut rows: Vec<Row> = (0..depth).map(|n| row(b'o', delimiter(n).0)).collect();
    rows.extend_from_slice(inside);
    rows.extend((0..depth).rev().map(|n| row(b'c', delimiter(n).1)));
    rows
}

pub fn repeat(line: &str, times: usize) -> Vec<Row> {
    let rows = tokens(line);
    (0..times).flat_map(|_| rows.clone()).collect()
}

pub fn name(length: usize) -> String {
    "n".repeat(length)
}

/// `struct A ;`, then left-over names up to the given number of bytes.
pub fn bytes_exactly(total: usize, names: Names) -> Vec<Row> {
    let mut rows = tokens("struct A ;");
    let mut left = total - to_bytes(&rows, names).len();
    let beside_text = names.row(&row(b'i', "")).len();
    let most = 255 + beside_text;
    while left > 0 {
        let length = if left > 2 * most {
            most
        } else if left > most {
            left / 2
        } else {
            left
        };
        rows.push(row(b'i', name(length - beside_text)));
        left -= length;
    }
    assert_eq!(to_bytes(&rows, names).len(), total);
    rows
}

/// Short lists: nesting, texts, negative values. All of them are made each time.
pub fn small() -> Vec<Vec<Row>> {
    let mut out = Vec::new();
    for (line, around_it) in [
        ("struct A ; @", 0),
        ("struct A ( @ ) ;", 1),
        ("struct A ( [ @ ] ) ;", 2),
        ("struct A { a : @ }", 1),
        ("# [ @ ] enum E ;", 1),
        ("@ struct A ;", 0),
        ("struct @ ;", 0),
        ("enum E { A ( @ ) }", 2),
        ("struct A < T : @ > ;", 0),
        ("struct A where @ { }", 0),
        ("[ p ( k = @ ) ]", 2),
    ] {
        for depth in [30, 31, 32, 33] {
            for first in [0, 1, 3] {
                let inside = tokens("x");
                out.push(around(line, &nest(depth - around_it, first, &inside)));
            }
        }
    }
    // A fault deeper than the last level, and at the last one.
    out.push(around("struct A ; @ enum", &nest(33, 0, &[])));
    out.push(around("struct A ; o0 @ c0", &nest(32, 1, &[])));

    for length in [1, 254, 255, 256, 257] {
        let n = name(length);
        for line in [
            "struct @ ;",
            "enum E { @ , B }",
            "struct A { @ : u8 }",
            "struct A < @ > ;",
        ] {
            out.push(around(line, &[row(b'i', n.clone())]));
        }
        for line in ["struct A < ' @ > ;", "enum E { A ( @ ) }", "@ A ;"] {
            let raw = format!("r#{}", &n[..length.max(3) - 2]);
            out.push(around(line, &[row(b'i', raw)]));
        }
        for value in [
            format!("\"{}\"", &n[..length.max(3) - 2]),
            "1".repeat(length),
            "0".repeat(length),
            format!("{}7", "0".repeat(length - 1)),
        ] {
            for line in [
                "enum E { A = @ }",
                "enum E { A = - @ , B }",
                "[ p ( k = @ ) ]",
            ] {
                out.push(around(line, &[row(b'l', value.clone())]));
            }
        }
    }

    for value in [
        "0",
        "00",
        "1",
        "7",
        "007",
        "9",
        "10",
        "99",
        "1000000000",
        "9007199254740993",
        "999999999999999999",
        "1000000000000000000",
        "922337203685477580",
        "922337203685477581",
        "9223372036854775799",
        "9223372036854775800",
        "9223372036854775806",
        "9223372036854775807",
        "9223372036854775808",
        "9223372036854775809",
        "9223372036854775810",
        "9223372036854775817",
        "9223372036854775907",
        "9233372036854775807",
        "9999999999999999999",
        "10000000000000000000",
        "18446744073709551615",
        "18446744073709551616",
        "18446744073709551623",
        "09223372036854775807",
        "0009223372036854775807",
        "09223372036854775808",
        "92233720368547758070",
        "27670116110564327424",
        "1_000",
        "5i64",
        "5u8",
        "0x1F",
        "0b1",
        "0o7",
        "1.5",
        "1e3",
        "\"7\"",
        "'7'",
        "b'7'",
        "b\"7\"",
        "c\"7\"",
        "r\"7\"",
    ] {
        for line in [
            "enum E { A = - @ }",
            "enum E { A = @ }",
            "enum E { A , B = - @ , C }",
        ] {
            out.push(around(line, &[row(b'l', value)]));
        }
    }
    out
}

/// Rows and bytes on their limits.
pub fn large(rng: &mut Rng, names: Names) -> Vec<Vec<u8>> {
    let rows = [
        bytes_exactly(65_536, names),
        bytes_exactly(65_537, names),
        rows_exactly(4_096),
        rows_exactly(4_097),
    ];
    let mut out = lists(rng, rows, names);
    let malformed = names.row(&row(b'i', "r#self"));
    out.push([&out[2], malformed.as_bytes()].concat());
    out
}

/// Long declarations: the few that a sample holds.
pub fn long(rng: &mut Rng, names: Names) -> Vec<Vec<u8>> {
    let rows = [
        tuple(4_096),
        variants(4_096),
        variants(4_097),
        around("enum E { @ A B }", &repeat("A ,", 2_045)),
        around("struct A < @ > ;", &repeat("T : U ,", 1_022)),
        around("[ p ( @ ) ]", &repeat("k = 1 ,", 1_022)),
    ];
    lists(rng, rows, names)
}

fn lists<const N: usize>(rng: &mut Rng, rows: [Vec<Row>; N], names: Names) -> Vec<Vec<u8>> {
    rows.map(|rows| marks::list(rng, rows, names)).to_vec()
}

/// `struct A ;` with left-over rows.
fn rows_exactly(rows: usize) -> Vec<Row> {
    around("struct A ; @", &repeat(";", rows - 3))
}

fn tuple(rows: usize) -> Vec<Row> {
    let line = match rows % 2 {
        1 => "struct A ( @ ) ;",
        _ => "struct A ( u @ ) ;",
    };
    around(line, &repeat("u ,", (rows - 5) / 2))
}

fn variants(rows: usize) -> Vec<Row> {
    let line = match rows % 2 {
        0 => "enum E { @ }",
        _ => "enum E { @ A }",
    };
    around(line, &named((rows - 4) / 2, ""))
}

/// So many variants with different names, each with this behind.
fn named(count: usize, behind: &str) -> Vec<Row> {
    let variant = |n| tokens(&format!("V{n:04}{behind} ,"));
    (0..count).flat_map(variant).collect()
}

/// More of them, for the long runs.
pub fn larger(rng: &mut Rng, names: Names) -> Vec<Vec<u8>> {
    let end = name(248);
    let chain = chain::names("V", 1_900);
    let names_in_chain: Vec<Row> = chain.iter().flat_map(|name| tokens(&format!("{name} ,"))).collect();
    let numbers_in_chain: Vec<Row> = (0..1_000)
        .flat_map(|n| tokens(&format!("V{n} = {} ,", n * chain::ROOM)))
        .collect();
    let rows = [
        bytes_exactly(65_535, names),
        rows_exactly(4_095),
        tuple(4_095),
        variants(4_095),
        tuple(4_097),
        variants(4_097),
        // Faults in the last rows.
        around("enum E { @ A = 1 2 }", &repeat("A ,", 2_044)),
        around("struct A < @", &repeat("T ,", 2_046)),
        around("struct A { @ a }", &repeat("a : u ,", 1_022)),
        around("struct A < @ > ;", &repeat("' a ,", 1_363)),
        around("@ struct A ;", &repeat("# [ a ]", 1_023)),
        [repeat("(", 32), repeat(";", 4_064)].concat(),
        [repeat("(", 32), repeat(";", 4_065)].concat(),
        // The last variant has the name of the first, or its number.
        around("enum E { @ r#V0000 }", &named(2_045, "")),
        around("enum E { @ A = 0 }", &named(2_044, "")),
        around(&format!("enum E {{ @ V0000{end} }}"), &named(240, &end)),
        around(&format!("enum E {{ @ {} }}", chain[0]), &names_in_chain),
        around("enum E { @ A = 0 }", &numbers_in_chain),
        // Numbers from far below 0 up.
        around("enum E { A = - 1020 , @ }", &named(2_043, "")),
    ];
    let mut out = lists(rng, rows, names);
    // Wrong in other ways too: the first in the order is told.
    let mut list = to_bytes(&bytes_exactly(65_537, names), names);
    list[0] = b'K';
    out.push(list);
    let mut list = to_bytes(&bytes_exactly(65_536, names), names);
    list.pop();
    out.push(list);
    // A row after the last one that may stand, malformed or not even a row.
    for tail in ["\n", "i", &names.row(&row(b'c', ")"))] {
        let list = to_bytes(&rows_exactly(4_096), names);
        out.push([&list, tail.as_bytes()].concat());
    }
    // A few with many groups, by chance.
    for _ in 0..4 {
        let inside = nest(rng.below(30), rng.below(4), &tokens("x"));
        let times = 4_000 / (inside.len() + 1);
        let line: Vec<Row> = (0..times)
            .flat_map(|_| inside.iter().cloned().chain(tokens(",")))
            .collect();
        let rows = around("struct A ( @ ) ;", &line);
        out.push(marks::list(rng, rows, names));
    }
    out
}

/// One negative value by chance, near powers of ten and two.
pub fn negative(rng: &mut Rng) -> Vec<Row> {
    let digits = match rng.below(4) {
        0 => (u64::MAX >> rng.below(64))
            .wrapping_add(rng.below(5) as u64)
            .to_string(),
        1 => ((1u64 << 63) - 3 + rng.below(6) as u64).to_string(),
        2 => rng.next().to_string(),
        _ => (0..1 + rng.below(24))
            .map(|_| (b'0' + rng.below(10) as u8) as char)
            .collect(),
    };
    let zeros = if rng.one_in(3) { rng.below(6) } else { 0 };
    let value = format!("{}{digits}", "0".repeat(zeros));
    around("enum E { A = - @ , B }", &[row(b'l', value)])
}
