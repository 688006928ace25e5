//! Source texts whose lists are on the limits of a list, and those on the sizes at which the reader goes another way.

use crate::rng::Rng;

const BYTES: usize = 65_536;
const ROWS: usize = 4_096;

/// Texts of every limit, right below, on and above it.
pub fn texts(rng: &mut Rng) -> Vec<Vec<u8>> {
    let mut out: Vec<String> = Vec::new();
    for length in [254, 255, 256, 300] {
        out.extend(long_rows(length));
    }
    for depth in [1, 31, 32, 33, 34, 200, 3000] {
        out.extend(deep(rng, depth));
    }
    for rows in [ROWS - 6, ROWS - 5, ROWS - 1, ROWS, ROWS + 1] {
        out.extend(many_rows(rows));
    }
    for bytes in [BYTES - 1, BYTES, BYTES + 1] {
        out.extend(many_bytes(bytes));
    }
    for bytes in [SHORT - 1, SHORT, SHORT + 1] {
        out.extend(short_texts(bytes));
    }
    for length in 60..=70 {
        out.extend(comments(length));
        out.extend(comments(length + STRIDE));
    }
    out.into_iter().map(String::into_bytes).collect()
}

/// A text of at most so many bytes is read into a list of SHORT_LIST bytes first (crates/source/src/tokens.rt).
const SHORT: usize = 1_024;
const SHORT_LIST: usize = 4_096;

fn short_texts(bytes: usize) -> Vec<String> {
    // Four bytes of the list for each `;`, behind ten for the names.
    let most = (SHORT_LIST - 10) / 4;
    let ended = |rows: usize, end: &str| format!("{}{end}", ";".repeat(rows));
    vec![
        ";".repeat(bytes),
        format!("struct A; /*{}*/", "x".repeat(bytes - 14)),
        format!("{}`", ";".repeat(bytes - 1)),
        format!("{}(", ";".repeat(bytes - 1)),
        "(".repeat(bytes / 2) + &")".repeat(bytes / 2),
        // One byte less than there is room for, as many, and one more.
        ended(most - 1, "ab"),
        ended(most - 1, "abc"),
        ended(most - 1, "abcd"),
    ]
}

/// So many bytes of a comment are passed over at once (crates/source/src/comment.rt).
const STRIDE: usize = 63;

/// Block comments with so many bytes before what stands out.
fn comments(length: usize) -> Vec<String> {
    let plain = "x".repeat(length);
    vec![
        format!("/*{plain}*/a"),
        format!("/*{plain}**/a"),
        format!("/*{plain}/*{plain}*/{plain}*/a"),
        format!("/*{plain}/*/a"),
        format!("/*{plain}*{plain}/{plain}*/a"),
        format!("/*{plain}"),
        format!("/*{plain}*"),
    ]
}

/// One row with so many bytes of text.
fn long_rows(length: usize) -> Vec<String> {
    let filled = |before: &str, after: &str| {
        let middle = "n".repeat(length - before.len() - after.len());
        format!("{before}{middle}{after}")
    };
    vec![
        filled("", ""),
        filled("r#", ""),
        filled("\"", "\""),
        filled("b\"", "\"x"),
        filled("1", ""),
        format!("'{}", filled("", "")),
        format!("a {} b", "7".repeat(length)),
        // In a doc line the quotes count.
        format!("///{}\nstruct A;", "n".repeat(length - 2)),
        format!("///{}", " ".repeat(length - 2)),
        // Comments and whitespace do not count, and a refusal comes first.
        format!(
            "a/*{}*/{}//{}",
            filled("", ""),
            " ".repeat(length),
            filled("", "")
        ),
        format!("{} `", filled("", "")),
    ]
}

/// So many groups in each other; a doc line opens one too.
fn deep(rng: &mut Rng, depth: usize) -> Vec<String> {
    let sorts: Vec<usize> = (0..depth).map(|_| rng.below(3)).collect();
    let open: String = sorts.iter().map(|n| ["(", "[", "{"][*n]).collect();
    let close: String = sorts.iter().rev().map(|n| [")", "]", "}"][*n]).collect();
    let mut out = vec![
        format!("{open}{close}"),
        format!("{open} a {close} b"),
        format!("{open}\n/// d\n{close}"),
        format!("{open}//{open}\n{close}"),
        format!("{open}'('{close}"),
    ];
    // Those that are left open are asked bracket by bracket.
    if depth <= 200 {
        out.push(format!("{open}{}", &close[..depth - 1]));
        out.push(format!("{open}{close})"));
        out.push(format!("{}{close}", &open[..depth - 1]));
        out.push(format!("{open}0x{close}"));
    }
    out
}

/// A list of so many rows.
fn many_rows(rows: usize) -> Vec<String> {
    vec![
        ";".repeat(rows),
        "a ".repeat(rows),
        format!("{}a", "'a ".repeat((rows - 1) / 2)),
        format!("{}{}", "()".repeat(rows / 2), ",".repeat(rows % 2)),
        format!("{}///", ";".repeat(rows - 6)),
        format!("{}/// d\na", ";".repeat(rows - 7)),
        format!("{}//{}", "1 ".repeat(rows), "a ".repeat(99)),
    ]
}

/// A list of so many bytes.
fn many_bytes(bytes: usize) -> Vec<String> {
    // `kind text` and LF, then rows of `i `, a name and LF.
    let names = |left: usize| {
        let mut out = String::new();
        let mut left = left;
        while left > 0 {
            let length = if left > 600 {
                258
            } else if left > 258 {
                left / 2
            } else {
                left
            };
            out.push_str(&"n".repeat(length - 3));
            out.push(' ');
            left -= length;
        }
        out
    };
    let left = bytes - 10;
    vec![
        names(left),
        // Six rows of a doc line.
        format!(
            "{}/// d",
            names(left - "p #\no [\ni doc\np =\nl \" d\"\nc ]\n".len())
        ),
        format!("{}\"\"", names(left - 5)),
        format!("{}// {}", names(left), "x".repeat(70_000)),
        format!("{}`", names(left)),
    ]
}
