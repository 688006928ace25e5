//! Kind c: all lists up to some length over small alphabets, each where it matters. A letter of an
//! alphabet may be several tokens, so that groups stay closed.

use crate::lists::{tokens, Row};
use crate::rng::Rng;

/// What stands before, the letters parted by `|`, what stands after.
const CONTEXTS: [(&str, &str, &str); 18] = [
    // The start of an item.
    (
        "",
        "#|[ a ]|pub|( crate )|( pub )|struct|o0 enum c0|A",
        "struct A ;",
    ),
    ("", "struct|enum|A|;|{ }|<|pub|o0 pub c0", ""),
    // Visibility in a tuple.
    (
        "struct A ( pub",
        "( crate )|( in a )|( u8 )|( self : : X )|[ ]|,|pub|#",
        ") ;",
    ),
    // After a name.
    ("struct A", "<|>|T|:|where|;|( b )|[ ]", "{ a : u8 }"),
    ("enum E", "<|>|T|where|;|( b )|[ B ]|o0 C c0", "{ A }"),
    // Generics.
    ("struct A <", "'|a|const|:|=|,|<|>|3", "> ;"),
    ("struct A < T :", "-|>|<|U|,|( )|{ }|=", "> ( T ) ;"),
    ("struct A < const", "N|:|( )|=|3|,|'|>", "> ;"),
    // Where runs.
    ("struct A where", "T|:|,|<|>|-|( u8 )|{ }|[ ]", "{ a : u8 }"),
    // Named fields.
    ("struct A {", "a|:|,|pub|#|[ a ]|<|>|( crate )", "}"),
    // Types.
    ("struct A (", "u8|,|pub|#|[ a ]|<|>|-|{ pub }", ") ;"),
    // Variants.
    (
        "enum E {",
        "A|,|=|-|1|( u8 )|{ a : u8 }|#|[ x ]|o0 B c0",
        "}",
    ),
    (
        "enum E { A =",
        "-|007|,|B|0x1|9223372036854775808|( )|=",
        "}",
    ),
    ("enum E { A {", "a|:|,|pub|#|[ a ]|{ }", "} = 1 }"),
    // Names and numbers that earlier variants have.
    ("enum E { A = 1 ,", "B|C|r#A|[ B ]|,|= 0|= 1|= - 1", "}"),
    // Tagged attributes.
    ("[ p (", "k|,|=|1|\"s\"|( a )|'", ") ]"),
    ("[", "p|( k )|q|=|[ k = 1 ]|p ( )", "]"),
    // Groups without delimiter.
    ("", "o0|c0|struct|A|;|( )", ""),
];

/// At most `most` lists: every one up to the greatest length that fits, then longer ones by chance.
pub fn lists(rng: &mut Rng, most: usize) -> Vec<Vec<Row>> {
    let contexts = CONTEXTS.map(|(before, letters, after)| {
        let letters: Vec<&str> = letters.split('|').collect();
        (before, letters, after)
    });
    let spell = |(before, letters, after): &(&str, Vec<&str>, &str), word: &[usize]| {
        let word: Vec<&str> = word.iter().map(|letter| letters[*letter]).collect();
        tokens(&format!("{before} {} {after}", word.join(" ")))
    };
    let size = |length: u32| -> usize {
        contexts
            .iter()
            .map(|(_, letters, _)| (0..=length).map(|n| letters.len().pow(n)).sum::<usize>())
            .sum()
    };
    let mut length = 0;
    while size(length + 1) <= most {
        length += 1;
    }
    let mut out = Vec::new();
    for context in &contexts {
        let letters = context.1.len();
        for n in 0..=length {
            for mut code in 0..letters.pow(n) {
                let mut word = Vec::new();
                for _ in 0..n {
                    word.push(code % letters);
                    code /= letters;
                }
                out.push(spell(context, &word));
            }
        }
    }
    while out.len() < most {
        let context = &contexts[rng.below(contexts.len())];
        let n = length as usize + 1 + rng.below(3);
        let word: Vec<usize> = (0..n).map(|_| rng.below(context.1.len())).collect();
        out.push(spell(context, &word));
    }
    out
}
