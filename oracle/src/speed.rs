//! How long reading takes: nanoseconds a row on several inputs, beside virtue's `Parse::new` from ready tokens and beside one
//! pass over the list's bytes that only counts LFs, and the growth from a quarter of the rows. Every ratio is of two times
//! measured in this one run. Each input is there once more, with `-joint` behind its name: the same tokens under
//! the names `kind joint text`. Built by oracle/speed.sh.
//! usage: speed [ours [NAME [TIMES]]]: all of it; our reader's nanoseconds a row alone; or our reader on one input (100 times), for
//! a count of instructions. speed listing: how long the listing takes, on inputs of its own.
extern crate proc_macro2 as proc_macro;

include!("virtue.rs");

mod chain;
#[path = "../../bindings/rust/src/lib.rs"]
#[allow(dead_code)]
mod kusthrila;
#[allow(dead_code)]
mod lists;
mod trees;

use kusthrila::{check, listing, read, MOST_LISTING, MOST_ROWS};
use lists::{to_bytes, tokens, Names, Row};
use prelude::{Ident, Literal, Punct, Spacing, Span, TokenStream};
use std::hint::black_box;
use std::time::Instant;

struct List {
    rows: Vec<Row>,
    bytes: Vec<u8>,
}

fn list(rows: Vec<Row>) -> List {
    List { bytes: to_bytes(&rows, Names::Plain), rows }
}

// The same tokens with marks; the longest names lose a few rows, since no list has more than 65,536 bytes.
fn marked(list: &List) -> List {
    let mut rows = list.rows.clone();
    while to_bytes(&rows, Names::Marked).len() > 65_536 {
        rows.drain(3..5);
    }
    for n in 1..rows.len() {
        let pair = [rows[n - 1].text.as_str(), rows[n].text.as_str()].concat();
        rows[n - 1].joint = rows[n - 1].joint || ["::", "->", ">>", "<'", "&'", ">,"].contains(&pair.as_str());
    }
    List { bytes: to_bytes(&rows, Names::Marked), rows }
}

// As many parts as fit into so many rows.
fn filled(rows: usize, before: &str, part: impl Fn(usize) -> String, after: &str) -> List {
    let (mut all, after) = (tokens(before), tokens(after));
    for next in (0..).map(|n| tokens(&part(n))) {
        if all.len() + next.len() + after.len() > rows {
            break;
        }
        all.extend(next);
    }
    all.extend(after);
    list(all)
}

// An enum with attributes, generics and nested types.
fn large_enum(rows: usize) -> List {
    let before =
        "# [ repr ( u8 ) ] pub ( crate ) enum Valve < ' a , T : Clone + Fn ( u8 ) - > u8 , const N : usize > where T : Copy {";
    let part = |n| {
        format!(
            "# [ valve ( id = {n} ) ] Main{n} = {n} , Block{n} ( pub Vec < Option < T > > , [ u8 ; 4 ] ) , \
             Drain{n} {{ flow : u32 , at : Map < u8 , Vec < u8 > > }} ,"
        )
    };
    filled(rows, before, part, "}")
}

// Groups 30 deep, again and again, in a type's run.
fn deep(rows: usize) -> List {
    filled(rows, "struct A (", |_| "( ".repeat(30) + &") ".repeat(30), ") ;")
}

fn long_run(rows: usize) -> List {
    list(tokens(&format!("struct A {{ a : {} }}", "X < ".repeat(rows / 2 - 4))))
}

fn idle_marks(rows: usize) -> List {
    list(tokens(&format!("{} # [ a ] struct A ;", "# ".repeat(rows - 10))))
}

// Empty types: at each `,` an attribute, a visibility, a type and a `,` may begin.
fn empty_types(rows: usize) -> List {
    filled(rows, "struct A (", |_| ",".into(), ") ;")
}

// The longest names, an eighth of the rows: 65,536 bytes hold no more.
fn long_names(rows: usize) -> List {
    filled(rows / 8 + 5, "struct A (", |_| "n".repeat(255) + " ,", ") ;")
}

// A hundred declarations of 10 to 30 rows, no two alike.
fn small() -> Vec<List> {
    const PLACES: [&str; 10] = ["Main", "North", "South", "East", "West", "Upper", "Lower", "Young", "Mature", "Drain"];
    const PARTS: [&str; 10] = ["Valve", "Block", "Emitter", "Filter", "Pump", "Line", "Meter", "Probe", "Timer", "Zone"];
    const FIELDS: [&str; 10] =
        ["flow", "minutes", "lines", "pressure", "level", "opened", "closed", "label", "address", "moisture"];
    const TYPES: [&str; 10] = ["u8", "u16", "u32", "bool", "i64", "String", "Minutes", "Litres", "f32", "usize"];
    let declaration = |n: usize| {
        let (place, part) = (PLACES[n / 10], PARTS[n % 10]);
        let [a, b, c] = [n, n + 3, n + 6].map(|k| FIELDS[k % 10]);
        let [t, u, v] = [n / 10, n / 10 + 1, n / 10 + 2].map(|k| TYPES[k % 10]);
        match (n / 10 + n) % 10 {
            0 => format!("pub struct {place}{part} {{ pub {a} : {t} , {b} : {u} , {c} : {v} }}"),
            1 => format!("# [ derive ( Clone ) ] struct {place}{part} {{ {a} : {t} , pub ( crate ) {b} : Vec < {u} > }}"),
            2 => format!("struct {place}{part} ( pub {t} , [ {u} ; {n} ] , Option < {v} > ) ;"),
            3 => format!("struct {place}{part} < ' a , T : Clone , const N : usize > {{ {a} : & ' a [ T ; N ] }}"),
            4 => format!("struct {place}{part} < T > where T : Copy + Into < {t} > {{ {a} : T , {b} : {u} , }}"),
            5 => format!("pub enum {place}{part} {{ Closed , Open = {n} , Fault = - {n} , }}"),
            6 => format!("# [ repr ( u8 ) ] enum {place}{part} {{ Idle = 0x{n:x} , Running = {n} , Done = 0b1 }}"),
            7 => format!("enum {place}{part} {{ Off , Timed {{ {a} : {t} , {b} : {u} }} , Manual ( {v} ) }}"),
            8 => format!("# [ id ( {n} , label = \"{place}\" ) ] pub enum {place}{part} {{ # [ first ] Wet ( {t} ) , Dry }}"),
            _ => format!("enum {place}{part} < T > {{ Known ( Box < Fn ( {t} ) - > {u} > , T ) , Unknown {{ {a} : {v} }} }}"),
        }
    };
    (0..100).map(|n| list(tokens(&declaration(n)))).collect()
}

const SIZED: [(&str, fn(usize) -> List); 6] = [
    ("enum", large_enum),
    ("deep", deep),
    ("run", long_run),
    ("marks", idle_marks),
    ("types", empty_types),
    ("names", long_names),
];

fn inputs() -> Vec<(String, Vec<List>)> {
    let mut inputs: Vec<_> = SIZED.iter().map(|(name, make)| (name.to_string(), vec![make(4000)])).collect();
    inputs.insert(1, ("small".into(), small()));
    if !knows_marks() {
        return inputs;
    }
    let with_marks = |(name, input): (String, Vec<List>)| {
        let second = (format!("{name}-joint"), input.iter().map(marked).collect());
        [(name, input), second]
    };
    inputs.into_iter().flat_map(with_marks).collect()
}

// Before the names `kind joint text` were added, the reader refused them.
fn knows_marks() -> bool {
    check(Names::Marked.line().as_bytes()).is_ok()
}

// The least of 50 times of a call, and of the call with the freeing of its answer, in nanoseconds. What it takes is made anew
// for each, right before the clock starts.
fn least<T, A>(mut make: impl FnMut() -> T, mut call: impl FnMut(T) -> A) -> (f64, f64) {
    let (mut best, mut best_freed) = (f64::MAX, f64::MAX);
    for _ in 0..50 {
        let taken = black_box(make());
        let start = Instant::now();
        let answer = black_box(call(taken));
        best = best.min(start.elapsed().as_nanos() as f64);
        drop(answer);
        best_freed = best_freed.min(start.elapsed().as_nanos() as f64);
    }
    (best, best_freed)
}

// The least of each time over ten turns: a slow while of the machine falls on all of them, and another turn may be faster.
fn in_turns<const N: usize>(turn: impl Fn() -> Vec<[f64; N]>) -> Vec<[f64; N]> {
    let mut best = turn();
    for _ in 1..10 {
        for (best, time) in best.as_flattened_mut().iter_mut().zip(turn().as_flattened()) {
            *best = best.min(*time);
        }
    }
    best
}

// Our reader, once over each list, with so many role bytes lent.
fn ours(input: &[List], roles: &mut [u8], lent: impl Fn(&List) -> usize) {
    for list in input {
        let _ = black_box(read(black_box(&list.bytes), &mut roles[..lent(list)]));
    }
}

fn reading(input: &[List], lent: impl Fn(&List) -> usize) -> f64 {
    let mut roles = [0u8; MOST_ROWS];
    least(|| (), |()| ours(input, &mut roles, &lent)).0
}

fn a_byte_a_row(list: &List) -> usize {
    list.rows.len()
}

fn stream(list: &List) -> TokenStream {
    let leaf = |row: &Row, span: Span| match row.kind {
        b'i' => Ident::new(&row.text, span).into(),
        b'l' => row.text.parse::<Literal>().expect("a literal").into(),
        _ => {
            let spacing = if row.joint { Spacing::Joint } else { Spacing::Alone };
            Punct::new(char::from(row.text.as_bytes()[0]), spacing).into()
        }
    };
    trees::trees(&list.rows, |_| Span::call_site(), leaf).into_iter().collect()
}

// virtue's parser, once over each list, from ready tokens. Its answers are kept until the clock has stopped.
fn original(input: &[List]) -> (f64, f64) {
    let make = || (input.iter().map(stream).collect::<Vec<_>>(), Vec::with_capacity(input.len()));
    least(make, |(mut streams, mut answers)| {
        answers.extend(streams.drain(..).map(parse::Parse::new));
        (streams, answers)
    })
}

// One look at each byte, which only counts LFs. What black_box hides from the compiler is looked at byte by byte.
fn byte_by_byte(bytes: &[u8]) -> usize {
    let mut count = 0;
    for byte in bytes {
        count += black_box((*byte == b'\n') as usize);
    }
    count
}

// The same as the compiler makes it.
fn plain(bytes: &[u8]) -> usize {
    bytes.iter().map(|byte| (*byte == b'\n') as usize).sum()
}

// In parts whose count fits a byte, so that sixteen bytes are looked at together.
fn vectorised(bytes: &[u8]) -> usize {
    bytes.chunks(255).map(|part| usize::from(part.iter().map(|byte| (*byte == b'\n') as u8).sum::<u8>())).sum()
}

fn pass(input: &[List], count: fn(&[u8]) -> usize) -> f64 {
    // A single one may be too short for the clock.
    let passes = 20;
    let all = || {
        for list in (0..passes).flat_map(|_| input) {
            black_box(count(black_box(&list.bytes)));
        }
    };
    least(|| (), |()| all()).0 / passes as f64
}

fn table() {
    // After so large a block the allocator keeps its pages: else virtue's time would have the system's in it.
    drop(black_box(vec![0u8; 16 << 20]));
    let inputs = inputs();
    for list in inputs.iter().flat_map(|(_, input)| input) {
        read(&list.bytes, &mut [0; MOST_ROWS]).expect("a declaration");
        parse::Parse::new(stream(list)).expect("a declaration");
    }
    let times = in_turns(|| {
        let turn = |(_, input): &(String, Vec<List>)| {
            let (theirs, freed) = original(input);
            let [slow, usual, fast] = [byte_by_byte, plain, vectorised].map(|count| pass(input, count));
            [reading(input, a_byte_a_row), theirs, freed, slow, usual, fast]
        };
        inputs.iter().map(turn).collect()
    });
    if !knows_marks() {
        println!("without the marked inputs: the reader refuses the names kind joint text");
    }
    println!(
        "input rows bytes ns-a-row virtue-ns-a-row times-as-fast virtue-freed-ns-a-row times-as-fast of-the-pass-byte-by-byte \
         of-the-plain-loop of-the-vectorised"
    );
    for ((name, input), [ours, theirs, freed, slow, usual, fast]) in inputs.iter().zip(times) {
        let rows: usize = input.iter().map(a_byte_a_row).sum();
        let bytes: usize = input.iter().map(|list| list.bytes.len()).sum();
        let [ours_a_row, theirs_a_row, freed_a_row] = [ours, theirs, freed].map(|time| time / rows as f64);
        println!(
            "{name} {rows} {bytes} {ours_a_row:.1} {theirs_a_row:.1} {:.2} {freed_a_row:.1} {:.2} {:.2} {:.2} {:.0}",
            theirs / ours,
            freed / ours,
            ours / slow,
            ours / usual,
            ours / fast
        );
    }
    let input = small();
    let lent = in_turns(|| vec![[reading(&input, |_| MOST_ROWS), reading(&input, a_byte_a_row)]])[0];
    println!("small with {MOST_ROWS} role bytes lent to each: {:.2} times as long", lent[0] / lent[1]);
    println!("input growth-a-row-from-a-quarter-of-the-rows");
    let sizes = |make: fn(usize) -> List| [1000, 4000].map(|rows| [make(rows)]);
    let mut inputs: Vec<_> = SIZED.iter().map(|(name, make)| (name.to_string(), sizes(*make))).collect();
    if knows_marks() {
        let joint = |(name, sizes): &(String, [[List; 1]; 2])| {
            let sizes = sizes.each_ref().map(|[list]| [marked(list)]);
            (format!("{name}-joint"), sizes)
        };
        inputs.extend(inputs.iter().map(joint).collect::<Vec<_>>());
    }
    let a_row = |input: &[List; 1]| reading(input, a_byte_a_row) / input[0].rows.len() as f64;
    let times = in_turns(|| inputs.iter().map(|(_, sizes)| sizes.each_ref().map(a_row)).collect());
    for ((name, _), [short, long]) in inputs.iter().zip(times) {
        println!("{name} {:.2}", long / short);
    }
}

fn ours_alone() {
    let inputs = inputs();
    let times = in_turns(|| inputs.iter().map(|(_, input)| [reading(input, a_byte_a_row)]).collect());
    for ((name, input), [time]) in inputs.iter().zip(times) {
        println!("{name} {:.3}", time / input.iter().map(a_byte_a_row).sum::<usize>() as f64);
    }
}

// An enum of unit variants with these names.
fn variants(rows: usize, name: impl Fn(usize) -> String) -> List {
    filled(rows, "enum E {", |n| name(n) + " ,", "}")
}

const DIGITS: &[u8; 62] = b"0123456789ABCDEFGHIJKLMNOPQRSTUVWXYZabcdefghijklmnopqrstuvwxyz";

// The longest names of one length that 65,536 bytes hold; they differ in the last two bytes.
fn same_start(rows: usize) -> List {
    let digit = |n: usize| char::from(DIGITS[n % 62]);
    variants(rows, |n| format!("{}{}{}", "n".repeat(23), digit(n / 62), digit(n)))
}

// They differ in the first two bytes.
fn same_end(rows: usize) -> List {
    let digit = |n: usize| char::from(DIGITS[n % 62]);
    variants(rows, |n| format!("{}{}{}", digit(10 + n / 62), digit(n), "n".repeat(23)))
}

// As long, and each is compared with all before it.
fn chain_names(rows: usize) -> List {
    let names = chain::names(&"n".repeat(18), rows / 2);
    variants(rows, |n| names[n].clone())
}

// The same of written numbers.
fn chain_numbers(rows: usize) -> List {
    filled(rows, "enum E {", |n| format!("V{n} = {} ,", n as u64 * chain::ROOM), "}")
}

// Written numbers, a power of two apart.
fn far_numbers(rows: usize) -> List {
    filled(rows, "enum E {", |n| format!("V{n} = {} ,", 4096 * n), "}")
}

const LISTED: [(&str, fn(usize) -> List); 5] = [
    ("same-start", same_start),
    ("same-end", same_end),
    ("far-numbers", far_numbers),
    ("chain-names", chain_names),
    ("chain-numbers", chain_numbers),
];

// A hundred declarations with so many parts each.
fn hundred(declaration: impl Fn(usize) -> String) -> Vec<List> {
    (0..100).map(|n| list(tokens(&declaration(n)))).collect()
}

struct Listed {
    name: &'static str,
    input: Vec<List>,
    // The same with a quarter of the rows.
    quarter: Option<Vec<List>>,
}

fn listed_inputs() -> Vec<Listed> {
    let variants = |n| {
        format!(
            "enum Valve{n} {{ Main = {n} , North , South , East = - {} , West = 0x3E8 , Upper , Lower , \
             Drain = 2000 }}",
            n + 1
        )
    };
    let fields = |n| {
        format!(
            "struct Valve{n} {{ main : u8 , north : u8 , south : u8 , east : u8 , west : u8 , upper : u8 , \
             lower : u8 , drain : u8 }}"
        )
    };
    let mut inputs = vec![
        Listed { name: "eight-variants", input: hundred(variants), quarter: None },
        Listed { name: "eight-fields", input: hundred(fields), quarter: None },
    ];
    inputs.extend(LISTED.map(|(name, make)| Listed { name, input: vec![make(4096)], quarter: Some(vec![make(1024)]) }));
    inputs
}

fn listing_all(input: &[List]) -> f64 {
    let mut out = vec![0; MOST_LISTING];
    let mut all = || {
        for list in input {
            listing(black_box(&list.bytes), black_box(&mut out)).expect("a listing");
        }
    };
    least(|| (), |()| all()).0
}

fn listings() {
    let inputs = listed_inputs();
    let times = in_turns(|| {
        let turn = |Listed { input, quarter, .. }: &Listed| {
            let quarter = quarter.as_ref().map_or(0.0, |quarter| listing_all(quarter));
            [listing_all(input), quarter, reading(input, a_byte_a_row)]
        };
        inputs.iter().map(turn).collect()
    });
    println!("input rows bytes ns-a-listing ns-a-row of-the-reading growth-a-row-from-a-quarter-of-the-rows");
    let rows = |input: &[List]| input.iter().map(a_byte_a_row).sum::<usize>();
    for (Listed { name, input, quarter }, [time, short, read]) in inputs.iter().zip(times) {
        let bytes: usize = input.iter().map(|list| list.bytes.len()).sum();
        let a_row = time / rows(input) as f64;
        let growth = |quarter: &Vec<List>| format!("{:.2}", a_row * rows(quarter) as f64 / short);
        let growth = quarter.as_ref().map_or("-".into(), growth);
        let (rows, a_listing) = (rows(input), time / input.len() as f64);
        println!("{name} {rows} {bytes} {a_listing:.0} {a_row:.1} {:.2} {growth}", time / read);
    }
}

fn main() {
    let words: Vec<String> = std::env::args().skip(1).collect();
    let words: Vec<&str> = words.iter().map(String::as_str).collect();
    let (name, times) = match words[..] {
        [] => return table(),
        ["ours"] => return ours_alone(),
        ["listing"] => return listings(),
        ["ours", name] => (name, 100),
        ["ours", name, times] => (name, times.parse().expect("TIMES is a number")),
        _ => panic!("usage: speed [ours [NAME [TIMES]]] | listing"),
    };
    let found = inputs().into_iter().find(|(input, _)| *input == name);
    let (_, input) = found.unwrap_or_else(|| panic!("there is no input {name}"));
    let mut roles = [0u8; MOST_ROWS];
    for _ in 0..times {
        ours(&input, &mut roles, a_byte_a_row);
    }
    println!("{name}: {} rows read", times * input.iter().map(a_byte_a_row).sum::<usize>());
}
