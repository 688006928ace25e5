//! Names and numbers that all stand in one chain of the table by which variants that are there twice are found
//! (crates/doubles): each is then compared with all before it.

/// How many variants the table of a large enum has room for: keys whose numbers have one remainder make a chain.
pub const ROOM: u64 = 2_053;

/// The number of a name's key.
fn hash(name: &str) -> u64 {
    name.bytes().fold(0, |sum, byte| (sum * 65_599 + u64::from(byte)) % (1 << 47))
}

/// So many names that begin alike and end in seven digits.
pub fn names(start: &str, count: usize) -> Vec<String> {
    let all = (0..).map(|n: usize| format!("{start}{n:07}"));
    all.filter(|name| hash(name) % ROOM == 0).take(count).collect()
}
