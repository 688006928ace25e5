# Builds the generator of lists and the oracle. Sourced by the commands beside it.
# VIRTUE_SRC names the folder with virtue's published sources (parse/, utils.rs, ..).

root=$(cd "$(dirname "$0")/.." && pwd)
sources=${VIRTUE_SRC:-$root/../shared/docs/src}
built=$root/target/oracle

# skip REASON: ends well; in the merge gate (KUSTHRILA_GATE is set) what is missing is a failure.
skip() {
    if [ -n "${KUSTHRILA_GATE:-}" ]; then
        echo "failed: $1"
        exit 1
    fi
    echo "skipped: $1"
    exit 0
}

# Virtue's sources come with the shared documents, and where these are missing the gate does without both.
skip_sources() {
    [ -d "$root/../shared/docs" ] || KUSTHRILA_GATE=
    skip "no $1 in VIRTUE_SRC ($sources)"
}

# Only the generator: it needs no sources of virtue.
build_lists() {
    command -v rustc >/dev/null 2>&1 || skip "there is no rustc"
    mkdir -p "$built"
    rustc --edition 2021 -O -o "$built/lists" "$root/oracle/src/main.rs"
}

build_oracle() {
    command -v rustc >/dev/null 2>&1 || skip "there is no rustc"
    minor=$(rustc --version | cut -d. -f2)
    [ "$minor" -ge 88 ] || skip "rustc is older than 1.88, which has no columns of spans"
    for file in parse/mod.rs parse/attributes.rs parse/body.rs parse/data_type.rs \
        parse/generics.rs parse/utils.rs parse/visibility.rs utils.rs error.rs \
        generate/stream_builder.rs; do
        [ -f "$sources/$file" ] || skip_sources "$file"
    done
    build_lists
    # A copy, since rt ci refuses links.
    rm -rf "$built/virtue"
    cp -R "$sources" "$built/virtue"
    chmod -R u+w "$built/virtue"
    rustc --edition 2021 -O --crate-type proc-macro --crate-name oracle \
        -o "$built/liboracle.so" "$root/oracle/src/root.rs"
    # The second line lends its commas' spans to rows; the first comma stands in column 11.
    {
        echo 'oracle::answer! {'
        printf '          '
        printf ',%.0s' $(seq 4200)
        printf '\n}\n'
    } >"$built/driver.rs"
}

# answer CASES ANSWERS COUNTS: the cases of a file, with the Rust's answers.
answer() {
    ORACLE_IN=$1 ORACLE_OUT=$2 ORACLE_COUNTS=$3 \
        rustc --edition 2021 --crate-type lib --crate-name driver --emit metadata \
        --extern "oracle=$built/liboracle.so" -o "$built/driver.rmeta" "$built/driver.rs"
}

# The judge of source texts: the compiler's own lexer. It needs no sources of virtue.
build_source() {
    build_lists
    rustc --edition 2021 -O --crate-type proc-macro --crate-name source \
        -o "$built/libsource.so" "$root/oracle/src/source_root.rs"
}

# within DRIVER: compiles it, in that folder, so that its path is no part of the messages. Faulty texts are errors of the
# compiler, which then fails; that all was done shows in what the macros write.
within() {
    (cd "$built" && RUST_BACKTRACE=0 rustc --edition 2021 --crate-type lib --crate-name source_driver --emit metadata \
        --error-format=short --extern source=libsource.so -o source_driver.rmeta "$1") 2>"$built/$1.err" || true
}

# judge_source TEXTS NAME: the texts of a file with their answers, in NAME.txt, the lists among these in NAME.lists, counts in
# NAME.counts. Then the compiler is asked about each text's parts, and its messages are to bear out the answers.
judge_source() {
    export SOURCE_IN="$1" SOURCE_OUT="$built/$2.txt" SOURCE_ASKS="$built/$2.asks" \
        SOURCE_LISTS="$built/$2.lists" SOURCE_COUNTS="$built/$2.counts"
    rm -f "$SOURCE_COUNTS"
    echo 'source::judge! {}' >"$built/judge.rs"
    within judge.rs
    if [ ! -s "$SOURCE_COUNTS" ]; then
        grep -a -A2 '^not as expected\|panicked at' "$built/judge.rs.err" || true
        echo "failed: see target/oracle/judge.rs.err"
        exit 1
    fi
    seq "$(grep -a '^asks: ' "$SOURCE_COUNTS" | cut -d' ' -f2)" | sed 's/.*/source::ask! { & }/' >"$built/asks.rs"
    within asks.rs
    "$built/lists" confirm "$SOURCE_ASKS" <"$built/asks.rs.err"
}

# replay SECTIONS: what the repository's own program says of them, where it is built.
replay() {
    if [ -x "$root/target/bin/replay" ]; then
        "$root/target/bin/replay" <"$1"
    else
        echo "not replayed: target/bin/replay is not built (answers in ${1#"$root/"})"
    fi
}

# enums COUNT SEED SECTIONS: lists of enums, with the numbers that rustc gives their variants; and a quarter as many of each
# sort that it refuses, with the place of its message.
enums() {
    "$built/lists" enums "$1" "$2" >"$built/enums.rs"
    rustc --edition 2021 -o "$built/enums" "$built/enums.rs"
    "$built/enums" >"$3"
    for fault in step type range name number; do
        "$built/lists" faulty $(($1 / 4)) "$2" $fault >"$built/faulty.rs"
        # In that folder, so that its path is no part of the messages.
        if (cd "$built" && rustc --edition 2021 --crate-type lib --emit metadata --error-format=json faulty.rs) \
            2>"$built/faulty.err"; then
            echo "failed: rustc takes enums with the fault $fault"
            exit 1
        fi
        "$built/lists" judged "$built/faulty.rs" $fault <"$built/faulty.err" >>"$3"
    done
}
