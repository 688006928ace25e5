#!/bin/sh
# speed.sh: how long the reader takes, beside virtue's parser on the same lists. speed.sh ours [NAME [TIMES]]: our reader alone.
# speed.sh listing [BEFORE]: how long the listing takes on enums of as many variants as a list holds, and on small
# declarations; and the same with the library of BEFORE, another checkout in which `bash build.sh exports` was run.
# speed.sh source: how long it takes from a source text to roles, beside proc_macro2's lexer with virtue's parser, and beside syn 1
# (Debian's librust-syn-dev).
# Inputs whose name ends in -joint have the names `kind joint text`; they are left out where the reader refuses these.
# speed.sh placed TIMES [BEFORE]: our reader with its functions in so many orders in memory, on which its time depends; beside the
# reader of BEFORE, another checkout in which `bash build.sh exports` was run, in as many orders and by turns. It needs lld.
# It needs Debian's librust-proc-macro2-dev, so that virtue's parser runs outside the compiler; CARGO_REGISTRY names the folder
# with that package's sources.
set -eu
. "$(dirname "$0")/common.sh"
registry=${CARGO_REGISTRY:-/usr/share/cargo/registry}
macros=$(echo "$registry"/proc-macro2-*)
names=$(echo "$registry"/unicode-ident-*)
[ -f "$macros/src/lib.rs" ] || skip "no proc-macro2 in CARGO_REGISTRY ($registry)"
[ -f "$names/src/lib.rs" ] || skip "no unicode-ident in CARGO_REGISTRY ($registry)"
build_oracle
bash "$root/build.sh" exports >/dev/null
rustc --edition 2018 -O --cap-lints allow --crate-type rlib --crate-name unicode_ident \
    -o "$built/libunicode_ident.rlib" "$names/src/lib.rs"
rustc --edition 2018 -O --cap-lints allow --crate-type rlib --crate-name proc_macro2 -L "$built" \
    --extern "unicode_ident=$built/libunicode_ident.rlib" \
    -o "$built/libproc_macro2.rlib" "$macros/src/lib.rs"
# link CHECKOUT PROGRAM [WORDS]: the program with the library of a checkout.
link() {
    library=$1/target/staticlib
    program=$2
    shift 2
    rustc --edition 2021 -O --cfg 'feature="proc-macro2"' -L "$built" -L "native=$library" -l static=exports \
        --extern "proc_macro2=$built/libproc_macro2.rlib" -o "$program" "$@" "$root/oracle/src/speed.rs"
}

if [ "${1:-}" = source ]; then
    quotes=$(echo "$registry"/quote-1.*)
    syn=$(echo "$registry"/syn-1.*)
    [ -f "$quotes/src/lib.rs" ] || skip "no quote in CARGO_REGISTRY ($registry)"
    [ -f "$syn/src/lib.rs" ] || skip "no syn 1 in CARGO_REGISTRY ($registry)"
    rustc --edition 2018 -O --cap-lints allow --crate-type rlib --crate-name quote -L "$built" \
        --extern "proc_macro2=$built/libproc_macro2.rlib" -o "$built/libquote.rlib" "$quotes/src/lib.rs"
    rustc --edition 2018 -O --cap-lints allow --crate-type rlib --crate-name syn -L "$built" \
        --cfg 'feature="derive"' --cfg 'feature="parsing"' --cfg 'feature="printing"' --cfg 'feature="clone-impls"' \
        --cfg 'feature="quote"' --extern "proc_macro2=$built/libproc_macro2.rlib" --extern "quote=$built/libquote.rlib" \
        --extern "unicode_ident=$built/libunicode_ident.rlib" -o "$built/libsyn.rlib" "$syn/src/lib.rs"
    rustc --edition 2021 -O --cfg 'feature="proc-macro2"' -L "$built" -L "native=$root/target/staticlib" -l static=exports \
        --extern "proc_macro2=$built/libproc_macro2.rlib" --extern "syn=$built/libsyn.rlib" \
        -o "$built/source-speed" "$root/oracle/src/source_speed.rs"
    exec "$built/source-speed"
fi
if [ "${1:-}" = listing ]; then
    link "$root" "$built/speed"
    "$built/speed" listing
    [ -n "${2:-}" ] || exit 0
    link "$2" "$built/speed-before"
    echo before:
    exec "$built/speed-before" listing
fi
if [ "${1:-}" != placed ]; then
    link "$root" "$built/speed"
    exec "$built/speed" "$@"
fi
times=$2
before=${3:-}
for order in $(seq "$times"); do
    link "$root" "$built/speed-now-$order" -C "link-arg=-Wl,--shuffle-sections=.text.*=$order"
    [ -z "$before" ] || link "$before" "$built/speed-before-$order" -C "link-arg=-Wl,--shuffle-sections=.text.*=$order"
done
for order in $(seq "$times"); do
    "$built/speed-now-$order" ours | sed 's/^/now /'
    [ -z "$before" ] || "$built/speed-before-$order" ours | sed 's/^/before /'
done | awk '
    !($2 in seen) { seen[$2] = 1; names[++inputs] = $2 }
    {
        key = $1 " " $2
        count[key]++
        sum[key] += $3
        if (count[key] == 1 || $3 < least[key]) least[key] = $3
        if ($3 > most[key]) most[key] = $3
    }
    function shown(key) { return sprintf("%.2f (%.2f to %.2f)", sum[key] / count[key], least[key], most[key]) }
    END {
        print "ns a row, mean (least to most) over the orders"
        for (i = 1; i <= inputs; i++) {
            now = "now " names[i]
            before = "before " names[i]
            line = names[i] ": " shown(now)
            if (before in count) {
                ratio = (sum[now] / count[now]) / (sum[before] / count[before])
                line = line ", before " shown(before) sprintf("; %.3f times as long, %.3f by the least", ratio, least[now] / least[before])
            }
            print line
        }
    }'
rm -f "$built"/speed-now-* "$built"/speed-before-*
