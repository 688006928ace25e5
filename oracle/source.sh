#!/bin/sh
# source.sh [COUNT [SEED]]: source texts, about COUNT of them by chance, judged by the compiler's own lexer; and the repository's
# program `replay`, where it is built, reads them too. It needs no sources of virtue.
set -eu
. "$(dirname "$0")/common.sh"
count=${1:-100000}
seed=${2:-7}
build_source
# In parts, since the compiler keeps every text that it is asked about.
most=50000
part=0
: >"$built/source.all"
: >"$built/source.sums"
while [ "$count" -gt 0 ] || [ $part = 0 ]; do
    now=$((count < most ? count : most))
    "$built/lists" sources $now "$seed" $part "$root/oracle/source_examples.txt" >"$built/source.in"
    judge_source "$built/source.in" source
    cat "$built/source.txt" >>"$built/source.all"
    cat "$built/source.counts" >>"$built/source.sums"
    count=$((count - now))
    part=$((part + 1))
done
mv "$built/source.all" "$built/source.txt"
awk -F': ' '{ n[$1] += $2 } END { for (what in n) print what ": " n[what] }' "$built/source.sums" | sort
replay "$built/source.txt"
