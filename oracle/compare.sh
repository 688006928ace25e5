#!/bin/sh
# compare.sh [COUNT [SEED]]: generates about COUNT lists, asks the Rust about each, and lets the
# repository's program `replay`, where it is built, answer them too.
set -eu
. "$(dirname "$0")/common.sh"
count=${1:-100000}
seed=${2:-7}
build_oracle
"$built/lists" cases "$count" "$seed" "$root/oracle/examples.txt" >"$built/compare.in"
export ORACLE_ADDED="$seed"
answer "$built/compare.in" "$built/compare.txt" "$built/compare.counts"
cat "$built/compare.counts"
replay "$built/compare.txt"
