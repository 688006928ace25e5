#!/bin/sh
# Asks the Rust about lists given as tokens in one line each, parted by spaces; `o0` and `c0` are a
# group without delimiter, and examples.txt says what `joint` in front is. Prints the sections of the answers.
#   oracle/ask.sh 'struct A ;' 'enum E { A B }' 'joint struct A < T : a :1 : b > ;'
set -eu
. "$(dirname "$0")/common.sh"
[ -n "${ORACLE_BUILT:-}" ] || build_oracle
"$built/lists" tokens "$@" >"$built/ask.in"
answer "$built/ask.in" "$built/ask.out" "$built/ask.counts"
cat "$built/ask.out"
