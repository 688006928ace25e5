#!/bin/sh
# files.sh [FILE..]: each `struct` and `enum` in these files and folders, or in virtue's sources and Debian's rust-src, and each file that is
# not long, as a source text, judged by the compiler's own lexer; then virtue's answers to the lists. The repository's program
# `replay`, where it is built, reads both.
set -eu
. "$(dirname "$0")/common.sh"
# The names of the files, from the root folder on.
names() {
    if [ $# -gt 0 ]; then
        find "$@" -name '*.rs' -type f | sed "s,^[^/],$PWD/&,"
    else
        find "$sources/" -name '*.rs' -type f
        dpkg -L rust-src 2>/dev/null | grep '\.rs$' || true
    fi
}
[ $# -gt 0 ] || [ -d "$sources" ] || skip_sources parse/
build_source
names "$@" | LC_ALL=C sort >"$built/files.names"
export SOURCE_FILES="$built/files.names" SOURCE_OUT="$built/files.in"
echo 'source::cut! {}' >"$built/cut.rs"
within cut.rs
grep '^files' "$built/cut.rs.err"
judge_source "$built/files.in" files
cat "$built/files.counts"
replay "$built/files.txt"
build_oracle
answer "$built/files.lists" "$built/files.answers" "$built/files.answers.counts"
cat "$built/files.answers.counts"
replay "$built/files.answers"
