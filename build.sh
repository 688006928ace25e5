#!/usr/bin/env bash
# usage: bash build.sh NAME..
# Proves and builds: a program NAME becomes target/bin/NAME, and `exports` becomes target/staticlib/libexports.a.
set -euo pipefail
cd "$(dirname "$0")"
mkdir -p target/bin target/staticlib

built() { # NAME COMMAND..: runs rt in the crate's folder, and shows what it said only where it failed
    local name=$1
    shift
    if ! (cd "crates/$name" && rt "$@" </dev/null) >"target/$name.log" 2>&1; then
        cat "target/$name.log"
        exit 1
    fi
    echo "$name proved"
}

for name in "$@"; do
    case $name in
    exports) built "$name" lib && cp crates/exports/out/libexports.a target/staticlib/ ;;
    *) built "$name" run && cp "crates/$name/out/$name" target/bin/ ;; # rt builds a program where it runs it: on no input
    esac
done
