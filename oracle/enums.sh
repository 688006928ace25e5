#!/bin/sh
# enums.sh [COUNT [SEED]]: makes COUNT enums, some more constants, and a quarter as many of each of five sorts of faulty
# enums. rustc judges all of them, and the repository's program `replay`, where it is built, lists them too. It needs no
# sources of virtue.
set -eu
. "$(dirname "$0")/common.sh"
build_lists
enums "${1:-300}" "${2:-7}" "$built/enums.txt"
echo "enums that rustc judges: $(grep -c '^rlist ' "$built/enums.txt")"
replay "$built/enums.txt"
