#!/bin/sh
# Makes the recorded answers anew, in target/oracle, and says whether the files in recorded/ are
# the same. With --update they are replaced, and with them what the replay reads and prints in `rt ci`.
set -eu
. "$(dirname "$0")/common.sh"
count=3000
seed=1
build_oracle
"$built/lists" checks >"$built/checks.txt"
"$built/lists" cases $count $seed "$root/oracle/examples.txt" >"$built/record.in"
answer "$built/record.in" "$built/answers.txt" "$built/record.counts"
cat "$built/record.counts"
enums 200 $seed "$built/enums.txt"
status=0
for name in answers checks enums; do
    if cmp -s "$built/$name.txt" "$root/recorded/$name.txt"; then
        echo "recorded/$name.txt is the same"
    elif [ "${1:-}" = --update ]; then
        cp "$built/$name.txt" "$root/recorded/$name.txt"
        echo "recorded/$name.txt is replaced"
    else
        echo "recorded/$name.txt differs from target/oracle/$name.txt"
        status=1
    fi
done
if [ "${1:-}" = --update ]; then
    cat "$root"/recorded/*.txt >"$root/crates/replay/stdin"
    "$built/lists" counts <"$root/crates/replay/stdin" >"$root/crates/replay/stdout"
fi
exit $status
