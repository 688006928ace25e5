#!/usr/bin/env bash
# All tests. What could not be tested is named right before `rt ci`, whose last line is the last of all: N passed, 0 failed.
# In the merge gate (KUSTHRILA_GATE is set) a compiler that is missing is a failure.
set -euo pipefail
cd "$(dirname "$0")"

skipped=()
skip() { skipped+=("skipped: $1, since $2"); }
have() { # COMMAND WHAT: whether there is the command for this test
    command -v "$1" >/dev/null && return
    if [ -n "${KUSTHRILA_GATE:-}" ]; then
        echo "failed: $2, since there is no $1"
        exit 1
    fi
    skip "$2" "there is no $1"
    return 1
}

# What stands twice is the same: the programs' inputs in `rt ci`, and the listing in the README.
cat recorded/*.txt | cmp - crates/replay/stdin
for program in rows roles listing explain; do
    cmp examples/valve.tokens crates/$program/stdin
done
sed -n '/^    part name number$/,/^$/s/^    //p' README.md | cmp - examples/controller.listing
sed -n '/^    \/\/ The valves/,/^    }$/s/^    //p' README.md | cmp - examples/controller.rs
cmp examples/controller.rs crates/tokens/stdin
cmp examples/controller.tokens crates/tokens/stdout
cmp examples/tagged.tokens crates/tagged/stdin
cmp examples/controller.rs crates/source_listing/stdin
cmp examples/controller.listing crates/source_listing/stdout
for program in impl_generics type_generics; do
    cmp examples/generics.tokens crates/$program/stdin
done
sed -n '/^    part name value$/,/^$/s/^    //p' README.md | cmp - crates/tagged/stdout

# The names of roles and refusals are those of the header, with the same numbers.
mkdir -p target/bindings
names() { # KIND: the header's names and numbers
    sed -n "s/^ *KUSTHRILA_$1_\([A-Z_]*\) = \([0-9]*\).*/\1 \2/p" include/kusthrila.h
}
constants() { sed -n 's/^pub const \([A-Z_]*\): u8 = \([0-9]*\);$/\1 \2/p' "$1"; }
names ROLE >target/bindings/roles
names TAGGED >target/bindings/tagged
names REFUSAL >target/bindings/refusals
sed -n '/how many roles/q; s/^\([a-z_-]*\) = \([0-9]*\)$/\1 \2/p' crates/reading/specs/Role.antt | tr 'a-z-' 'A-Z_' | cmp - target/bindings/roles
constants crates/parse/src/role.rt | grep -v '^NONE ' | cmp - target/bindings/roles
constants bindings/rust/src/role.rs | cmp - target/bindings/roles
constants bindings/rust/src/refusal.rs | cmp - target/bindings/refusals
constants crates/token_list/src/refusal.rt | cmp - target/bindings/refusals
sed -n 's/^\([a-z]*\) = \([0-9]*\)$/\1 \2/p' crates/tagged_reading/specs/Role.antt | tr 'a-z' 'A-Z' | cmp - target/bindings/tagged
constants crates/tagged_attribute/src/role.rt | cmp - target/bindings/tagged
constants bindings/rust/src/tagged_role.rs | cmp - target/bindings/tagged
for table in roles tagged refusals; do # the README has them in three tables of numbers
    cut -d' ' -f2 target/bindings/$table
done | cmp - <(sed -n 's/^| \([0-9]*\) |.*/\1/p' README.md)

# What `explain` says: README's table has the texts of the refusals, and each refusal that it can give has an example.
bash build.sh explain
sed -n '/^MEANINGS =$/,/^$/p' crates/explanation/specs/Words.antt | sed 1d | tr -d '\n' | sed 's/ *∷ */\n/g' |
    sed 's/" ++ *bytes "//; s/^[^"]*"\(.*\)".*/\1/; s/^ *\[\]$//' |
    awk 'length { print NR - 1, $0 }' >target/bindings/meanings
sed -n 's/^| \([0-9]*\) | \(`-`\|row\|4096\|place\|offset\) | \(.*\) |$/\1 \3/p' README.md | tr -d '`' | cmp - target/bindings/meanings
sed -n '/^    5 17$/,/^$/s/^    //p' README.md | tail -n 4 >target/bindings/shown
target/bin/explain <examples/refused.tokens | tail -n +3 | cmp - target/bindings/shown
refusal() { # NUMBER PLACE ROW..: the list of these rows is refused so, with its meaning, and its row is marked
    printf '%s\n' 'kind text' "${@:3}" >target/bindings/list
    explained "$1" "$2"
}
marked_refusal() { # NUMBER PLACE ROW..: the same of rows that have joint marks
    printf '%s\n' 'kind joint text' "${@:3}" >target/bindings/list
    explained "$1" "$2"
}
explained() { # NUMBER PLACE: the same of the list at hand
    target/bin/explain <target/bindings/list >target/bindings/explained
    printf '%s\n' 'refused place' "$1 $2" "$(sed -n "s/^$1 //p" target/bindings/meanings)" | cmp - <(head -n 3 target/bindings/explained)
    if [ "$2" = - ]; then
        ! grep -q '^>' target/bindings/explained
    else
        grep -q "^> *$2  " target/bindings/explained
    fi
}
rows() { yes "$2" | head -n "$1"; } # COUNT ROW
printf 'kind text\n%s' "$(rows 30000 'p ,')" >target/bindings/list && explained 1 -
printf 'kind' >target/bindings/list && explained 2 -
refusal 3 1 'i A' "$(printf 'i \1')"
refusal 3 0 "i $(rows 255 a | tr -d '\n')a"
mapfile -t list < <(rows 4097 'p ,') && refusal 4 4096 "${list[@]}"
refusal 5 0 'c )'
mapfile -t list < <(rows 33 'o (') && refusal 6 32 "${list[@]}"
refusal 7 0 'o ('
refusal 11 - 'i struct'
refusal 12 1 'p #' 'o (' 'c )'
refusal 13 1 'p #' 'i a'
refusal 14 2 'i struct' 'i A' 'p <'
refusal 15 6 'i struct' 'i A' 'o {' 'i a' 'p :' 'i u8' 'p >' 'c }'
refusal 16 2 'i struct' 'i A' 'p ,'
refusal 17 2 'i struct' 'i A' 'o [' 'c ]'
refusal 18 2 'i enum' 'i E' 'p ,'
refusal 19 4 'i enum' 'i E' 'o {' 'i A' 'o [' 'c ]' 'c }'
refusal 20 4 'i enum' 'i E' 'o {' 'i A' 'i B' 'c }'
refusal 21 - 'i enum' 'i E' 'o {' 'i A' 'p =' 'c }'
refusal 22 3 'i struct' 'i A' 'o {' 'p ,' 'c }'
refusal 23 - 'i struct' 'i A' 'o {' 'i a' 'c }'
refusal 24 3 'i struct' 'i A' 'p <' "p '"
refusal 25 0 'i union' 'i A' 'p ;'
refusal 26 6 'i enum' 'i E' 'o {' 'i A' 'p =' 'p -' 'l 9223372036854775808' 'c }'
refusal 27 4 'i struct' 'i A' 'p <' 'i const' 'l 3' 'p >'
printf 'kind text\ni %s\n' "$(rows 300 a | tr -d '\n')" >target/bindings/list && explained 3 0
tail -n 1 target/bindings/explained | awk 'length != 2 + 4 + 2 + 255 { exit 1 }'
printf 'kind text\ni A\n\001\377' >target/bindings/list && explained 3 1
tail -n 1 target/bindings/explained | grep -qx '>    1  \\x01\\xff'

# The listing's own refusals: the rows have their roles all the same.
bash build.sh listing
unlisted() { # NUMBER PLACE ROW..: the listing of these rows is refused so, and they are read
    printf '%s\n' 'kind text' 'i enum' 'i E' 'o {' "${@:3}" 'c }' >target/bindings/list
    target/bin/listing <target/bindings/list | cmp - <(printf 'refused place\n%s\n' "$1 $2")
    target/bin/explain <target/bindings/list | sed -n 1p | grep -q '^ row  role '
}
for text in 1f32 1e3 1.5 0x_ 0b2 0o8 1u7 0B1 '"a"' "'a'" "b'a'" 9223372036854775808 0x8000_0000_0000_0000 340282366920938463463374607431768211456; do
    unlisted 42 5 'i A' 'p =' "l $text" 'p ,' 'i B'
done
unlisted 43 7 'i A' 'p =' 'l 9223372036854775807' 'p ,' 'i B'
unlisted 43 9 'i A' 'p =' 'l 9223372036854775806' 'p ,' 'i B' 'p ,' 'o (' 'i C' 'c )'
unlisted 43 7 'i A' 'p =' 'l 0o777_777_777_777_777_777_777' 'p ,' 'i B' 'p ,' 'i C' 'p =' 'l "a"'
unlisted 50 5 'i A' 'p ,' 'i A'
unlisted 50 5 'i A' 'p ,' 'i r#A' 'p ,' 'i A'
unlisted 50 7 'o (' 'i r#A' 'c )' 'p ,' 'o 0' 'i A' 'c 0'
unlisted 50 11 'i A' 'p =' 'l 1' 'p ,' 'i B' 'p =' 'l 1' 'p ,' 'i B'
unlisted 51 7 'i A' 'p =' 'l 1' 'p ,' 'i B' 'p =' 'l 0x1'
unlisted 51 11 'i A' 'p =' 'l 1' 'p ,' 'i B' 'p =' 'l 0' 'p ,' 'i C'
unlisted 51 8 'i A' 'p =' 'p -' 'l 0' 'p ,' 'o [' 'i B' 'c ]' 'p =' 'l 0'
unlisted 42 9 'i A' 'p ,' 'i A' 'p ,' 'i B' 'p =' 'l "a"'
unlisted 43 9 'i A' 'p =' 'l 9223372036854775806' 'p ,' 'i B' 'p ,' 'i B'
for text in 31 031 3_1_ 0x1F 0x_1f_u8 0o37 0b1_1111i8 31usize; do
    printf '%s\n' 'kind text' 'i enum' 'i E' 'o {' 'i A' 'p =' "l $text" 'p ,' 'i B' 'c }' >target/bindings/list
    target/bin/listing <target/bindings/list | tail -n 2 | cmp - <(printf 'variant A 31\nvariant B 32\n')
done

# Source texts: from a file to its listing; 40 with offset, line and column; a text that is too long is told, and not cut.
bash build.sh tokens
target/bin/tokens <examples/controller.rs | target/bin/listing | cmp - examples/controller.listing
target/bin/tokens <examples/refused.rs | cmp - <(sed -n '/^    40 28 2:12$/s/^    //p' README.md | sed '1i refused place')
unlexed() { # PLACE TEXT: the text, with escapes as printf has them, is refused so
    printf "$2" | target/bin/tokens | cmp - <(printf 'refused place\n%s\n' "$1")
}
unlexed '40 0 1:1' "'ab'"
unlexed '40 0 1:1' 'r"a"'
unlexed '40 0 1:1' '\xef\xbb\xbfstruct A;'
unlexed '40 5 3:3' '/\n\n  k#x'
unlexed '40 2 1:3' '([)'
unlexed '40 2 1:3' 'a (b'
unlexed '40 5 2:2' '"a"\n `'
unlexed '41 -' "$(printf '(%.0s' $(seq 33))$(printf ')%.0s' $(seq 33))"
unlexed '40 66 1:67' "$(printf '(%.0s' $(seq 33))$(printf ')%.0s' $(seq 33))]"
printf "1..2 'a /// b" | target/bin/tokens | cmp - <(printf '%s\n' 'kind text' 'l 1' 'p .' 'p .' 'l 2' "p '" 'i a' 'p #' 'o [' 'i doc' 'p =' 'l " b"' 'c ]')
head -c 1048576 /dev/zero | tr '\0' ' ' | target/bin/tokens | cmp - <(echo 'kind text')
head -c 1048577 /dev/zero | tr '\0' ' ' | target/bin/tokens 2>target/bindings/tokens.err | cmp - /dev/null
grep -q 'more than 1048576 bytes' target/bindings/tokens.err

# Joint marks: rows are shown with them, README's list is read, wrong ones are refused with 3, third lines of names with 2.
target/bin/explain <examples/marked.tokens | cmp - examples/marked.explain
sed -n '/^    kind joint text$/,/^$/s/^    //p' README.md >target/bindings/list
target/bin/explain <target/bindings/list | sed -n 1p | grep -qx ' row  role  *kind joint text'
for row in 'p 2 :' 'p :' 'p  :' 'p 1:' 'p 0 0 :' 'p 1 1 :' 'i 1 A' 'i 2 A' 'i A' 'l 1 1' 'o 1 (' 'c 1 )'; do
    marked_refusal 3 1 'i 0 struct' "$row" 'p 0 ;'
    tail -n +4 target/bindings/explained | cmp - <(printf '     0  i 0 struct\n>    1  %s\n     2  p 0 ;\n' "$row")
done
refusal 3 1 'i struct' 'p 1 :'
marked_refusal 15 6 'i 0 struct' 'i 0 A' 'o 0 {' 'i 0 a' 'p 1 :' 'i 0 u8' 'p 1 >' 'c 0 }'
marked_refusal 24 3 'i 0 struct' 'i 0 A' 'p 0 <' "p 0 '"
printf '%s\n' 'kind joint text' 'i 0 enum' 'i 0 E' 'o 0 {' 'i 0 A' 'p 0 =' 'l 0 0 1' 'c 0 }' >target/bindings/list
target/bin/explain <target/bindings/list | grep -qx '   5  value  *l 0 0 1'
for names in 'kind joint  text' 'kind joint' 'kind joint text ' 'kind text joint' 'joint kind text' 'kind Joint text' 'kind mark text'; do
    printf '%s\n' "$names" 'i 0 struct' 'i 0 A' 'p 0 ;' >target/bindings/list && explained 2 -
done
printf 'kind joint text' >target/bindings/list && explained 2 -

# Newly made lists, against virtue itself where rustc and virtue's sources are at hand.
rm -f target/oracle/compare.txt
answers=(recorded/answers.txt)
bash build.sh replay
oracle/compare.sh 100000 | tee target/compare.out
if reason=$(grep '^skipped: ' target/compare.out); then
    skip "newly made lists, against virtue" "${reason#skipped: }"
else
    grep -qx 'differences 0' target/compare.out
    answers+=(target/oracle/compare.txt)
fi

# Newly made enums, against rustc.
if have rustc "newly made enums, against rustc"; then
    rm -f target/oracle/enums.txt
    oracle/enums.sh | tee target/enums.out
    grep -qx 'differences 0' target/enums.out
    answers+=(target/oracle/enums.txt)
fi

# Newly made source texts, against the compiler's own lexer.
if have rustc "newly made source texts, against rustc"; then
    rm -f target/oracle/source.txt
    oracle/source.sh 20000 | tee target/source.out
    answers+=(target/oracle/source.txt)
fi

# The static library, called from C and from Rust.
bash build.sh exports
example() { # COMMAND FILE: the command prints FILE of the first example, and refuses the second
    "$1" examples/valve.tokens | cmp - "$2"
    if "$1" examples/refused.tokens >target/bindings/refused.out; then
        return 1
    fi
    cmp target/bindings/refused.out bindings/refused.roles
}
tokens_example() { # COMMAND ROLES: it prints the list of one source text, the place of a row in it, and what ROLES prints of the
    # list; and refuses another text
    "$1" examples/controller.rs | cmp - examples/controller.tokens
    "$1" examples/controller.rs 2 | cmp - <(echo '45 5')
    "$1" examples/controller.rs roles | cmp - <("$2" examples/controller.tokens)
    for word in "" roles; do
        if "$1" examples/refused.rs $word >target/bindings/refused.out; then
            return 1
        fi
        cmp target/bindings/refused.out <(printf 'refused place\n40 28\n')
    done
}
# Added names as a program's arguments: what is no name is refused, and never two names.
bash build.sh impl_generics type_generics
added() { target/bin/impl_generics "$@" <examples/generics.tokens 2>target/bindings/added.err; }
long=$(printf 'n%.0s' $(seq 255))
added "'$long" "$long" _ | grep -qx "i $long"
for name in "" "'" 9 r#a 'a b' $'a\nb' "'"$'a\nb' "${long}n" "'${long}n" "$long$long$long"; do
    added "$name" | cmp - <(printf 'refused place\n30 -\n')
done
many=()
for n in $(seq 17); do many+=("$long"); done
added "${many[@]}" | cmp - /dev/null
grep -q 'more than 4096 bytes of added types' target/bindings/added.err
# What is written has the names of the list that was read, and its marks.
target/bin/impl_generics "'b" Drain <examples/marked.tokens | cmp - examples/marked.impl
target/bin/type_generics <examples/marked.tokens | cmp - examples/marked.type

if have gcc "the C examples and the stack that a call needs"; then
    for program in roles listing generics names tokens stack; do
        gcc -std=c11 -Wall -Wextra -Werror -Iinclude -o target/bindings/$program bindings/c/$program.c target/staticlib/libexports.a
    done
    example target/bindings/roles bindings/valve.roles
    example target/bindings/listing crates/listing/stdout
    target/bindings/listing examples/controller.tokens | cmp - examples/controller.listing
    target/bindings/listing examples/valve.tokens 0 | grep -qx 'value 14'
    target/bindings/listing examples/valve.tokens 1 | grep -qx 'no value'
    target/bindings/listing examples/valve.tokens 2 | grep -qx 'value -2'
    target/bindings/generics examples/generics.tokens "'b" Drain | cmp - <(cat crates/{impl,type}_generics/stdout)
    target/bindings/generics examples/marked.tokens "'b" Drain | cmp - <(cat examples/marked.{impl,type})
    tokens_example target/bindings/tokens target/bindings/roles
    compared() { target/bindings/names "$1" "$2" | grep -qx "$3, pairs looked at: $4"; } # NAME NAME ANSWER PAIRS
    compared valve_north_1 valve_north_1 equal 13
    compared valve_north_1 valve_north_2 'not equal' 1
    compared valve_north_1 halve_north_1 'not equal' 13
    compared valve_north_1 valve_north 'not equal' 0
    compared '' '' equal 0
    target/bindings/stack recorded/*.txt
    # It has no data but constants, and calls nothing but memset.
    size target/staticlib/libexports.a | awk 'NR > 1 && $2 + $3 > 0 { print; bad = 1 } END { exit bad }'
    nm -u target/staticlib/libexports.a | awk '$1 == "U" && $2 != "memset" { print; bad = 1 } END { exit bad }'
fi
if command -v g++ >/dev/null; then
    g++ -Wall -Wextra -Werror -fsyntax-only -x c++ include/kusthrila.h
else
    skip "the header in C++" "there is no g++"
fi
if have cargo "the Rust wrapper"; then
    wrapper() { cargo "$@" --quiet --offline --release --manifest-path bindings/rust/Cargo.toml --target-dir target/cargo; }
    wrapper test --lib
    wrapper build --examples
    example target/cargo/release/examples/roles bindings/valve.roles
    target/cargo/release/examples/generics examples/generics.tokens "'b" Drain | cmp - <(cat crates/{impl,type}_generics/stdout)
    target/cargo/release/examples/generics examples/marked.tokens "'b" Drain | cmp - <(cat examples/marked.{impl,type})
    tokens_example target/cargo/release/examples/{tokens,roles}
    for file in "${answers[@]}"; do
        target/cargo/release/examples/compare "$file" 100000
    done
fi

printf '%s\n' "${skipped[@]:-skipped: nothing}"
mkdir -p target
rt ci | tee target/ci.out
# Where an edit could not be tried, `rt ci` passes all the same.
if grep '^rt: ok' target/ci.out | grep -qE ', [1-9][0-9]* bad'; then
    echo "failed: a must-fail edit is bad"
    exit 1
fi
