#!/bin/sh
# The header against the crates' sources: what include/bench.h declares of the archive is what crates/door exports, each function
# that people call takes what the one behind it takes, and a size or a place is the number that the crates have for it. Both are
# read here; nothing else compares them, as C's linker knows names alone.
set -eu
cd "$(dirname "$0")/.."
work=$(mktemp -d)
trap 'rm -rf "$work"' EXIT

# A file on one line, with its comments gone and no space too many.
line() {
    sed 's,//.*,,' "$1" | tr '\n' ' ' | sed 's,/\*[^*]*\*\(\**[^/*][^*]*\*\)*\**/, ,g; s/  */ /g; s/( /(/g; s/,* )/)/g'
}

# The exported functions, as C has to declare them: a lent area is a pointer and a length.
line crates/door/src/lib.rt | grep -o 'pub extern "C" fn [a-z_0-9]*([^)]*) -> [a-z0-9]*' | sed '
    s/^pub extern "C" fn \(.*\) -> \(.*\)$/\2 \1/
    s/\([a-z_]*\): &mut \[\([a-z0-9]*\)\]/\2 *\1, usize \1_length/g
    s/\([a-z_]*\): &\[\([a-z0-9]*\)\]/const \2 *\1, usize \1_length/g
    s/\([a-z_]*\): &mut \([a-z0-9]*\)/\2 *\1/g
    s/\([a-z_]*\): \([a-z0-9]*\)/\2 \1/g
    s/usize/bench_size/g
    s/u32 /bench_u32 /g
    s/u8 /bench_u8 /g' >"$work/exported"
[ -s "$work/exported" ]
[ "$(wc -l <"$work/exported")" -eq "$(grep -c no_mangle crates/door/src/lib.rt)" ]

line include/bench.h >"$work/header"
grep -o 'bench_u32 bench_for_header_[a-z_0-9]*([^)]*);' "$work/header" | tr -d ';' | diff "$work/exported" -
# A number behind a name of the archive: the function had other parameters once, and what was compiled for those must not link. The
# name that people call has no number. Two have no function of the archive, so that what was written before there was one still
# compiles: bench_reach is bench_reach_ports for those who do not ask for the last value, and bench_react is bench_react_guarded
# where nothing is barred. Each has to stand behind that one, and to take the same but for the last parameter, or for the two sets.
sed 's/_[0-9](/(/
    /_react_guarded(/ {
        p
        s/_guarded(\(.*\), bench_u32 interrupts, bench_u32 acknowledges, /(\1, /
    }
    /_reach_ports(/ {
        p
        s/_ports(\(.*\), [^,]*)$/(\1)/
    }' "$work/exported" >"$work/called"
grep -o 'static inline bench_u32 bench_[a-z_]*([^)]*) {' "$work/header" |
    sed 's/^static inline //; s/ {$//; s/ bench_/ bench_for_header_/' | diff "$work/called" -

# The number that a crate has for a name, and the one that the header has: same CRATE NAME NAME_IN_C.
same() {
    ours=$(sed -n "s/^pub const $2: [a-z0-9]* = \([0-9]*\);/\1/p" "crates/$1/src/lib.rt")
    theirs=$(grep -o "BENCH_$3 = [0-9]*" "$work/header")
    [ "BENCH_$3 = $ours" = "$theirs" ] || { echo "$1 has $ours for $2, and the header $theirs"; exit 1; }
}
for name in DEVICE PORTS PORT NEXT RUNNING COUNTERS TIMES DROPS; do same state $name $name; done
for name in SENT TOLD NOTHING ROUNDS; do same bench $name $name; done
same state WORDS STATE
same report LONGEST TEXT
for name in CROSSINGS CHAIN CUT UNREACHED NOBODY; do same ways $name $name; done
same reasons LONGEST WHY
same mend LONGEST RESCUE
echo "header: ok"
