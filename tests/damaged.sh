#!/bin/sh
# Damaged copies of a plan, read by the bench and beside it by the judge, tests/damaged.c: the two agree, and come to what is
# stored. Then the program settle gets a file for each number and block by which one is refused, and so does the one in plain C
# that it is measured by.
set -eu
cd "$(dirname "$0")/.."
here=$(pwd -P)
. bin/toolchain.sh
work=$(mktemp -d)
trap 'rm -rf "$work"' EXIT
driver=conformance/driver
judged "$work/damaged" tests/damaged.c $driver/compare.c $driver/plans.c $driver/random.c

mkdir "$work/refused"
run "$work/damaged" "$work/refused" <examples/full.plan >"$work/given" || { tail -n 4 "$work/given"; exit 1; }
cmp "$work/given" tests/expected/damaged.txt

for part in settle plain; do object speed/$part.c "$work/$part.o"; done
linked "$work/plain" "$work/settle.o" "$work/plain.o"
for file in "$work"/refused/*; do
    name=${file##*/}
    echo "bad ${name%-*} ${name#*-}" >"$work/wanted"
    status=0
    bin/settle "$file" >"$work/given" || status=$?
    cmp "$work/given" "$work/wanted"
    [ "$status" = 1 ]
    run "$work/plain" <"$file" | cmp - "$work/wanted"
done
echo "damaged: ok"
