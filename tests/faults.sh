#!/bin/sh
# Faults of input and output: settle, decode and why end, are ended by no signal of their own, and print nothing wrong.
# tests/commands.sh has what the commands then say, and their status.
set -eu
cd "$(dirname "$0")/.."
here=$(pwd -P)
. bin/toolchain.sh
work=$(mktemp -d)
trap 'rm -rf "$work"' EXIT
plan=examples/three.plan

# Ends in time, and not by a signal; its output is in $work/out.
ends() {
    status=0
    timeout 20 "$@" >"$work/out" 2>"$work/said" || status=$?
    [ "$status" -lt 124 ] || { echo "$* ended with $status"; exit 1; }
}
printed() {
    printf "$1" | cmp - "$work/out"
}
why='why 0 5 2'
bin/settle $plan >/dev/null
bin/decode $plan >/dev/null
bin/$why <$plan >/dev/null

# No input, and none that could be read.
for program in settle "$why"; do
    ends bin/$program </dev/null
    printed 'bad 20 0\n'
    ends bin/$program <&-
    printed ''
    ends bin/$program </
    printed ''
done
ends bin/decode </dev/null
printed ''
ends bin/decode <&-
printed ''
ends bin/decode </
printed ''

# Input that ends early.
for program in settle "$why"; do
    head -c 700 $plan >"$work/early"
    ends bin/$program <"$work/early"
    printed 'bad 20 0\n'
    head -c 1024 $plan >"$work/early"
    ends bin/$program <"$work/early"
    printed 'bad 25 0\n'
done

# Input without an end: settle and why read no more than they need; decode goes on until nobody reads.
for program in settle "$why"; do
    ends bin/$program </dev/zero
    printed 'bad 20 0\n'
done
ends bin/$why /dev/zero <$plan
printed 'r2\n'
ends bin/$why /dev/zero </dev/zero
printed 'bad 20 0\n'
timeout 20 bin/decode </dev/zero 2>/dev/null | head -n 3 >"$work/out"
printed '0 time 0\n0 time 0\n0 time 0\n'

# Single bytes, with a pause behind each.
slowly() {
    for byte in 005 200 277 300; do
        printf "\\$byte"
        sleep 0.1
    done
}
slowly | ends bin/decode
printed '5 time 5\n128 interrupt 0\n191 acknowledge 31\n192 reserved 3 0\n'
for program in settle "$why"; do
    slowly | ends bin/$program
    printed 'bad 20 0\n'
done

# Output that is closed, or full.
for program in settle decode "$why"; do
    status=0
    timeout 20 bin/$program <$plan >&- 2>/dev/null || status=$?
    [ "$status" -lt 124 ]
    status=0
    timeout 20 bin/$program <$plan >/dev/full 2>/dev/null || status=$?
    [ "$status" -lt 124 ]
done
ends sh -c 'bin/decode </dev/zero >/dev/full'
printed ''

# The program itself, as the commands for settle and why write in its place: the one line that it says.
for program in settle decode "$why"; do
    for output in '>/dev/full' '>&-'; do
        said=$(eval "run target/bin/$program <$plan $output" 2>&1)
        [ "$said" = "${program%% *}: standard output could not be written" ]
    done
    said=$(run target/bin/$program </ 2>&1)
    [ "$said" = "${program%% *}: standard input could not be read" ]
done
echo "faults: ok"
