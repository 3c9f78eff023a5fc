#!/bin/sh
# The stack that each call from C and each program needs, beside what include/bench.h says of it. Fails where one needs more.
set -eu
cd "$(dirname "$0")/.."
here=$(pwd -P)
. bin/toolchain.sh
work=$(mktemp -d)
trap 'rm -rf "$work"' EXIT

build staticlib door
compile tests/stack.c "$work/stack" target/staticlib/libdoor.a
run "$work/stack" examples/three.plan examples/full.plan examples/chain.plan examples/refused.plan \
    examples/timed.plan examples/events.plan examples/causes.plan examples/guarded.plan examples/loads.plan >"$work/calls" ||
    { cat "$work/calls"; echo "a call needs more stack than the header says, or was never done"; exit 1; }
cat "$work/calls"

# A program is painted by what is loaded before it.
"$tools/bin/clang" --target=x86_64-linux-gnu -O1 -fPIC -Wall -Wextra -Werror -Wno-dangling-assignment -c tests/painted.c -o "$work/painted.o"
"$tools/bin/ld.lld" -shared -o "$work/painted.so" "$work/painted.o" "$lib/libc.so.6"
painted() {
    program=$1
    shift
    run --preload "$work/painted.so" "target/bin/$program" "$@" 2>&1 >/dev/null
}

# The most that a program used for some inputs, beside what the header says.
within() {
    says=$(sed -n "s,^bin/$1 - ,,p" "$work/calls")
    needs=$(sort -n "$work/$1" | tail -n 1)
    echo "bin/$1 $needs $says"
    [ "$needs" -le "$says" ]
}
for program in settle decode; do
    build check $program
    for input in examples/full.plan examples/chain.plan examples/three.plan tests/stack.sh /dev/null; do
        painted $program <$input
    done >"$work/$program"
    within $program
done

# The last program is asked something too, from the start and from a state; then of what is no plan or no state, and wrongly, where
# the size is behind a line on how to call it.
build check why
bin/example snapshot <examples/chain.plan >"$work/state"
{
    for input in examples/chain.plan tests/stack.sh /dev/null; do
        painted why 0 5 31 <$input
        painted why 0 5 31 "$work/state" <$input
    done
    painted why 8 0 31 <examples/full.plan
    painted why 0 5 31 tests/stack.sh <examples/chain.plan
    painted why 0 5 "$(printf %05000d 31)" "$work/state" <examples/chain.plan
    painted why | tail -n 1
    painted why 0 5 31 "$work/none" <examples/chain.plan | tail -n 1
} >"$work/why"
within why
echo "stack: ok"
