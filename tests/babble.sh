#!/bin/sh
# A unit that babbles, from C, in a network whose edge is not guarded and in the same one guarded. What the example has to print is
# stored, and is what it prints with the judge in the place of the bench. A call that is refused ends it, with a status that is
# not 0.
set -eu
cd "$(dirname "$0")/.."
here=$(pwd -P)
. bin/toolchain.sh
. tests/put
work=$(mktemp -d)
trap 'rm -rf "$work"' EXIT
example=babble
. tests/example

plays babble guarded
refuses "link is refused by 4" <examples/three.plan
refuses "request is refused by 6" <examples/ring.plan
head -c 1024 examples/guarded.plan | refuses "the plan is refused by 25 in block 0"
cat examples/full.plan examples/idle.plan | refuses "the plan is refused by 20 in block 0"

# The two plans are one network: with the bars of both routers gone the guarded one is the other.
cp examples/guarded.plan "$work/file"
for place in $(seq 44 107); do
    put 1 "$place" 0
    put 2 "$place" 0
done
cmp "$work/file" examples/babble.plan

# The guarded plan with a line of the text that becomes another: the spare's port lets event 9 in, which then is everywhere; it lets
# acknowledges of 5 in; and it may receive no interrupts at all, so that nothing is dropped there. The place is a byte of block 1.
turns() {
    cp examples/guarded.plan "$work/file"
    put 1 "$1" "$2"
    bin/example babble <"$work/file" >"$work/given"
    sed -n "$3p" "$work/given" >"$work/line"
    echo "$4" | cmp - "$work/line"
}
bin/example babble <examples/babble.plan >"$work/open"
turns 61 253 3 "$(sed -n 3p "$work/open")"
turns 61 253 4 "nothing was dropped"
turns 64 223 1 "$(sed -n 1p "$work/open")"
turns 64 223 2 "nothing was dropped"
turns 22 13 4 "nothing was dropped"
echo "babble: ok"
