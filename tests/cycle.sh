#!/bin/sh
# The whole cycle from C, twice in each of seven networks, two with a master of time and one of these with events, and one in which
# only the identifier's own loads are long enough. What the example has to print is stored, and is what it prints with the judge in
# the place of the bench. Where a plan does not meet its conditions it says so in one line.
set -eu
cd "$(dirname "$0")/.."
here=$(pwd -P)
. bin/toolchain.sh
. tests/put
work=$(mktemp -d)
trap 'rm -rf "$work"' EXIT
example=cycle
. tests/example

plays ring incident strapped cut timed events loads
head -n 9 tests/expected/cycle.txt >"$work/ring"
refuses "timers are too short: a load is 100, and has to be above 512" <examples/three.plan
refuses "port 0 of device 0 does not have all four permissions" <examples/mute.plan
refuses "no acknowledge of device 4 gets to device 0, which interrupt 0 of device 2 reaches" <examples/parted.plan
refuses "no source has a handler that its interrupt reaches" <examples/idle.plan
head -c 1024 examples/ring.plan | refuses "the plan is refused by 25 in block 0"
cat examples/full.plan examples/idle.plan | refuses "the plan is refused by 20 in block 0"

# A port bars the identifier, as what it hears or as what it does not. One that bars what nobody requests changes nothing.
refuses "port 1 of device 0 bars acknowledges of 5" <examples/guarded.plan
cp examples/ring.plan "$work/file"
put 4 60 1
refuses "port 2 of device 3 bars interrupts of 0" <"$work/file"
put 4 60 128
bin/example cycle <"$work/file" | cmp - "$work/ring"

# Loads of 0's own in the ring, where the common ones are long enough: too short by a round, and then not. In the plan whose common
# loads are short 31 loses its own.
cp examples/ring.plan "$work/file"
pair 16 1472 65535
refuses "timers are too short: a load is 1472, and has to be above 1472" <"$work/file"
pair 16 1473 1473
bin/example cycle <"$work/file" | cmp - "$work/ring"
cp examples/loads.plan "$work/file"
pair 140 0 0
refuses "timers are too short: a load is 2, and has to be above 1280" <"$work/file"

# 5, the only identifier of this plan that is acknowledged, becomes an event too.
cp examples/events.plan "$work/file"
put 0 6 32
refuses "events apart, no source has a handler that its interrupt reaches" <"$work/file"
echo "cycle: ok"
