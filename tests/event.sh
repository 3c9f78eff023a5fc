#!/bin/sh
# An event from C, requested by two of its sources in turn, in two networks, of which one has loads for it alone. What the example has
# to print is stored, and is what it prints with the judge in the place of the bench. Where a plan does not meet its conditions it
# says so in one line.
set -eu
cd "$(dirname "$0")/.."
here=$(pwd -P)
. bin/toolchain.sh
. tests/put
work=$(mktemp -d)
trap 'rm -rf "$work"' EXIT
example=event
. tests/example
plan=examples/events.plan

plays events loads
head -n 26 tests/expected/event.txt >"$work/events"
refuses "no event has two sources and a handler" <examples/ring.plan
head -c 1024 $plan | refuses "the plan is refused by 25 in block 0"
cat examples/full.plan examples/idle.plan | refuses "the plan is refused by 20 in block 0"

# The plan with one byte changed: a router's load of 220; another source that hears no interrupts; 9 and 10 no events, so that 9
# may not have three sources; and 10 alone an event, which has one.
changed() {
    cp $plan "$work/file"
    put "$@"
}
changed 0 3 0
refuses "timers are too short: a load is 220, and has to be above 448" <"$work/file"
changed 4 14 13
refuses "event 9 of device 2 does not reach device 3" <"$work/file"
for events in 0 4; do
    changed 0 7 $events
    refuses "the plan is refused by 27 in block 0" <"$work/file"
done

# Loads of 9's own, where the common ones are long enough: those of routers too short by a round, and then not. The text is then the
# same, as that of nodes is. In the plan whose common loads are short the event loses its own.
cp $plan "$work/file"
pair 52 448 1600
refuses "timers are too short: a load is 448, and has to be above 448" <"$work/file"
pair 52 449 1600
bin/example event <"$work/file" | cmp - "$work/events"
cp examples/loads.plan "$work/file"
pair 16 0 0
refuses "timers are too short: a load is 2, and has to be above 448" <"$work/file"
echo "event: ok"
