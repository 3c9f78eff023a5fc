#!/bin/sh
# The program settle: on every example plan, on the damaged one, on files that it has to refuse, and on input that comes in pieces.
# What it has to print for the plans is stored, and is what the judge comes to: tests/scripts.sh. More files that it has to
# refuse are in tests/damaged.sh.
set -eu
cd "$(dirname "$0")/.."
. tests/put
work=$(mktemp -d)
trap 'rm -rf "$work"' EXIT

# For its input the program prints the text in this file, and nothing else, and the command ends with this status.
ends() {
    status=0
    bin/settle >"$work/given" || status=$?
    cmp "$work/given" "$2" && [ "$status" = "$1" ]
}
prints() {
    ends 0 "$1"
}

# Its input is refused by this number with this block.
refuses() {
    echo "bad $1 $2" >"$work/bad-$1-$2"
    ends 1 "$work/bad-$1-$2"
}

# The stored text of a plan.
stored() {
    echo "examples/expected/$(basename "$1" .plan).txt"
}

for plan in examples/*.plan; do prints "$(stored "$plan")" <"$plan"; done
ends 1 examples/expected/damaged.txt <examples/damaged.card

# A read that gives less is not the end: byte by byte, and in pieces with a pause behind each.
full=examples/full.plan
dd if=$full bs=1 2>/dev/null | prints "$(stored $full)"
for n in 1 511 1 512 510 513; do
    dd bs=1 count=$n 2>/dev/null
    sleep 0.1
done <examples/three.plan | prints "$(stored three.plan)"

# Lengths: too short, between two blocks, a byte too long (also one that comes late), a block too long, and no end in sight.
for n in 0 1 511 513 16895; do head -c $n $full | refuses 20 0; done
for n in 16897 17408 100000; do cat $full /dev/zero | head -c $n | refuses 20 0; done
{ cat $full; sleep 0.1; echo; } | refuses 20 0
for n in 512 16384; do head -c $n $full | refuses 25 0; done

# A node that has a second port, with no link at it, is the same network.
cp $full "$work/file"
put 32 3 2
prints "$(stored $full)" <"$work/file"

# So it is with a node as master, as nobody ticks here.
put 0 10 32
prints "$(stored $full)" <"$work/file"

# And with events, as nobody acknowledges here: some, then all identifiers.
put 0 6 1
put 0 9 128
prints "$(stored $full)" <"$work/file"
for at in 6 7 8 9; do put 0 $at 255; done
prints "$(stored $full)" <"$work/file"

# An event may have a second source, device 9 for event 0 of device 8: a line more. What is no event may not.
put 10 4 3
awk '/^9 1 / { print "9 0 4 32" } 1' "$(stored $full)" >"$work/wanted"
prints "$work/wanted" <"$work/file"
put 0 6 254
refuses 27 0 <"$work/file"

# A router that bars acknowledges, or what nobody requests there, changes nothing: device 8 requests 0 and 24. With 0 barred that
# gets no further than its node, and with 24 barred neither does.
cp $full "$work/file"
put 1 44 254
for at in 45 46 48 49 50 51; do put 1 $at 255; done
put 1 47 254
prints "$(stored $full)" <"$work/file"
put 1 44 255
sed 's/^8 0 .*/8 0 1 1/' "$(stored $full)" >"$work/wanted"
prints "$work/wanted" <"$work/file"
put 1 47 255
sed 's/^8 0 .*/8 0 1 1/; s/^8 24 .*/8 24 1 1/' "$(stored $full)" >"$work/wanted"
prints "$work/wanted" <"$work/file"

# Loads of an identifier's own. As long as the common ones they change nothing. With 3 for routers the one at the source has lost 0
# when nothing waits any more; with 4 for nodes so has the source; with 2 and 3 the code never stops. It is the same with 31, whose pair
# is the last one, and all other identifiers go on as they did.
cp $full "$work/file"
pair 16 2000 2400
prints "$(stored $full)" <"$work/file"
while read -r router node rest; do
    pair 16 "$router" "$node"
    sed "s/^8 0 .*/8 0 $rest/" "$(stored $full)" >"$work/wanted"
    prints "$work/wanted" <"$work/file"
done <<'END'
3 5 4 31
3 4 4 30
2 3 - 26
END
pair 140 3 5
sed 's/^15 31 .*/15 31 4 31/' "$work/wanted" >"$work/both"
prints "$work/both" <"$work/file"

for block in 0 1 17 32; do
    cp $full "$work/file"
    spoil $((512 * block + 509)) 1
    refuses 21 $block <"$work/file"
done
while read -r block at byte number where; do
    cp $full "$work/file"
    put "$block" "$at" "$byte"
    refuses "$number" "$where" <"$work/file"
done <<'END'
0 0 2 22 0
0 1 0 23 0
0 1 33 23 0
0 3 255 23 0
0 10 33 23 0
0 10 1 23 1
0 10 8 23 8
0 16 1 23 0
0 19 1 23 0
0 140 1 23 0
0 143 1 23 0
0 11 1 24 0
0 15 1 24 0
0 144 1 24 0
0 509 1 24 0
0 1 31 25 0
10 4 3 27 0
32 4 1 27 0
1 0 1 22 1
1 1 1 22 1
1 2 0 23 1
1 92 1 23 1
1 107 128 23 1
1 108 1 24 1
1 13 7 26 1
17 0 1 22 17
17 9 1 23 17
17 15 1 23 17
17 509 1 24 17
17 13 0 26 3
32 1 30 22 32
32 3 0 23 32
32 3 3 23 32
32 14 16 23 32
32 43 1 23 32
32 44 1 23 32
32 107 1 23 32
32 108 1 24 32
32 13 7 26 8
END
echo "settle: ok"
