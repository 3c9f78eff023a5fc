#!/bin/sh
# The program why: chains and cuts in the example plans, from the start state and from one in a file, what it refuses, and input
# that comes in pieces. What it has to print is stored. Then every question about every example plan from C: tests/why.c. The
# states are made by examples/snapshot.c, and are those that it makes with the judge in the place of the bench.
set -eu
cd "$(dirname "$0")/.."
here=$(pwd -P)
. bin/toolchain.sh
. tests/put
work=$(mktemp -d)
trap 'rm -rf "$work"' EXIT
example=snapshot
. tests/example
# The first start of a command says that it builds, and here nothing may be said.
build check why
plan=examples/causes.plan

# The state of a plan in which the link at port 0 of its last device is stopped. One plan has no link there. The program is stored
# with one of these.
by_judge examples/snapshot.c "$work/judged"
for of in examples/*.plan; do
    state=$work/$(basename "$of" .plan).state
    case $of in */idle.plan) continue ;; esac
    bin/example snapshot <"$of" >"$state"
    run "$work/judged" <"$of" | cmp - "$state"
    [ "$(wc -c <"$state")" -eq 11520 ]
done
cmp "$work/tree.state" crates/why/data/state
refuses "link is refused by 7" <examples/idle.plan
head -c 1024 $plan | refuses "the plan is refused by 25 in block 0"
for output in '>/dev/full' '>&-'; do
    if eval "bin/example snapshot <$plan $output" 2>/dev/null; then
        echo "a state that was not written was not missed"
        exit 1
    fi
done

# Asks the command; what it prints goes to $work/given. It says nothing, and its status is the one for such a text.
asks() {
    status=0
    bin/why "$@" >"$work/given" 2>"$work/said" || status=$?
    case $(head -n 1 "$work/given") in
    reached\ * | cut\ *) wanted=0 ;;
    bad\ * | r[0-9]) wanted=1 ;;
    *) wanted='a text' ;;
    esac
    [ "$status" = "$wanted" ] && [ ! -s "$work/said" ] || {
        echo "why $*: status $status for $wanted, and it printed and said:" >&2
        cat "$work/given" "$work/said" >&2
        exit 1
    }
}

# For its input and these arguments it prints this line, or the text in a file.
says() {
    echo "$1" >"$work/line"
    shift
    asks "$@"
    cmp "$work/given" "$work/line"
}
prints() {
    text=$1
    shift
    asks "$@"
    cmp "$work/given" "$text"
}

# What is stored: behind each line with a plan, the plan whose state is taken, or none, and the three numbers, the text.
grep '^-- ' tests/expected/why.txt | while read -r dashes of from source k device; do
    echo "$dashes $of $from $source $k $device"
    case $from in none) set -- ;; *) set -- "$work/$from.state" ;; esac
    asks "$source" "$k" "$device" "$@" <"examples/$of.plan"
    cat "$work/given"
done >"$work/all"
cmp "$work/all" tests/expected/why.txt

# The stored text for a plan and what was asked about it: stored PLAN STATE SOURCE K DEVICE.
stored() {
    asked="-- $*" awk '/^-- / { at = $0 == ENVIRON["asked"]; next } at' tests/expected/why.txt
}
stored causes none 0 5 6 >"$work/chain"
stored causes causes 0 5 6 >"$work/cut"
state=$work/causes.state
for cause in stopped may-not-send may-not-receive does-not-forward; do grep -q " $cause\$" "$work/cut"; done
stored guarded none 5 9 3 | grep -q ' barred$'

# Several causes at once: the first counts. A line is a port of the plan, given by block and place of its permissions, or of what it
# bars, what is there then, and what the text has for the port in question. Between two lines with a - the changes add up. A bar of
# other identifiers, or of acknowledges, is no cause.
while read -r block at byte line; do
    case $block in -)
        cp $plan "$work/file"
        continue
        ;;
    esac
    put "$block" "$at" "$byte"
    sed "s/^${line% *} .*/$line/" "$work/cut" >"$work/wanted"
    prints "$work/wanted" 0 5 6 "$state" <"$work/file"
done <<'LINES'
-
4 18 12 3 1 may-not-send
8 22 12 3 1 may-not-send
-
8 22 12 3 1 may-not-receive
-
3 18 12 2 1 stopped
8 14 12 2 1 stopped
-
6 14 12 0 1 may-not-send
-
4 18 3 3 1 does-not-forward
8 22 3 3 1 does-not-forward
-
6 44 32 0 1 may-not-send
-
6 52 32 1 2 may-not-receive
6 18 15 1 2 barred
-
8 44 32 2 1 stopped
-
8 60 223 3 1 does-not-forward
8 64 32 3 1 does-not-forward
8 60 32 3 1 barred
8 22 12 3 1 may-not-receive
4 18 12 3 1 may-not-send
LINES

# A state of the wrong length, that of states without drops among them, or that is not sound; and the order of the bytes in a word: a
# counter may be 63 and not more, and what port 0 of device 1, a router, has dropped 65,535. A node drops nothing.
for n in 0 1 4 9472 11516 11519; do
    head -c $n "$state" >"$work/short"
    says r2 0 5 6 "$work/short" <$plan
done
for n in 11521 11524 23040 100000; do
    cat "$state" /dev/zero | head -c $n >"$work/long"
    says r2 0 5 6 "$work/long" <$plan
done
says r2 0 5 6 /dev/zero <$plan
says r2 0 5 6 "$work/full.state" <$plan
cp "$state" "$work/file"
spoil 8320 63
for at in 9536 9537 9540 9541; do spoil $at 255; done
prints "$work/cut" 0 5 6 "$work/file" <$plan
for at in 8321 8322 8323 9471 9472 9476 9538 9539 9542 9543 9560 11519; do
    cp "$state" "$work/file"
    spoil $at 1
    says r2 0 5 6 "$work/file" <$plan
done

# A timer up to its load, and not above it: the common ones are 2,000 and 2,400, and 5 may have its own, at byte 36 of block 0. Each line
# has the first byte of a device's words and its timer of 5, for the node 0 and the router 1, the loads of 5, two zeros for none, and what
# is printed.
while read -r words timer router node answer; do
    cp $plan "$work/file"
    pair 36 "$router" "$node"
    mv "$work/file" "$work/loaded"
    cp "$state" "$work/file"
    spoil "$words" 32
    spoil $((words + 24)) $((timer % 256))
    spoil $((words + 25)) $((timer / 256))
    case $answer in
    cut) prints "$work/cut" 0 5 6 "$work/file" <"$work/loaded" ;;
    *) says "$answer" 0 5 6 "$work/file" <"$work/loaded" ;;
    esac
done <<'LINES'
0 1 0 0 cut
0 2400 0 0 cut
0 2401 0 0 r2
132 2000 0 0 cut
132 2001 0 0 r2
0 300 200 300 cut
0 301 200 300 r2
132 200 200 300 cut
132 201 200 300 r2
0 65535 200 65535 cut
132 65535 65535 65535 cut
0 0 0 0 r2
LINES

# No such source or device, no such identifier, and no source of it. What is too large for a word, or for two, does not come round.
many=$(printf %05000d 0)
for n in 8 31 32 255 256 4294967295 4294967296 4294967302 18446744073709551616 "1$many"; do
    says r4 "$n" 5 6 <$plan
    says r4 0 5 "$n" <$plan
    says r4 0 5 "$n" "$state" <$plan
done
for k in 32 37 255 4294967295 4294967296 4294967301 18446744073709551621 "1$many"; do says r5 0 "$k" 6 <$plan; done
for of in 1 3 4 6 7; do says r6 $of 5 6 <$plan; done
says r6 0 4 6 <$plan
says r6 0 31 0 <$plan

# The first refusal counts, in the order 20 to 27, 2, 4, 5, 6.
says r5 1 32 6 <$plan
says r4 1 32 8 <$plan
says r4 8 32 6 <$plan
says r2 8 32 8 /dev/null <$plan
head -c 600 $plan | says 'bad 20 0' 8 32 8 /dev/null
head -c 512 $plan | says 'bad 25 0' 0 5 6
says 'bad 20 0' 0 5 6 </dev/null
cat examples/full.plan examples/idle.plan | says 'bad 20 0' 8 0 9
cp $plan "$work/file"
spoil 2000 1
says 'bad 21 3' 0 5 6 "$state" <"$work/file"
cp $plan "$work/file"
put 3 17 3
says 'bad 26 3' 0 5 6 <"$work/file"

# Leading zeros, few and many, up to as many as an argument can have on Linux: 131,071 bytes.
prints "$work/cut" 00 05 006 "$state" <$plan
prints "$work/chain" "$many" "${many}5" "${many}6" <$plan
longest=$(printf %0131070d 0)
prints "$work/chain" 0 5 "${longest}6" <$plan
says r4 "9$longest" 5 6 <$plan

# A read that gives less is not the end, of the plan and of the state.
dd if=$plan bs=1 2>/dev/null | prints "$work/cut" 0 5 6 "$state"
mkfifo "$work/a state"
timeout 20 dd if="$state" of="$work/a state" bs=1 2>/dev/null &
prints "$work/cut" 0 5 6 "$work/a state" <$plan
cat >"$work/pieces" <<'LINES'
for n in "$@"; do
    dd bs=1 count="$n" 2>/dev/null
    sleep 0.1
done
cat
LINES
timeout 20 sh -c 'sh "$1" 1 4095 6 <"$2" >"$3"' - "$work/pieces" "$state" "$work/a state" &
sh "$work/pieces" 1 511 700 <$plan | prints "$work/cut" 0 5 6 "$work/a state"
wait

# Called wrongly, the program itself says one line on how to call it, and prints nothing; so it does for a state that it cannot
# read, where the command ends with 2.
misused() {
    run target/bin/why "$@" <$plan >"$work/given" 2>"$work/said" || true
    [ ! -s "$work/given" ] && [ "$(wc -l <"$work/said")" -eq 1 ] && grep -q 'SOURCE K DEVICE' "$work/said" || {
        echo "the program why, called wrongly with $*, printed and said:"
        cat "$work/given" "$work/said"
        exit 1
    }
}
misused
misused 0
misused 0 5
misused 0 5 6 "$state" more
for word in '' ' ' x 5x x5 ' 5' '5 ' -5 +5 0x5 5. 5,0 ٥ "$many."; do
    misused "$word" 5 6
    misused 0 "$word" 6
    misused 0 5 "$word" "$state"
done
for file in '' "$work/none" "$work" "$plan/none" "$work/$many" /proc/self/mem; do misused 0 5 6 "$file"; done
status=0
bin/why 0 5 6 /proc/self/mem <$plan >"$work/given" 2>"$work/said" || status=$?
[ "$status $(wc -c <"$work/given") $(wc -l <"$work/said")" = "2 0 1" ]

# Every question about every plan, from C.
build staticlib door
compile tests/why.c "$work/every" target/staticlib/libdoor.a
for of in examples/*.plan; do
    state=$work/$(basename "$of" .plan).state
    [ -e "$state" ] || state=
    run "$work/every" ${state:+"$state"} <"$of"
done
echo "why: ok"
