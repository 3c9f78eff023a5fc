#!/bin/sh
# Scripts played by the bench and beside it by the judge, tests/scripts.c: the two agree in all that a call touches, and come to
# what is stored. So they do on the text of every example plan.
set -eu
cd "$(dirname "$0")/.."
here=$(pwd -P)
. bin/toolchain.sh
work=$(mktemp -d)
trap 'rm -rf "$work"' EXIT
driver=conformance/driver
judged "$work/scripts" tests/scripts.c $driver/compare.c $driver/plans.c $driver/random.c

# Plays standard input, and holds what is printed to a stored file.
plays() {
    (cd examples && run "$work/scripts") >"$work/given" || { tail -n 4 "$work/given"; exit 1; }
    cmp "$work/given" "$1"
}
plays tests/expected/scripts.txt <tests/scripts.txt
for plan in examples/*.plan; do
    name=$(basename "$plan" .plan)
    printf 'plan %s\nreport\n' "$name.plan" | plays "examples/expected/$name.txt"
done

# A line that is not understood is said, and fails.
fails() {
    status=0
    printf 'plan three.plan\nstart 0 0\n%s' "$1" | (cd examples && run "$work/scripts") >"$work/given" || status=$?
    [ "$status" = 1 ] && [ "$(tail -n 1 "$work/given")" = "in line 3: $1" ] || { echo "played: $1"; exit 1; }
}
for line in 'requests 0 5' 'req 0 5' 'r 0 5' 'request' 'request 0' 'request 0 5 5' 'request 0 x' 'request 0  5' ' rounds 1' \
    'rounds 1234567890' 'link 0 0' 'link 0 0 0 1' 'tick' 'tick 0 0' 'tick x' 'byte' 'byte 256' 'arrives 1 1 15 0 0' \
    'arrives 1 1 15 0 0 0 133' 'comes 1 1 15 0 0 133' 'lengths 1' 'plan' 'plan gone.plan' 'loads 9' 'loads 9 9 9' 'own' \
    'own 5 9' 'own 5 9 9 9' 'own 32 9 9' 'own x 9 9' 'timers 0' 'events' 'events 0 9' 'waits 0 0' 'waits 32 0 5' \
    'waits 0 8 5' 'waits 0 0 32' 'reach' 'reach 0' 'reach 0 5 5' 'reach 0 x' 'reach x 5' 'reaches 0 5' \
    'bars 0 0 1' 'bars 0 0 1 1 1' 'bars 32 0 1 1' 'bars 0 8 1 1' 'drops 0 0 1' 'drops 0 0 1 1 1' 'drops 32 0 1 1' \
    'drops 0 8 1 1' 'meets 1 1 15 0 0 0 0 133' 'meets 1 1 15 0 0 0 0 0 0 133' 'meets 1 1 15 0 0 0 0 0 256'; do
    fails "$line"
done
echo "scripts: ok"
