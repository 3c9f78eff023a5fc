#!/bin/sh
# What a sweep costs, from C. What the example has to print for every example plan is stored, is what it prints with the judge in
# the place of the bench, and is worked out here once more, from the bytes of the plans. README's table has the last lines.
set -eu
cd "$(dirname "$0")/.."
here=$(pwd -P)
. bin/toolchain.sh
. tests/put
work=$(mktemp -d)
trap 'rm -rf "$work"' EXIT
example=sweep
. tests/example

# The text for the plan on standard input. No way is followed: devices are added as long as a port leads to one more, and at the
# end the ports of those that pass interrupts on are added up.
worked_out() {
    od -An -v -tu1 | awk '
        function at(d, place) { return byte[512 * (1 + d) + place] }
        function passes_on(d) { return d == source || at(d, 2) }
        function has(d, set, k) { return int(at(d, set + int(k / 8)) / 2 ^ (k % 8)) % 2 }
        function lets_in(d, port, k) { return int(at(d, 14 + 4 * port) / 2) % 2 && !has(d, 44 + 8 * port, k) }
        function leads(d, row, k) {
            return at(d, row) != 255 && at(d, row + 2) % 2 && lets_in(at(d, row), at(d, row + 1), k)
        }
        function added(k,    d, row, count) {
            for (d = 0; d < byte[1]; d++)
                for (row = 12; row < 44; row += 4)
                    if (reached[d] && passes_on(d) && leads(d, row, k) && !reached[at(d, row)]) {
                        reached[at(d, row)] = 1
                        count++
                    }
            return count
        }
        function ask(k,    d, devices, ports, more) {
            for (d = 0; d < byte[1]; d++) reached[d] = (d == source)
            devices = 1
            while ((more = added(k)) > 0) devices += more
            for (d = 0; d < byte[1]; d++) ports += reached[d] && passes_on(d) ? at(d, 3) : 0
            printf "device %d, identifier %d: devices reached %d, ports examined %d\n", source, k, devices, ports
            asked++
            all += ports
            if (ports > most) most = ports
        }
        { for (i = 1; i <= NF; i++) byte[bytes++] = $i }
        END {
            for (source = 0; source < byte[1]; source++)
                for (k = 0; k < 32; k++) if (has(source, 4, k)) ask(k)
            printf "asked %d, ports in all %d, most for one %d\n", asked, all, most
        }'
}

plans=$(for of in examples/*.plan; do basename "$of" .plan; done)
# shellcheck disable=SC2086
plays $plans
for of in $plans; do
    worked_out <"examples/$of.plan" | tee -a "$work/worked-out" | tail -n 1 >"$work/last"
    row=$(sed "s/^asked \(.*\), ports in all \(.*\), most for one \(.*\)\$/| \`$of.plan\` | \1 | \2 | \3 |/" "$work/last")
    grep -qxF "$row" README.md || { echo "README has another row than: $row"; exit 1; }
done
cmp "$work/worked-out" "tests/expected/$example.txt"

# For the plan in $work/file the example prints what is worked out, which ends with this line.
ends() {
    worked_out <"$work/file" >"$work/wanted"
    bin/example "$example" <"$work/file" | cmp - "$work/wanted"
    [ "$(tail -n 1 "$work/wanted")" = "$1" ] || { tail -n 1 "$work/wanted"; exit 1; }
}

# Links that cut. In a ring a router may not send to the two beside it: of four sources the one at that router gets no further.
# Then these two may not receive from it either; and then it may not receive from them, so that no other source gets to it.
cp examples/ring.plan "$work/file"
put 1 18 14
put 1 22 14
ends "asked 4, ports in all 43, most for one 13"
put 2 22 13
put 4 18 13
ends "asked 4, ports in all 43, most for one 13"
put 1 18 12
put 1 22 12
ends "asked 4, ports in all 34, most for one 10"

# Ports that bar. In the ring a router bars 1 at its port to the next one; then acknowledges of 1 at its port to the one before it.
# Nothing changes: 1 comes by that. Then it bars interrupts of 1 there too, and 1 does not get to it; and then 2 and 3 at both.
cp examples/ring.plan "$work/file"
put 1 52 2
ends "asked 4, ports in all 52, most for one 13"
put 1 64 2
ends "asked 4, ports in all 52, most for one 13"
put 1 60 2
ends "asked 4, ports in all 49, most for one 13"
put 1 52 14
put 1 60 14
ends "asked 4, ports in all 43, most for one 13"

# The most that there can be for one, 250: a row of 31 routers with eight ports each, behind a source with two.
cp examples/chain.plan "$work/file"
put 1 3 2
put 32 2 1
put 32 3 8
put 32 8 0
ends "asked 1, ports in all 250, most for one 250"

head -c 1024 examples/ring.plan | refuses "the plan is refused by 25 in block 0"
cat examples/full.plan examples/idle.plan | refuses "the plan is refused by 20 in block 0"
echo "sweep: ok"
