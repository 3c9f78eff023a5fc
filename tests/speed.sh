#!/bin/sh
# The measure, in its brief form: it says beforehand how long it takes, ours and both in C come to the same, and each row's ratios
# are those of its own times, here and in docs/SPEED.md.
set -eu
cd "$(dirname "$0")/.."
work=$(mktemp -d)
trap 'rm -rf "$work"' EXIT
speed/run --brief >"$work/tables" 2>"$work/said"
grep -q '^speed/run: this takes about [0-9]* s on x86-64' "$work/said"

# The rows of a call have ours, C, the judge and two ratios; those of the program ours, C and one. What is printed is rounded.
consistent() {
    awk -F ' *[|] *' '
        function near(ratio, ours, other, step) {
            if (ratio < (ours - step) / (other + step) - 0.006 || ratio > (ours + step) / (other - step) + 0.006) { print FILENAME ": " $0; bad = 1 }
        }
        NF == 10 && $5 ~ /^[0-9]/ { near($8, $5, $6, 0.005); near($9, $5, $7, 0.005); calls++ }
        NF == 6 && $3 ~ /^[0-9]+$/ && $5 ~ /[.]/ { near($5, $3, $4, 0.5); programs++ }
        END { exit bad || calls != 41 || programs != 3 }' "$1"
}
consistent "$work/tables"
consistent docs/SPEED.md
echo "speed: ok"
