#!/bin/sh
# The incident from C. What the example has to print is stored, and is what it prints with the judge in the place of the bench.
# A call that is refused ends it, with a status that is not 0.
set -eu
cd "$(dirname "$0")/.."
here=$(pwd -P)
. bin/toolchain.sh
work=$(mktemp -d)
trap 'rm -rf "$work"' EXIT
example=incident
. tests/example

plays incident

# For its input the example ends with this line, and fails.
fails() {
    if bin/example incident >"$work/given"; then
        echo "the example took a plan that it cannot play"
        exit 1
    fi
    [ "$(tail -n 1 "$work/given")" = "$1" ]
}
fails "request is refused by 4" <examples/three.plan
head -c 1024 examples/incident.plan | fails "the plan is refused by 25 in block 0"
cat examples/full.plan examples/idle.plan | fails "the plan is refused by 20 in block 0"
echo "incident: ok"
