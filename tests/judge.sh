#!/bin/sh
# The bench against the judge, which is written apart from it: conformance/README.md. Before that, the flags of the command.
set -eu
here=$(cd "$(dirname "$(readlink -f "$0")")/.." && pwd -P)
cd "$here"
. "$here/bin/toolchain.sh"
work=$(mktemp -d)
trap 'rm -rf "$work"' EXIT

# The command ends with a status and its usage, which is one line, in one output and nothing in the other: usage STATUS
# OUTPUT OTHER FLAGS. The folder has the shell's tools and no rt, so that a command that builds something says another line.
mkdir "$work/tools"
for tool in sh dirname readlink; do ln -s "$(command -v $tool)" "$work/tools/$tool"; done
usage() {
    wanted=$1 full=$2 empty=$3
    shift 3
    status=0
    PATH=$work/tools conformance/run "$@" >"$work/out" 2>"$work/err" || status=$?
    if [ "$status" = "$wanted" ] && [ ! -s "$work/$empty" ] && [ "$(wc -l <"$work/$full")" -eq 1 ] &&
        grep -q '^usage: conformance/run ' "$work/$full"; then return; fi
    echo "conformance/run $* ended with $status and said:"
    cat "$work/out" "$work/err"
    exit 1
}
refused() {
    usage 2 err out "$@"
}
usage 0 out err --help
for flag in --wrong 5 ''; do refused "$flag"; done
for flag in --seed --cases --case; do
    refused $flag
    for number in '' x -1 +1 0x10 1.5 5x 1234567890; do refused $flag "$number"; done
done
refused --cases 0
refused --cases 00
refused --long --case 1
refused --seed 1 --wrong

# With JUDGE_TENTH=1 a tenth of the networks is tried.
cases=2400
if [ "${JUDGE_TENTH-}" = 1 ]; then
    cases=240
    set -- --cases $cases
    echo "judge: only a tenth of the networks is tried here, $cases; without JUDGE_TENTH it is all of them"
fi
# What is said while the archive is built would stand among what the command says.
build staticlib door
status=0
conformance/run "$@" >"$work/out" 2>"$work/err" || status=$?
cat "$work/err" >&2
cat "$work/out"
[ "$status" = 0 ]

# It said what is to come, and how far it was, and both apart from its output.
grep -Eq "^conformance/run: networks to try: $cases; this takes about [0-9]+ (s|min)\$" "$work/err"
for tenth in 1 2 3 4 5 6 7 8 9 10; do echo "$((cases * tenth / 10)) of $cases networks"; done >"$work/wanted"
grep ' of ' "$work/err" | cmp - "$work/wanted"
[ "$(head -n 1 "$work/out")" = "seed 20120831, cases 0 to $((cases - 1))" ]
[ "$(tail -n 1 "$work/out")" = "judge: ok" ]
