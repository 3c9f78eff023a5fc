#!/bin/sh
# The example plans are what examples/make.py makes, where there is a python3, and the programs settle and why have one of them
# each as their stored input.
set -eu
cd "$(dirname "$0")/.."
cmp examples/three.plan crates/settle/stdin
cmp examples/expected/three.txt crates/settle/stdout
cmp examples/tree.plan crates/why/stdin
if command -v python3 >/dev/null 2>&1; then
    work=$(mktemp -d)
    trap 'rm -rf "$work"' EXIT
    python3 examples/make.py "$work"
    for plan in "$work"/*.plan; do cmp "$plan" "examples/$(basename "$plan")"; done
fi
echo "examples: ok"
