#!/bin/sh
# What the C header refuses: areas that cannot be lent together (tests/lending.c), and the incident, in which old and next
# were one area. It compiles as C99 and as C++.
set -eu
cd "$(dirname "$0")/.."
here=$(pwd -P)
. bin/toolchain.sh
work=$(mktemp -d)
trap 'rm -rf "$work"' EXIT

echo '#include "bench.h"' >"$work/user.c"
for language in '-x c -std=c99' '-x c++ -std=c++11'; do
    # shellcheck disable=SC2086
    "$tools/bin/clang" --target=x86_64-linux-gnu -fsyntax-only $language -pedantic -Wall -Wextra -Werror -Iinclude "$work/user.c"
done

build staticlib door
compile tests/lending.c "$work/lending" target/staticlib/libdoor.a
run "$work/lending" pairs <examples/timed.plan

# Settled by the header's calls, with a round in one area tried and refused on the way, every plan gives its stored text.
for plan in examples/*.plan; do
    run "$work/lending" text <"$plan" | cmp - "examples/expected/$(basename "$plan" .plan).txt"
done
echo "lending: ok"
