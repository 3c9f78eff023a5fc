#!/bin/sh
# The commands of the README, as a new user types them, and the mistakes that one makes.
set -eu
cd "$(dirname "$0")/.."
work=$(mktemp -d)
trap 'rm -rf "$work"' EXIT

# Where a user types them: what is written there is not in the repository.
mkdir "$work/user"
for part in bin include examples crates; do ln -s "$PWD/$part" "$work/user/$part"; done
user() {
    (cd "$work/user" && sh -c "$1")
}

# The README's example of a command gives the lines that the README shows below it.
example() {
    command=$(sed -n "s/^    \(.*bin\/$1.*\)\$/\1/p" README.md | head -n 1)
    [ -n "$command" ]
    user "$command" >"$work/given" 2>/dev/null
    command="    $command" awk '
        $0 == ENVIRON["command"] { below = 1 }
        below && shown && $0 == "" { exit }
        below && prints && sub(/^    /, "") { print; shown = 1 }
        below && $0 == "prints" { prints = 1 }
    ' README.md >"$work/shown"
    [ -s "$work/shown" ]
    cmp "$work/given" "$work/shown"
}
example settle
example decode
example why
example 'example incident'
example 'example cycle'
example 'example event'
example 'example babble'
example 'example babble .*guarded'
example 'why .*guarded'
example 'example sweep'
example 'settle .*loads'

# The state that the second example of why is about is made by the line before it.
line=$(sed -n 's/^    \(bin\/example snapshot .*\)$/\1/p' README.md)
user "$line"
example 'why .* state '

# The lines of C that the README shows are those of that example.
lines='^    \(must\|return\)'
grep "$lines" README.md >"$work/shown"
[ "$(wc -l <"$work/shown")" -eq 3 ]
grep "$lines" examples/snapshot.c | cmp - "$work/shown"

# So does the program that the README's line for a C compiler makes, where there is one for x86-64.
if [ "$(uname -m)" = x86_64 ] && command -v cc >/dev/null 2>&1; then
    line=$(sed -n 's/^    \(cc .*\)$/\1/p' README.md)
    # The line before it makes the archive where it is not there.
    [ -e crates/door/out/libdoor.a ] || (cd crates/door && rt lib >/dev/null 2>&1)
    user "$line && ./incident <examples/incident.plan" | cmp - tests/expected/incident.txt
fi

# The command ends with a status, and has so many lines on standard output and on standard error.
ends() {
    status=0
    out=$2 said=$3 wanted=$1
    shift 3
    "$@" >"$work/out" 2>"$work/said" || status=$?
    [ "$status $(wc -l <"$work/out") $(wc -l <"$work/said")" = "$wanted $out $said" ] || {
        echo "$*: status $status for $wanted, and it printed and said:"
        cat "$work/out" "$work/said"
        exit 1
    }
}

# A file may be named, or stand on standard input; a second start says nothing.
three=examples/three.plan
for given in "$three" ''; do
    ends 0 2 0 bin/settle $given <$three
    cmp "$work/out" examples/expected/three.txt
    ends 0 2048 0 bin/decode $given <$three
    ends 0 4 0 bin/example incident ${given:+examples/incident.plan} <examples/incident.plan
    cmp "$work/out" tests/expected/incident.txt
done
ends 0 3 0 bin/why 0 5 2 <$three
ends 0 5 0 bin/why 0 5 6 "$work/user/state" <examples/causes.plan

# By a link, and by a link to that, from elsewhere.
ln -s "$PWD/bin/settle" "$work/link"
ln -s link "$work/other"
for link in "$work/link" "$work/other"; do (cd / && ends 0 2 0 "$link" "$OLDPWD/$three"); done

# A refused file gives 1, and the line that says so; so does what cannot be read or written, with a line that says that.
head -c 600 $three >"$work/short"
ends 1 1 0 bin/settle "$work/short"
grep -qx 'bad 20 0' "$work/out"
ends 1 1 0 bin/settle </dev/null
ends 1 1 0 bin/why 0 5 2 <"$work/short"
grep -qx 'bad 20 0' "$work/out"
ends 1 1 0 bin/why 0 5 3 <$three
grep -qx r4 "$work/out"
ends 0 0 0 bin/decode </dev/null
ends 1 1 0 bin/example incident "$work/short"
for program in settle decode 'why 0 5 2'; do
    ends 1 0 1 bin/$program <&-
    grep -q 'input could not be read' "$work/said"
    ends 1 0 1 bin/$program </
    grep -q 'input could not be read' "$work/said"
    ends 1 0 1 sh -c "bin/$program <$three >/dev/full"
    grep -q 'output could not be written' "$work/said"
    ends 1 0 1 sh -c "bin/$program <$three >&-"
    grep -q 'output could not be written' "$work/said"
done

# The rest is tried where a kit is out of reach, so that whatever builds fails. The folder has the shell's tools and no rt.
mkdir "$work/tools"
for tool in sh dirname uname readlink; do ln -s "$(command -v $tool)" "$work/tools/$tool"; done
no_kit() {
    PATH=$work/tools "$@"
}
for program in settle decode 'why 0 5 2' 'example incident'; do
    # shellcheck disable=SC2086
    ends 2 0 1 no_kit bin/$program <$three
    grep -q 'kit is missing' "$work/said"
done

# A mistake gets one line on how to call it, before anything is built.
helps() {
    ends 2 0 1 no_kit "$@" <$three
    grep -q 'usage: ' "$work/said"
}
for program in settle decode 'example incident'; do
    helps bin/$program one two
    helps bin/$program no-such-file
    helps bin/$program examples
    helps bin/$program --flag
    ends 0 1 0 no_kit bin/${program% *} --help
    grep -q '^usage: ' "$work/out"
done
ends 0 1 0 no_kit bin/why --help
grep -q '^usage: ' "$work/out"
for given in '' 0 '0 5' '0 5 2 one two' '0 5 2 no-such-file' '0 5 2 examples' --flag \
    'x 5 2' '0 5x 2' '0 5 -2' '0 5 +2' '0 5 0x2'; do
    # shellcheck disable=SC2086
    helps bin/why $given
done
helps bin/why 0 '' 2
helps bin/why 0 5 '2 '
helps bin/why 0 5 2 ''
helps bin/example
helps bin/example no-such-example
helps bin/example ../speed/plain
helps speed/run all
helps speed/run --flag
helps speed/run --brief more
ends 0 1 0 no_kit speed/run --help

# A terminal for standard input, and one that is not ready.
if command -v python3 >/dev/null 2>&1; then
    cat >"$work/input.py" <<'END'
import os, pty, subprocess, sys
if sys.argv[1] == "terminal":
    given = pty.openpty()[1]
else:
    given, keep = os.pipe()
    os.set_blocking(given, False)
sys.exit(subprocess.run(sys.argv[2:], stdin=given).returncode)
END
    for program in settle decode 'why 0 5 2' 'example incident'; do
        # shellcheck disable=SC2086
        ends 2 0 1 python3 "$work/input.py" terminal bin/$program
        grep -q 'usage: ' "$work/said"
    done
    for program in settle decode 'why 0 5 2'; do
        ends 1 0 1 python3 "$work/input.py" waiting bin/$program
        grep -q 'input could not be read' "$work/said"
    done
fi
echo "commands: ok"
