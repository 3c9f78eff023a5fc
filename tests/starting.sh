#!/bin/sh
# First starts: what is said meanwhile, two at once, a program that is gone, a checkout that cannot be written. In a copy of the
# commands, where an rt that proves nothing stands for the kit's and hands out the program that this repository has built.
set -eu
cd "$(dirname "$0")/.."
here=$(pwd -P)
. bin/toolchain.sh
work=$(mktemp -d)
trap 'rm -rf "$work"' EXIT
build check decode

# The copy has a crates.txt of its own: decode is made of four crates, two of which need the same one.
copy=$work/copy
mkdir -p "$copy/crates/decode" "$work/rt"
cp -R bin "$copy/bin"
printf '%s\n' '# crates' 'low:' 'left: low' 'right: low io # comment' 'decode: left right io libc' 'other: low' >"$copy/crates.txt"
cat >"$work/rt/rt" <<END
#!/bin/sh
echo "\$*" >>"$work/calls"
for crate in low left right decode; do
    echo "rt: chose --jobs 2 for \$crate"
    echo "logic=proved functions=1"
    sleep 0.2
done
[ -e out/decode ] || { mkdir out && cp "$here/target/bin/decode" out/decode; }
[ ! -e "$work/broken" ]
END
chmod +x "$work/rt/rt"
export PATH="$work/rt:$PATH" RATTLE_HOME="$kit"
printf '\005\200' >"$work/bytes"
printf '5 time 5\n128 interrupt 0\n' >"$work/text"

# Starts decode in the copy: what it prints goes to $work/NAME.out, and what it says to $work/NAME.said.
start() {
    "$copy/bin/decode" "$work/bytes" >"$work/$1.out" 2>"$work/$1.said"
}
calls() {
    [ "$(wc -l <"$work/calls")" -eq "$1" ] || { echo "rt was called $(wc -l <"$work/calls") times, for $1"; exit 1; }
}

# Two at once, both right, with one build. The one that builds says how many crates there are, and then each.
start one &
first=$!
start two
wait "$first"
for start in one two; do cmp "$work/$start.out" "$work/text"; done
calls 1
sort "$work/one.said" "$work/two.said" >"$work/said"
sort >"$work/wanted" <<'END'
decode: its 4 crates are proved first, once; that can take minutes
decode: low is proved, 1 of 4
decode: left is proved, 2 of 4
decode: right is proved, 3 of 4
decode: decode is proved, 4 of 4
decode: it is being built by another start; waiting for that
END
if command -v flock >/dev/null 2>&1; then cmp "$work/said" "$work/wanted"; fi

# What is built is not built again, and says nothing.
start again
calls 1
[ ! -s "$work/again.said" ]

# Where the program is gone, or a source is newer, it is built once more.
rm "$copy/target/bin/decode"
start gone
cmp "$work/gone.out" "$work/text"
calls 2
sleep 0.1
touch "$copy/crates.txt"
start newer
calls 3

# What is not proved is not run.
touch "$work/broken" "$copy/crates.txt"
status=0
start broken || status=$?
[ "$status" = 2 ] && [ ! -s "$work/broken.out" ]
grep -q 'not proved, so it is not run' "$work/broken.said"
rm "$work/broken"

# A checkout that cannot be written, never built: one line that says what to do. Root writes anywhere, so it is nobody who tries.
rm -rf "$copy/target"
chmod 755 "$work" "$copy"
chmod -R a-w,a+rX "$copy" "$work/rt" "$work/bytes"
nobody=
[ "$(id -u)" != 0 ] || nobody='setpriv --reuid=65534 --regid=65534 --clear-groups'
status=0
$nobody "$copy/bin/decode" "$work/bytes" >"$work/out" 2>"$work/said" || status=$?
chmod -R u+w "$copy"
[ "$status" = 2 ] && [ ! -s "$work/out" ] && [ "$(wc -l <"$work/said")" -eq 1 ]
grep -q 'cannot be written: copy' "$work/said"
echo "starting: ok"
