# The kit and its toolchain, for the scripts that build, compile or run something. They source it, with the
# repository's root in $here.
rt=$(command -v rt) || { echo "${name:-${0##*/}}: the Rattle kit is missing: no rt on the path" >&2; exit 2; }
while [ -L "$rt" ]; do
    link=$(readlink "$rt")
    case $link in /*) rt=$link ;; *) rt=$(dirname "$rt")/$link ;; esac
done
kit=${RATTLE_HOME:-$(cd "$(dirname "$rt")/.." && pwd -P)}
tools=$kit/toolchain
lib=$tools/lib

# Runs a program.
run() {
    "$lib/ld-linux-x86-64.so.2" --library-path "$lib" "$@"
}

# Proves and builds a crate: build check NAME for a program, build staticlib NAME for an archive. It does nothing where that
# has been done since the sources last changed.
build() {
    named "$@"
    ! is_built || return 0
    mkdir -p "$here/target/built" 2>/dev/null && [ -w "$here/target/built" ] || {
        echo "$2: it has to be built first, and $here cannot be written: copy the repository to where it can, and start it there" >&2
        exit 2
    }
    alone "$@"
    is_built || prove "$@"
    exec 9>&-
}

# What a crate is built as, where rt leaves it and by which command, and when that began: named KIND NAME.
named() {
    case $1 in
    check) made=$here/target/bin/$2 left=$here/crates/$2/out/$2 verb=run ;;
    *) made=$here/target/staticlib/lib$2.a left=$here/crates/$2/out/lib$2.a verb=lib ;;
    esac
    stamp=$here/target/built/$1-$2
}

# Is it there, and newer than every source? What rt keeps is no source, and stands in the folders out.
is_built() {
    [ -e "$made" ] && [ -e "$stamp" ] &&
        [ -z "$(find "$here/crates.txt" "$here"/crates/*/* -name out -prune -o -newer "$stamp" -print -quit 2>/dev/null)" ]
}

# Takes what rt has left, under a name of its own, since rt ci and rt's other builds remove theirs meanwhile: take TIME, with the
# file that bears the time at which that began.
take() {
    mkdir -p "${made%/*}"
    cp "$left" "$made.new"
    mv "$made.new" "$made"
    mv "$1" "$stamp"
}

# One build at a time: two would write the same files. The lock goes with the process that has it. Without flock nobody waits.
alone() {
    exec 9>>"$here/target/built/lock"
    command -v flock >/dev/null 2>&1 || return 0
    flock -n 9 || {
        echo "$2: it is being built by another start; waiting for that" >&2
        flock 9
    }
}

# The crates that a crate is made of, itself among them, by crates.txt.
crates_of() {
    awk -v want="$1" '
        function visit(name,    need, i, n) {
            if (!(name in needs) || name in seen) return
            seen[name] = 1
            count++
            n = split(needs[name], need, " ")
            for (i = 1; i <= n; i++) visit(need[i])
        }
        { sub(/#.*/, "") }
        /:/ { name = $0; sub(/[ :].*/, "", name); sub(/[^:]*:/, ""); needs[name] = $0 }
        END { visit(want); print count }' "$here/crates.txt"
}

# Says of each crate that it is proved, when rt does: proved NAME COUNT. Of one that was proved before rt says nothing.
proved() {
    done=0
    while IFS= read -r line; do
        case $line in
        'rt: chose --jobs '*' for '*) crate=${line##* for } ;;
        'logic=proved '*)
            done=$((done + 1))
            echo "$1: $crate is proved, $done of $2" >&2
            ;;
        esac
    done
}

# Proves and builds it, and says what is proved as it goes. The stamp bears the time at which that began. rt builds a program only
# to run it, which this one is here without input.
prove() {
    count=$(crates_of "$2")
    echo "$2: its $count crates are proved first, once; that can take minutes" >&2
    touch "$stamp.new"
    {
        if (cd "$here/crates/$2" && rt $verb </dev/null 2>&1); then echo 0 >"$stamp.ended"; else echo 1 >"$stamp.ended"; fi
    } | tee "$stamp.log" | proved "$2" "$count"
    if [ "$(cat "$stamp.ended")" != 0 ] || [ ! -e "$left" ]; then
        cat "$stamp.log" >&2
        echo "$2: it is not proved, so it is not run" >&2
        exit 2
    fi
    take "$stamp.new"
}

# Compiles a source: object SOURCE OBJECT. The kit has no headers of C's library.
object() {
    "$tools/bin/clang" --target=x86_64-linux-gnu -O3 -fPIE -Wall -Wextra -Werror -I"$here/include" -c "$1" -o "$2"
}

# Links a program: linked PROGRAM, and then the objects and archives that it needs.
linked() {
    program=$1
    shift
    "$tools/bin/ld.lld" -pie -dynamic-linker /lib64/ld-linux-x86-64.so.2 -o "$program" \
        "$lib/Scrt1.o" "$lib/crti.o" "$lib/crtbeginS.o" "$@" \
        "$lib/libc.so.6" "$lib/libc_nonshared.a" "$lib/libgcc.a" "$lib/crtendS.o" "$lib/crtn.o" "$lib/ld-linux-x86-64.so.2"
}

# Compiles and links a program of one source: compile SOURCE PROGRAM, and then the archives that it needs.
compile() {
    object "$1" "$2.o"
    program=$2
    shift 2
    linked "$program" "$program.o" "$@"
}

# Compiles and links a program that plays the judge beside the bench: judged PROGRAM, and then its sources.
judged() {
    build staticlib door
    parts=$1.parts
    program=$1
    shift
    mkdir "$parts"
    for source in "$here"/conformance/judge/*.c "$@"; do
        folder=${source%/*}
        object "$source" "$parts/${folder##*/}-${source##*/}.o"
    done
    linked "$program" "$parts"/*.o "$here/target/staticlib/libdoor.a"
}

# Compiles and links a program of one source with the judge in the place of the bench: by_judge SOURCE PROGRAM. The judge has the
# calls of the header under names of its own, and with the same parameters, which the compiler tests here. So it can be linked
# where the archive was.
by_judge() {
    parts=$2.parts
    mkdir "$parts"
    program=$2
    printf '#include "%s"\n' "$here/conformance/judge/judge.h" bench.h >"$parts/alike.c"
    object "$1" "$parts/program.o"
    set --
    for call in $(sed -n 's/^bench_u32 bench_for_header_\([a-z_0-9]*\)(.*/\1/p' "$here/include/bench.h"); do
        echo "__typeof__(judge_${call%_[0-9]}) bench_for_header_$call;" >>"$parts/alike.c"
        set -- "$@" "--defsym=bench_for_header_$call=judge_${call%_[0-9]}"
    done
    for source in "$parts/alike.c" "$here"/conformance/judge/*.c; do object "$source" "$parts/judge-${source##*/}.o"; done
    linked "$program" "$@" "$parts"/*.o
}
