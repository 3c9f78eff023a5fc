# What the commands share: how they are called, what they read, and how they end. They source it with the repository's root
# in $here, their name in $name and one line on how to call them in $usage.
#
# A command ends with 0; with 1 where its input is refused or could not be read, or its output could not be written; and with
# 2 where it was called wrongly or could not be built.

# Called wrongly: what is wrong, if there is more to say, and how to call it, on one line.
wrong() {
    echo "${1:+$name: $1; }$usage" >&2
    exit 2
}

failed() {
    echo "$name: $1" >&2
    exit 1
}

# --help, and flags, of which there are no others: asks "$@".
asks() {
    case ${1:-} in
    --help | -h)
        echo "$usage"
        exit 0
        ;;
    -?*) wrong "there is no $1" ;;
    esac
}

# The file that is named has to be one: is_file NAME.
is_file() {
    [ -e "$1" ] || wrong "there is no file $1"
    [ -r "$1" ] && [ ! -d "$1" ] || wrong "$1 is no file that can be read"
}

# Makes the file that is named standard input: input "$@". Where none is named it is standard input itself, and a person who
# sits before it would wait for ever.
input() {
    [ $# -le 1 ] || wrong "there is one file at most"
    if [ $# -eq 1 ]; then
        is_file "$1"
        exec <"$1"
    fi
    (: 3<&0) 2>/dev/null || failed "standard input could not be read"
    [ ! -t 0 ] || wrong "standard input is a terminal"
    (: 3>&1) 2>/dev/null || failed "standard output could not be written"
}
