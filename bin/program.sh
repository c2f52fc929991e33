# Read by the commands of bin/: where a program of the repository is, built where it is not built or older than its
# sources; beside installed commands it is as it was installed. $root is the folder above the command's own.

# The version, of include/bournejade.h: the one place that says it.
version() {
    sed -n 's/^#define BOURNEJADE_VERSION 0x\(..\)\(..\)\(..\)$/\1 \2 \3/p' "$root/include/bournejade.h" | {
        read -r major minor patch && echo "$((16#$major)).$((16#$minor)).$((16#$patch))"
    }
}

# Whether the program is there and no source is newer than it.
built() {
    [ -x "$program" ] && [ -z "$(find "$root/crates" "$root/crates.txt" \( -type d -name out -prune \) -o \
        \( -newer "$program" -type f -print -quit \))" ]
}

build() { # COMMAND CRATE
    if ! command -v rt >/dev/null; then
        echo "$1: the program is not built, and the toolchain (the command rt) that builds it is not installed" >&2
        exit 3
    fi
    echo "$1: building; the first time this takes some minutes" >&2
    rm -f "$program"
    # `rt run` proves, compiles and links the program and then runs it, here without words and on no input: what that run
    # ends with says nothing, so the program is looked for.
    (cd "$root/crates/$2" && rt run </dev/null 2>&1 >/dev/null | grep -E '^rt: |: error: ' | grep -v '^rt: running ' >&2) || true
    if [ ! -x "$program" ]; then
        echo "$1: the program could not be built" >&2
        exit 3
    fi
}

# Sets $program to the crate's program, for a command.
find_program() { # COMMAND CRATE
    program=$root/libexec/bournejade/$2
    [ ! -x "$program" ] || return 0
    program=$root/crates/$2/out/$2
    built || build "$1" "$2"
}

# Runs a program for people: --help is its page, --version the version; the program writes its exit status on descriptor 3.
# $crate is the crate's name where it is another one; $quick is set where no input is long, and nothing is told on the way.
run_program() { # NAME WORD ..
    local name=$1 page=$root/man/$1.txt status
    shift
    [ -f "$page" ] || page=$root/libexec/bournejade/$name.txt
    case "$*" in
    -h | --help) exec cat "$page" ;;
    --version)
        echo "$name $(version)"
        exit 0
        ;;
    esac
    if ! { : 9>&1; } 2>/dev/null; then
        echo 'standard output: closed' >&2
        exit 3
    fi
    # A closed standard input would be taken by the next file that is opened.
    { : 9<&0; } 2>/dev/null || exec </dev/null
    find_program "$name" "${crate:-$name}"
    [ -n "${quick:-}" ] || [ ! -t 2 ] || set -- --progress "$@"
    { status=$("$program" "$@" 3>&1 1>&4); } 4>&1
    exit "${status:-3}"
}
