# Shared by the scripts beside it, which source it: where things are, and what they need.

here=$(cd "$(dirname "${BASH_SOURCE[0]}")" && pwd)
root=$(dirname "$here")
export CARGO_TARGET_DIR="$root/target/second"
programs="$CARGO_TARGET_DIR/release"

# fail WORDS: stops, before anything was compared.
fail() {
    echo "$(basename "$0"): $*" >&2
    exit 2
}

# need COMMAND WHY: stops with a clear word where a command is missing.
need() {
    command -v "$1" >/dev/null || fail "the command $1 is missing: $2"
}

# no_words USAGE WORDS: stops where there is a word.
no_words() {
    [ $# -eq 1 ] || fail "usage: $1"
}

# count_and_seed USAGE WORDS: stops unless the words are a number from 1 on, and perhaps a second
# from 0 on. Nineteen digits always fit the 64 bits that the programs have for each.
count_and_seed() {
    local usage="usage: $1, where N is a number from 1 on and SEED one from 0 on"
    shift
    { [ $# -eq 1 ] || [ $# -eq 2 ]; } || fail "$usage"
    [[ $1 =~ ^[0-9]{1,19}$ && $1 =~ [1-9] ]] || fail "$usage"
    [[ ${2-0} =~ ^[0-9]{1,19}$ ]] || fail "$usage"
}

# build PROGRAM [FEATURE]: builds one program of this package, progress on standard error.
build() {
    need cargo "it builds the second program"
    (cd "$here" && cargo build --quiet --offline --release --bin "$1" ${2:+--features "$2"}) >&2
}

# program NAME: the program target/bin/NAME, built where it is missing or older than its sources.
program() {
    local file="$root/target/bin/$1" newer=
    [ ! -x "$file" ] ||
        newer=$(find "$root/crates.txt" "$root/crates" \( -name must-fail -o -name out \) -prune -o -type f -newer "$file" -print -quit)
    if [ ! -x "$file" ] || [ -n "$newer" ]; then
        need rt "it proves and builds $1"
        (cd "$root/crates/$1" && rt run </dev/null) >&2
        mkdir -p "${file%/*}"
        cp "$root/crates/$1/out/$1" "$file.$$"
        mv "$file.$$" "$file"
    fi
}

# archive: the C interface's archive, in TRENAILER_LIB; ours unless another is named there.
archive() {
    if [ -z "${TRENAILER_LIB:-}" ]; then
        need rt "it proves and builds the static library"
        (cd "$root/crates/trenailer_c" && rt lib) >&2
        TRENAILER_LIB="$root/target/staticlib/libtrenailer.a"
        mkdir -p "${TRENAILER_LIB%/*}"
        cp "$root/crates/trenailer_c/out/libtrenailer_c.a" "$TRENAILER_LIB"
    fi
    [ -f "$TRENAILER_LIB" ] || fail "no archive at $TRENAILER_LIB"
    TRENAILER_LIB=$(realpath "$TRENAILER_LIB")
    export TRENAILER_LIB
}
