# Sourced by ./pagerun, ./roundrun and ./showrun, which name themselves in `me`: bad usage and breakdowns, flag words and sets, bytes, refusal numbers in
# words, and how a program of this repository is proved, built and run.

# bad WORDS..: bad usage
bad() {
    printf '%s\n' "$me: $*" >&2
    echo "Try ./$me --help" >&2
    exit 2
}

# broken WORDS..: nothing could be said of the page
broken() {
    printf '%s\n' "$me: $*" >&2
    exit 3
}

# without_zeros DIGITS: puts the digits without the zeros before them into `digits`
without_zeros() {
    digits=$1
    while [ "${#digits}" -gt 1 ] && [ "${digits#0}" != "$digits" ]; do
        digits=${digits#0}
    done
}

# hex_digits WHAT TEXT: puts the digits of 0x.. into `digits`; WHAT is what the number stands for
hex_digits() {
    case $2 in
    0[xX] | 0[xX]*[!0-9a-fA-F]*) bad "$1 is a number, and this is none: '$2'" ;;
    esac
    without_zeros "${2#0?}"
}

# word_of WHAT TEXT: puts the number that TEXT says, from 0 to 65535, into `word`; WHAT is what the number stands for
word_of() {
    case $2 in
    0[xX]*)
        hex_digits "$1" "$2"
        [ "${#digits}" -le 4 ] || bad "$1 is at most 0xffff: $2"
        word=$((0x$digits))
        ;;
    '' | *[!0-9]*) bad "$1 is a number, and this is none: '$2'" ;;
    *)
        without_zeros "$2"
        { [ "${#digits}" -le 5 ] && [ "$digits" -le 65535 ]; } || bad "$1 is at most 65535: $2"
        word=$digits
        ;;
    esac
}

# flag_word TEXT: puts the number that TEXT says into `flags`
flag_word() {
    word_of 'a flag word' "$1"
    flags=$word
}

# given_set TEXT: puts the number that TEXT says into `given`, which is empty where no set is given
given=
given_set() {
    word_of 'a set' "$1"
    given=$word
}

# page_file NAME: there is such a file, and it can be read
page_file() {
    { [ -f "$1" ] && [ -r "$1" ]; } || bad "no file that can be read: '$1'"
}

# byte NUMBER..: these bytes
byte() {
    for number in "$@"; do
        # shellcheck disable=SC2059
        printf "\\$(printf %03o "$number")"
    done
}

# word_bytes NUMBER..: each as two bytes, the low one first
word_bytes() {
    for word in "$@"; do
        byte $((word % 256)) $((word / 256))
    done
}

# means NUMBER: what a refusal number says, in words. Where a set is given, 9 may be its fault too.
means() {
    case $1 in
    1) echo "page fault: the file has fewer than 18 bytes, which is too short for a header" ;;
    2) echo "page fault: the form, which is the first two bytes of the page, is not 1" ;;
    3) echo "page fault: a count is out of range; there may be 1 to 16 atoms, 0 to 32 rows, 0 to 704 literals and 0 to 8 pairs" ;;
    4) echo "page fault: an offset or the length in the header does not fit the counts, or the file is longer or shorter than the header says" ;;
    5) echo "page fault: a row has over 6 alternatives, a body list over 8 atoms, a fourth byte that is not 0, or the counts of the rows do not add up to the number of literals" ;;
    6) echo "page fault: a row or a pair names an atom that the page does not have" ;;
    7) echo "page fault: a body list does not rise; each atom has to be above the one before it" ;;
    8) echo "page fault: a pair is not in order, the pairs do not rise, or an atom stands in two of them" ;;
    9) echo "call fault: the flag word raises${given:+, or the set has,} an atom that the page does not have" ;;
    10) echo "finding: with these flags the page has no answer set, so there is nothing to pick" ;;
    11) echo "call fault: the page has more answer sets than the 32,768 that can be listed" ;;
    14) echo "display: the page has fewer than four atoms, or the pick, which ./pagerun shows, does not hold exactly one of live, second, held and none" ;;
    15) echo "display: the chosen reading is infinite or not a number" ;;
    *) echo "a number that this program does not give" ;;
    esac
}

# needs_awk WORDS: awk, which does this, can be run
needs_awk() {
    command -v awk >/dev/null || broken "awk, which $1, is not on the path"
}

# keep: makes a folder for what is needed until the end, `kept`
keep() {
    kept=$(mktemp -d) || exit 3
    trap 'rm -rf "$kept"' EXIT
    trap 'exit 130' HUP INT TERM
}

# ask PROGRAM: proves and builds the program where that is still to be done, sees that it prints its stored output, runs it on standard input, keeps
# what it prints in a file, `out`, and puts the last line into `last`. `top` is the repository's top.
ask() {
    guide=$(rt doc) || broken "rt, the prover, is not on the path"
    libs=$(dirname "$guide")/toolchain/lib
    # the program is for x86-64; for another processor a kit may have an emulator
    emulator=$(dirname "$guide")/on/$(uname -m)/toolchain/bin/qemu-x86_64
    [ -x "$emulator" ] || emulator=

    out=$kept/$1
    (CDPATH='' cd -- "$top/crates/$1" && rt run <stdin) >"$out" 2>"$kept/said" || {
        cat "$kept/said" >&2
        broken "the program is not proved, or breaks off on its stored input"
    }
    cmp -s "$out" "$top/crates/$1/stdout" || broken "$1 does not print its stored output, crates/$1/stdout"
    ${emulator:+"$emulator"} "$libs/ld-linux-x86-64.so.2" --library-path "$libs" "$top/crates/$1/out/$1" >"$out" || broken "the program broke off"
    last=$(tail -n 1 "$out")
}

# answer_of PROGRAM: asks it, and shows what it prints
answer_of() {
    ask "$1"
    cat "$out"
}

# why_refused LINE [WORDS]: says what the refusal in the program's last line means, adds the words, and ends
why_refused() {
    case $1 in
    'refused '*)
        echo "$(means "${1#refused }")${2-}"
        exit 1
        ;;
    *) broken "the program did not end as it should" ;;
    esac
}
