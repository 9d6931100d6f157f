# Sourced by run: what ./roundrun prints of answer sets and of other sets, and its exit status; refusals in words; bad usage; and the program behind it, over
# all sets of a page and on inputs that the front never gives.
me=roundrun

# counts PAGE SET [FLAGS]: the line of the definitions, and status 0
counts() {
    front "$@"
    python3 tests/known/meaning.py "$1" "${3-0}" "$2" "$2" >"$made/want"
    cmp -s "$made/out" "$made/want" && [ "$status" -eq 0 ] && [ ! -s "$made/err" ]
    verdict "the rounds of $1 to set $2 with flags ${3-0}"
}

page=examples/steps.page
front "$page" 7
[ "$(cat "$made/out")" = 'set 7 atoms 0 1 2 rounds 3' ] && [ "$status" -eq 0 ]
verdict 'the line of a chain of three'

counts "$page" 7
counts "$page" 7 2
counts "$page" 7 4
counts "$page" 5
counts "$page" 5 2
counts "$page" 6
counts "$page" 0
counts "$page" 0 7
counts examples/two.page 1
counts examples/two.page 3
counts examples/train.page 18 16
counts examples/train.page 0x12
counts examples/car.page 25
counts examples/car.page 31
counts examples/never.page 1
counts examples/two-trains.page 0xa524 0x0500
counts examples/two-trains.page 0x3024 0x1000
counts examples/two-trains.page 0x0011
counts examples/two-trains.page 0xffff
counts examples/rings.page 4161
counts examples/wishes.page 65535
counts examples/longest.page 0
counts examples/longest.page 0x00ff
counts examples/rivals.page 10240
counts examples/equals.page 4161

front "$page" 7 2
python3 tests/known/meaning.py "$page" 0 7 7 >"$made/want"
! cmp -s "$made/out" "$made/want"
verdict 'the line for other flags is seen to differ'

refuses 1 'page fault' "$made/empty" 0
refuses 1 'page fault' "$made/short" 0
refuses 2 'page fault' "$made/form" 0
refuses 3 'page fault' "$made/atoms" 0
refuses 4 'page fault' examples/tail.page 0
refuses 5 'page fault' "$made/tall" 0
refuses 6 'page fault' "$made/atom" 0
refuses 7 'page fault' "$made/falls" 0
refuses 8 'page fault' "$made/pair" 65535 65535
refuses 9 'call fault' "$page" 8
grep -q 'the set' "$made/out"
verdict 'a set with an atom that the page does not have: the words fit'
refuses 9 'call fault' "$page" 7 8
grep -q 'the flag word' "$made/out"
verdict 'a flag word with such an atom: the words fit'

unusable
unusable "$page"
unusable "$page" 7 0 0
unusable "$page" ''
unusable "$page" -1
unusable "$page" 7x
unusable "$page" 0x
unusable "$page" 65536
unusable "$page" 0x10000
unusable "$page" 7 x
unusable "$page" 7 65536
unusable examples/no-such.page 7
unusable examples 7

front --help
[ "$status" -eq 0 ] && grep -q '^usage: ' "$made/out"
verdict 'help of roundrun'

cp "$page" "$made/-a page"
(CDPATH='' cd -- "$made" && "$top/$me" '-a page' 0X07 002) >"$made/out" 2>"$made/err"
status=$?
[ "$status" -eq 0 ] && [ "$(cat "$made/out")" = 'set 7 atoms 0 1 2 rounds 2' ]
verdict 'from another folder, with a name that starts with a dash and zeros before the numbers'

# input PAGE OCTAL: what the program reads, where OCTAL is the flag word, the first and the last set, byte after byte as printf takes them
input() {
    # shellcheck disable=SC2059
    printf "$2" | cat - "$1" >"$made/input"
}

# ranges WHAT PAGE FLAGS FIRST LAST: the program on the input, and the lines of the definitions
ranges() {
    run crates/roundrun/out/roundrun <"$made/input" >"$made/out"
    status=$?
    python3 tests/known/meaning.py "$2" "$3" "$4" "$5" >"$made/want"
    [ "$status" -eq 0 ] && cmp -s "$made/out" "$made/want"
    verdict "the program on $1"
}

input "$page" '\0\0\0\0\010\0'
cmp -s "$made/input" crates/roundrun/stdin
verdict 'the stored input is the chain of three, with sets 0 to 8'
ranges 'its stored input: all sets of a page, and one that is refused' "$page" 0 0 8
cmp -s "$made/out" crates/roundrun/stdout
verdict 'the stored output is that of the definitions'
input examples/two-trains.page '\0\005\0\0\377\377'
ranges 'all 65,536 sets of a page' examples/two-trains.page 0x0500 0 65535
input "$page" '\002\0\005\0\007\0'
ranges 'a few sets' "$page" 2 5 7
input "$page" '\0\0\007\0\003\0'
ranges 'a last set below the first: the first alone' "$page" 0 7 3
input "$page" '\0\0\006\0\377\377'
ranges 'sets that run out of the page' "$page" 0 6 65535
input "$page" '\0\0\377\377\0\0'
ranges 'a first set out of the page' "$page" 0 65535 0
input "$page" '\010\0\0\0\007\0'
ranges 'a flag word out of the page' "$page" 8 0 7
input examples/tail.page '\0\0\0\0\007\0'
ranges 'a refused page, of which one line is printed' examples/tail.page 0 0 7

says 'no input' 'refused 1' </dev/null
head -c 5 crates/roundrun/stdin >"$made/five"
says 'five bytes' 'refused 1' <"$made/five"
head -c 6 crates/roundrun/stdin >"$made/six"
says 'a flag word and two sets without a page' 'refused 1' <"$made/six"
longer crates/roundrun/stdin 5000 long-chain
says 'a page with zeros after it' 'refused 4' <"$made/long-chain"

# a planted difference, in the copy of the repository where ./pagerun was shown to fail: now its program is as it was, and this one's stored output is not
cp roundrun "$made/copy/"
cp crates/pagerun/stdout "$made/copy/crates/pagerun/stdout"
sed 's/rounds 3/rounds 2/' crates/roundrun/stdout >"$made/copy/crates/roundrun/stdout"
for words in 'roundrun examples/steps.page 7' 'pagerun --rounds examples/steps.page'; do
    # shellcheck disable=SC2086
    (CDPATH='' cd -- "$made/copy" && ./$words) >"$made/out" 2>"$made/err"
    status=$?
    [ "$status" -eq 3 ] && [ ! -s "$made/out" ] && grep -q "roundrun does not print its stored output" "$made/err"
    verdict "a count that is not the stored one is shown to fail, and is not used: ./$words"
done
