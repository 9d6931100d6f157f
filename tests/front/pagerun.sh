# Sourced by run: what ./pagerun prints of each example, with the rounds and without them, and its exit status; refused pages in words; bad usage; files that
# are too short or too long; and the program behind it on inputs that the front never gives.
me=pagerun

# lines_of STATUS [--rounds] PAGE FLAGS: the lines of the definitions, after which only a refusal's words may stand, and this status
lines_of() {
    wanted=$1
    shift
    front "$@"
    python3 tests/known/meaning.py "$@" >"$made/want"
    lines=$(wc -l <"$made/want")
    head -n "$lines" "$made/out" | cmp -s - "$made/want" && [ "$(wc -l <"$made/out")" -eq $((lines + wanted)) ] &&
        [ "$status" -eq "$wanted" ] && [ ! -s "$made/err" ]
    verdict "the lines of ./pagerun $*"
}

# shows PAGE FLAGS STATUS: without the rounds and with them
shows() {
    lines_of "$3" "$1" "$2"
    lines_of "$3" --rounds "$1" "$2"
}

front examples/two.page
printf 'sets 2\nset 1 degrees 1 best\nset 2 degrees 2\npick 1\n' | cmp -s - "$made/out" && [ "$status" -eq 0 ]
verdict 'the four lines of the first known page, nothing raised'
front --rounds examples/steps.page
printf 'sets 1\nset 7 degrees 1 1 1 best rounds 3\npick 7\n' | cmp -s - "$made/out" && [ "$status" -eq 0 ]
verdict 'the three rounds of a chain of three'

shows examples/train.page 0 0
shows examples/train.page 16 0
shows examples/train.page 0x30 0
shows examples/two-trains.page 0 0
shows examples/two-trains.page 0x0500 0
shows examples/two-trains.page 0x1000 0
shows examples/steps.page 0 0
shows examples/steps.page 2 0
shows examples/car.page 0 0
shows examples/never.page 0 1
shows examples/tail.page 0 1
shows examples/rings.page 0 1
shows examples/wishes.page 0 0
shows examples/longest.page 0 0
shows examples/rivals.page 0x00ff 0 # with eight of the eleven valves open: the whole page takes a while
shows examples/equals.page 0x003f 0 # with one ring raised, for the same reason

front examples/train.page 16
python3 tests/known/meaning.py examples/train.page 0 >"$made/want"
! cmp -s "$made/out" "$made/want"
verdict 'lines for other flags are seen to differ'
front --rounds examples/steps.page 2
python3 tests/known/meaning.py --rounds examples/steps.page 0 >"$made/want"
! cmp -s "$made/out" "$made/want"
verdict 'lines with other rounds are seen to differ'

page=examples/two.page
longer "$page" 4094 long-4094
longer "$page" 4095 long-4095
longer "$page" 70000 long-70000
longer "$made/form" 5000 long-form
longer "$made/atoms" 5000 long-atoms

refuses 1 'page fault' "$made/empty"
refuses 1 'page fault' "$made/short"
refuses 2 'page fault' "$made/form"
refuses 3 'page fault' "$made/atoms"
refuses 4 'page fault' examples/tail.page
refuses 4 'page fault' "$made/long-4094"
refuses 4 'page fault' "$made/long-4095"
refuses 4 'page fault' "$made/long-70000"
refuses 2 'page fault' "$made/long-form"
refuses 3 'page fault' "$made/long-atoms"
refuses 5 'page fault' "$made/tall"
refuses 6 'page fault' "$made/atom"
refuses 7 'page fault' "$made/falls"
refuses 8 'page fault' "$made/pair"
refuses 9 'call fault' examples/train.page 64
refuses 10 finding examples/never.page
refuses 11 'call fault' examples/rings.page

unusable
unusable examples/two.page 1 2
unusable --rounds
unusable --rounds examples/two.page 1 2
unusable --rounds --rounds examples/two.page
unusable --round examples/two.page
grep -q "option: '--round'" "$made/err"
verdict 'an option that there is not: the words name it'
unusable examples/two.page --rounds
unusable examples/two.page ''
unusable examples/two.page -1
unusable examples/two.page 12x
unusable examples/two.page 0x
unusable examples/two.page 0x1g
unusable examples/two.page 65536
unusable examples/two.page 0x10000
unusable examples/two.page 99999999999999999999
unusable examples/no-such.page
unusable examples

front --help
[ "$status" -eq 0 ] && grep -q '^usage: ' "$made/out"
verdict 'help'

# decimal with zeros before it is decimal; a file's name may start with a dash; the front works from another folder
front examples/train.page 0016
[ "$status" -eq 0 ] && [ "$(tail -n 1 "$made/out")" = 'pick 18' ]
verdict 'zeros before a number change nothing'
cp examples/train.page "$made/-a page"
(CDPATH='' cd -- "$made" && "$top/$me" '-a page' 0X10) >"$made/out" 2>"$made/err"
status=$?
[ "$status" -eq 0 ] && [ "$(tail -n 1 "$made/out")" = 'pick 18' ]
verdict 'from another folder, with a name that starts with a dash'

says 'no input' 'refused 1' </dev/null
printf '\0' >"$made/one"
says 'one byte' 'refused 1' <"$made/one"
printf '\0\0' >"$made/flags"
says 'a flag word without a page' 'refused 1' <"$made/flags"
printf '\0\0\001\0\001\0\0\0\0\0\0\0\022\0\022\0\022\0\022\0' >"$made/bare"
says 'a page without rows' 'sets 1
set 0 degrees none best
pick 0' <"$made/bare"
tail -c +3 "$made/bare" >"$made/no-rows"
front --rounds "$made/no-rows"
printf 'sets 1\nset 0 degrees none best rounds 0\npick 0\n' | cmp -s - "$made/out" && [ "$status" -eq 0 ]
verdict 'no round to the set of a page without rows'
{ printf '\0' && sleep 1 && printf '\0' && head -c 10 "$page" && sleep 1 && tail -c +11 "$page"; } | {
    says 'an input that comes bit by bit' "$(cat crates/pagerun/stdout)"
    echo "$passed $failed" >"$made/so-far"
}
read -r passed failed <"$made/so-far"

# a planted difference: in a copy of the repository the program's stored output has another pick. What is proved is taken along: the libraries, and
# the programs with their stamps.
mkdir -p "$made/copy/crates"
cp -R crates.txt front.sh pagerun examples "$made/copy/"
for crate in crates/*; do
    mkdir -p "$made/copy/$crate/out"
    for part in "$crate"/*; do
        [ "$part" = "$crate/out" ] || cp -R "$part" "$made/copy/$crate/"
    done
    for part in rlib pagerun pagerun.stamp roundrun roundrun.stamp; do
        [ ! -e "$crate/out/$part" ] || cp -R "$crate/out/$part" "$made/copy/$crate/out/"
    done
done
sed 's/pick 1/pick 2/' crates/pagerun/stdout >"$made/copy/crates/pagerun/stdout"
(CDPATH='' cd -- "$made/copy" && ./pagerun examples/two.page) >"$made/out" 2>"$made/err"
status=$?
[ "$status" -eq 3 ] && [ ! -s "$made/out" ] && grep -q "pagerun does not print its stored output" "$made/err"
verdict 'a program that does not print its stored output is shown to fail, and is not used'
