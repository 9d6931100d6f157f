# Sourced by run: what ./showrun prints, in bits and in words, and its exit status; readings in decimals and in bits; refusals in words; bad usage; and the
# program behind it with every case and every kind of reading.
me=showrun

# screen STATUS LINE WORDS PAGE LIVE SECOND HELD [FLAGS]: these two lines, and this status
screen() {
    want=$1
    printf '%s\n' "$2" "$3" >"$made/want"
    shift 3
    front "$@"
    cmp -s "$made/out" "$made/want" && [ "$status" -eq "$want" ] && [ ! -s "$made/err" ]
    verdict "the display by $*"
}

page=examples/display.page
screen 0 'live 3da3d70a' 'the display shows the live reading, given as 0.08' "$page" 0.08 0.11 0.25
screen 0 'second 3de147ae' 'the display shows the second reading, given as 0.11' "$page" 0.08 0.11 0.25 16
screen 0 'held 3e800000' 'the display shows the held reading, given as 0.25' "$page" 0.08 0.11 0.25 0x30
screen 0 'no number' 'the display shows no number: the page picks none' "$page" 0.08 0.11 0.25 112
screen 1 'refused 15' 'display: the chosen reading is infinite or not a number; no number is shown' "$page" nan 0.11 0.25
screen 1 'refused 15' 'display: the chosen reading is infinite or not a number; no number is shown' "$page" 0.08 -inf 0.25 16
screen 0 'held 3e800000' 'the display shows the held reading, given as 0.25' "$page" nan inf 0.25 48
screen 0 'live 80000000' 'the display shows the live reading, given as -0.0' "$page" -0.0 1 2
screen 0 'live 00000001' 'the display shows the live reading, given as 1.4e-45' "$page" 1.4e-45 1 2
screen 0 'live 7f7fffff' 'the display shows the live reading, given as +3.4028235E38' "$page" +3.4028235E38 1 2
screen 1 'refused 15' 'display: the chosen reading is infinite or not a number; no number is shown' "$page" 3.4028236e38 1 2
screen 0 'live 4b800000' 'the display shows the live reading, given as 16777217' "$page" 16777217 1 2
screen 0 'live 4b800002' 'the display shows the live reading, given as 16777219.' "$page" 16777219. 1 2
screen 0 'live 3f000000' 'the display shows the live reading, given as .5' "$page" .5 1 2
screen 0 'live 0000000a' 'the display shows the live reading, given as 0X00a' "$page" 0X00a 1 2
screen 0 'second ff7fffff' 'the display shows the second reading, given as 0xff7fffff' "$page" 1 0xff7fffff 2 16

# halfway between 0 and the smallest number, a carry into the normal numbers, and beyond what a double holds
screen 0 'live 00000000' 'the display shows the live reading, given as 7.0064923216240853546186479164495e-46' "$page" 7.0064923216240853546186479164495e-46 1 2
screen 0 'live 00800000' 'the display shows the live reading, given as 1.1754943e-38' "$page" 1.1754943e-38 1 2
screen 1 'refused 15' 'display: the chosen reading is infinite or not a number; no number is shown' "$page" 1e999 1 2

refuses 1 'page fault' "$made/empty" 1 2 3
refuses 4 'page fault' examples/tail.page 1 2 3
refuses 9 'call fault' "$page" 1 2 3 128
refuses 10 finding examples/never.page 1 2 3
refuses 14 display examples/two.page 1 2 3
refuses 14 display "$page" 1 2 3 8

unusable "$page" 1 2
unusable "$page" 1 2 3 4 5
unusable "$page" 1 2 x
unusable "$page" 1 2 ''
unusable "$page" 1 2 1e
unusable "$page" 1 2 0x
unusable "$page" 1 2 0x1g
unusable "$page" 1 2 0x100000000
unusable "$page" 1 2 '3; 4'
unusable "$page" 1 2 '\061'
unusable "$page" 1 2 3 65536
unusable examples/no-such.page 1 2 3

front --help
[ "$status" -eq 0 ] && grep -q '^usage: ' "$made/out"
verdict 'help of showrun'

mkdir "$made/screens"
count=$(python3 tests/front/screens.py "$made/screens") || count=0
seen=0
first=none
while [ "$seen" -lt "$count" ]; do
    run crates/showrun/out/showrun <"$made/screens/$seen.in" >"$made/out"
    status=$?
    [ "$status" -eq 0 ] && cmp -s "$made/out" "$made/screens/$seen.want" || { first=$seen && break; }
    seen=$((seen + 1))
done
[ "$seen" -gt 0 ] && [ "$first" = none ]
verdict "the program on $seen inputs with every case and every kind of reading; the first that differs: $first"
cat "$made"/screens/*.want | sort -u >"$made/lines"
grep '^refused' "$made/lines" | tr '\n' ' ' >"$made/refusals"
[ "$(cat "$made/refusals")" = 'refused 10 refused 14 refused 15 refused 4 refused 9 ' ] && grep -q '^no number$' "$made/lines" &&
    [ "$(grep -c '^live ' "$made/lines")" -gt 5 ] && [ "$(grep -c '^second ' "$made/lines")" -gt 5 ] && [ "$(grep -c '^held ' "$made/lines")" -gt 5 ]
verdict 'among these lines are all cases with many readings, and refusals 4, 9, 10, 14 and 15'

says 'no input' 'refused 1' </dev/null
head -c 13 crates/showrun/stdin >"$made/thirteen"
says 'thirteen bytes' 'refused 1' <"$made/thirteen"
head -c 14 crates/showrun/stdin >"$made/fourteen"
says 'readings and flags without a page' 'refused 1' <"$made/fourteen"
longer crates/showrun/stdin 5000 long-screen
says 'a page with zeros after it' 'refused 4' <"$made/long-screen"
