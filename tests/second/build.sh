# Sourced by run, standin and planted: goes to the repository's top, compiles the driver, the second solver and the limit
# into a folder of its own ($made, removed at the end), and links them with whatever plays the engine.
# `compile_words` may have words for the compiler.

cd "$(dirname "$0")/../.." || exit 2
. tests/kit.sh
made=$(mktemp -d) || exit 2
trap 'rm -rf "$made"' EXIT

# A test that cannot be built is a test that failed.
give_up() {
    echo "$1"
    echo "0 passed, 1 failed"
    exit 1
}

for file in solver pages cases contents drive; do
    # shellcheck disable=SC2086
    compile "$made/$file.o" "tests/second/$file.c" ${compile_words:-} || give_up "tests/second/$file.c does not compile"
done
compile "$made/limit.o" bench/limit.c || give_up "bench/limit.c does not compile"

# driver OUT ENGINE..: the driver with these objects or archives as the engine
driver() {
    out=$1
    shift
    link "$out" "$made/drive.o" "$made/cases.o" "$made/contents.o" "$made/pages.o" "$made/solver.o" "$made/limit.o" "$@"
}
