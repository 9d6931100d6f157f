# Sourced by the scripts that build C or run a proved program, at the repository's top: the kit's own compiler, linker, C library and, where it has
# one, emulator. What `rt lib` and `rt run` make is for x86-64, so all C here is built for x86-64, on any machine, by the same lines.
# The kit has no C headers: -nostdinc keeps the machine's out, and each file declares what it calls.

guide=$(rt doc) || exit 2
kit=$(dirname "$guide")
libs=$kit/toolchain/lib
# a kit for more than one kind of machine has tools for each
tools=$kit/on/$(uname -m)/toolchain/bin
[ -d "$tools" ] || tools=$kit/toolchain/bin
emulator=$tools/qemu-x86_64
[ -x "$emulator" ] || emulator=

# compile OUT.o FILE.c [WORDS]
compile() {
    object=$1
    shift
    "$tools/clang" --target=x86_64-unknown-linux-gnu -std=c11 -nostdinc -fPIC -O3 -Wall -Wextra -Werror -c -o "$object" "$@"
}

# link OUT OBJECT.. [ARCHIVE]
link() {
    program=$1
    shift
    "$tools/ld.lld" -pie --dynamic-linker /lib64/ld-linux-x86-64.so.2 -o "$program" \
        "$libs/Scrt1.o" "$libs/crti.o" "$libs/crtbeginS.o" "$@" \
        "$libs/libc.so.6" "$libs/libc_nonshared.a" "$libs/libgcc.a" "$libs/crtendS.o" "$libs/crtn.o"
}

# build_archive: proves the calls for C and builds their archive, where that is still to be done; what rt says of it is printed
archive=crates/capi/out/libcapi.a
build_archive() {
    (CDPATH='' cd -- crates/capi && rt lib) 2>&1
}

# run PROGRAM [WORDS]: through the kit's loader, so that the machine needs no C library of its own
run() {
    ${emulator:+"$emulator"} "$libs/ld-linux-x86-64.so.2" --library-path "$libs" "$@"
}
