#!/bin/sh
# shipped.sh [CASES [TEXTS [SEED]]]: compares the archives that are shipped, for x86-64, on a machine with another processor.
#
# There compare.sh compares code that native.sh made for the machine's own processor. This takes the archives themselves, as `rt lib` wrote them.
# The C side is compiled for x86-64 by the toolchain's clang, linked by its linker with its C library, and run under its emulator, as
# rt runs programs. The headers are those that cc reads here: of what is used, they say the same on every 64-bit Linux.
# A tool that is missing fails the comparison, which is never left out: rt runs no program of this repository without them either.
set -eu
cd "$(dirname "$0")"
archives='../crates/clib_c/out/libclib_c.a ../crates/cperiod_c/out/libcperiod_c.a' made=build/x86-64
mkdir -p $made
. ./files.sh
kit=${RATTLE_HOME:-$(cd "$(dirname "$(readlink -f "$(command -v rt)")")/.." && pwd -P)}
own=$kit/on/$(uname -m)
tools=$own/toolchain
target=x86_64-unknown-linux-gnu
headers=$(LC_ALL=C ${CC:-cc} -E -v -x c /dev/null 2>&1 >/dev/null | sed -n '/^#include </,/^End/s/^ /-isystem /p')

for file in $PLAIN plain_text fast fast_text table $CASES $FUZZ $FIGURES; do
    # shellcheck disable=SC2086
    "$tools/bin/clang" --target=$target -nostdinc $headers $C11 -O2 -DTHIRD=recharge -DTHIRD_TEXT=recharge -c $file.c -o $made/$file.o
done
linked() { # PROGRAM NAME..: the program of these files and the implementations
    program=$1
    shift
    # shellcheck disable=SC2046,SC2086
    "$own/bin/rattle-link" --target $target --toolchain "$tools" -o $made/"$program" \
        $(printf "$made/%s.o " "$@" $PLAIN plain_text fast fast_text table) $archives 2>$made/said || { cat $made/said >&2; exit 1; }
}
# shellcheck disable=SC2086
linked figures $FIGURES
# shellcheck disable=SC2086
linked fuzz $FUZZ $CASES

emulated() { # PROGRAM ARGUMENT..
    program=$1
    shift
    "$tools/bin/qemu-x86_64" "$tools/lib/ld-linux-x86-64.so.2" --library-path "$tools/lib" $made/"$program" "$@"
}
echo 'the shipped archives, for x86-64, under the emulator:'
emulated figures >$made/figures.out || { grep -v '^ok' $made/figures.out; exit 1; }
tail -n 1 $made/figures.out
emulated fuzz "${1:-1000}" "${2:-1000}" "${3:-700000001}"
