#!/bin/sh
# Times one day, a year and the whole text of the proved library, and the program sheet, against fast.c (-O3), in one process.
#
#     ./speed.sh [ROUNDS]
#
# Prints the machine's kind and speed.c's table. The proved library is code for this machine's own processor (native.sh); the program is code for x86-64, and is
# timed there alone, where it is built.
set -eu
cd "$(dirname "$0")"
mkdir -p build
. ./files.sh
CC=${CC:-cc}
for crate in clib cperiod; do
    ./native.sh $crate build/lib$crate.a
done
for file in fast fast_text; do
    # shellcheck disable=SC2086
    $CC $C11 -O3 -c $file.c -o build/$file.o
done
# shellcheck disable=SC2046,SC2086
$CC $WARN -std=gnu11 -O2 -DTHIRD=recharge -DTHIRD_TEXT=recharge $(printf '%s.c ' $SPEED) build/fast.o build/fast_text.o \
    build/libclib.a build/libcperiod.a -o build/speed
uname -m
sed -n 's/^model name[^:]*: //p' /proc/cpuinfo | sed 1q
$CC --version | sed 1q
set -- "${1:-200}"
program=$PWD/../crates/sheet/out/sheet
if [ "$(uname -m)" = x86_64 ] && [ -x "$program" ]; then set -- "$1" "$program"; fi
build/speed "$@"
