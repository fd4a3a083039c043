#!/bin/sh
# native.sh CRATE OUT: a proved library for a C program of this machine to link.
#
# `rt lib` proves the crate, with all that it stands on, and writes an archive for x86-64. There OUT is that archive. A library is exported to
# C by a thin crate beside it, CRATE_c: OUT is that one's.
# On another processor the archive runs under an emulator only, and its times say nothing. So the module that the toolchain
# compiles into the archive is kept on its way, and the toolchain's own clang compiles it once more, for this processor: OUT is
# that object. It serves to compare and to time; what is shipped is the archive. NATIVE_AGAIN=1 takes this way on x86-64 too.
# Of a library that is proved already, only CRATE itself is proved again on this way; the crates that it stands on are not.
# What was made is kept under bench/build/native/ and handed out again while no file of crates/, no tool and not the archive has changed.
set -eu
[ $# -eq 2 ] || { sed -n '2,11s/^# \{0,1\}//p' "$0" >&2; exit 2; }
crate=$1 out=$2 machine=$(uname -m)
root=$(cd "$(dirname "$0")/.." && pwd)
case $out in /*) ;; *) out=$(pwd)/$out ;; esac
cd "$root"
kept=bench/build/native/$crate-$machine${NATIVE_AGAIN:+-again}
exported=${crate}_c
archive=crates/$exported/out/lib$exported.a
sources=$({ rt version; cat crates.txt; find crates -type f ! -path '*/must-fail/*' ! -path 'crates/*/out/*' | LC_ALL=C sort | xargs cksum; } | cksum)
if [ -f "$kept.sum" ] && [ -f "$archive" ] && [ "$(cat "$kept.sum")" = "$sources $(cksum <"$archive")" ]; then
    cp "$kept.a" "$out"
    exit 0
fi
work=$(mktemp -d)
trap 'rm -rf "$work"' EXIT
keep() { # the file that was made
    mkdir -p bench/build/native
    rm -f "$kept.sum"
    cp "$1" "$kept.a"
    echo "$sources $(cksum <"$archive")" >"$kept.sum"
    cp "$1" "$out"
}

if [ "$machine" = x86_64 ] && [ -z "${NATIVE_AGAIN:-}" ]; then
    (cd "crates/$exported" && rt lib) >"$work/log" 2>&1 || { cat "$work/log" >&2; exit 1; }
    keep "$archive"
    exit 0
fi

# A view of the toolchain made of links, in which clang first puts aside the module that it is handed.
kit=${RATTLE_HOME:-$(cd "$(dirname "$(readlink -f "$(command -v rt)")")/.." && pwd -P)}
own=on/$machine/toolchain/bin
mkdir -p "$work/kit/$own"
linked() { # FOLDER EXCEPT: links to all that the kit's folder has, but for one
    for file in "$kit/$1"/*; do
        [ "${file##*/}" = "$2" ] || ln -s "$file" "$work/kit/$1/"
    done
}
linked . on
linked "on/$machine" toolchain
linked "on/$machine/toolchain" bin
linked "$own" clang
{
    echo '#!/bin/sh'
    echo "[ ! -f module.bc ] || cp module.bc '$work/module.bc'"
    echo "exec '$kit/$own/clang' \"\$@\""
} >"$work/kit/$own/clang"
chmod +x "$work/kit/$own/clang"
(cd "crates/$exported" && RATTLE_HOME=$work/kit rt lib) >"$work/log" 2>&1 || { cat "$work/log" >&2; exit 1; }

# The module as text, without the other processor's name and layout, compiled for this one. On x86-64 a struct of more than 16 bytes goes
# on the stack, which the module says by `byval`; Arm's C hands over the address of a copy, which is the same module without that word.
clang=$kit/$own/clang
"$clang" --target=x86_64-unknown-linux-gnu -x ir "$work/module.bc" -O0 -Xclang -disable-llvm-passes -S -emit-llvm \
    -o "$work/module.ll"
sed -e '/^target datalayout/d' -e "s/^target triple.*/target triple = \"$machine-unknown-linux-gnu\"/" \
    -e 's/"target-cpu"="x86-64"//' "$work/module.ll" >"$work/own.ll"
[ "$machine" = x86_64 ] || sed -i 's/byval([^)]*) //g' "$work/own.ll"
"$clang" --target="$machine-unknown-linux-gnu" -O3 -x ir "$work/own.ll" -c -o "$work/own.o"
keep "$work/own.o"
