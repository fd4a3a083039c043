# shellcheck shell=sh
# For the scripts that run a program of crates/NAME/out. They source this.

# The kit's folder: rt stands in its bin/, perhaps behind links.
kit_folder() {
    rt=$(command -v rt) || return 1
    dirname "$(dirname "$(readlink -f "$rt")")"
}

# Runs a program by the loader of the kit's toolchain, with its C library. The program is for x86-64; on another processor it runs under the
# emulator, where the toolchain has one beside its compiler.
loaded() { # PROGRAM [ARGUMENT..]
    kit=${RATTLE_HOME:-$(kit_folder)}
    toolchain=$kit/toolchain
    emulator=$toolchain/bin/qemu-x86_64
    [ -x "$emulator" ] || emulator=''
    ${emulator:+"$emulator"} "$toolchain/lib/ld-linux-x86-64.so.2" --library-path "$toolchain/lib" "$@"
}
