# shellcheck shell=sh
# Sourced by scripts: the kit's own compiler, and how programs over the library are built and run.
#
# `rt` compiles for x86-64 alone, and so do these, with the kit's clang. On another kind of machine they
# run under an emulator, if it has one.
kit=${RATTLE_HOME:-$(dirname "$(dirname "$(readlink -f "$(command -v rt)")")")}
tools=$kit/toolchain
emulator=''
[ "$(uname -m)" = x86_64 ] || emulator=$(command -v qemu-x86_64 || true)

# link_with_chinchor PROGRAM SOURCE...: a program without a C library, over libchinchor.a; sources are
# named without .c. The kit's clang brings no headers: those that need no C library are the system
# compiler's.
link_with_chinchor() {
    program=$1 objects=''
    shift
    for source in "$@" "$root/firmware/memory"; do
        object=$program.$(basename "$source").o
        "$tools/bin/clang" --target=x86_64-linux-gnu -std=c99 -Wall -Wextra -Wpedantic -Werror -O2 \
            -ffreestanding -fno-stack-protector -nostdinc -isystem "$(cc -print-file-name=include)" \
            -I "$root/include" -c -o "$object" "$source.c" || return
        objects="$objects $object"
    done
    # shellcheck disable=SC2086
    "$tools/bin/ld.lld" -static -o "$program" $objects "$root/target/staticlib/libchinchor.a"
}
