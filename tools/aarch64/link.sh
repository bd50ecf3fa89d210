#!/bin/sh
# Links a program for aarch64 by the toolchain's own clang and linker. The toolchain has no C library for it: the functions
# that libc.map lists are named in its place, which is all that linking takes, so no other package is needed, and the same
# object file gives the same bytes on each machine.
# usage: tools/aarch64/link.sh OBJECT OUT   links the program
#        tools/aarch64/link.sh --libc OUT   makes what stands in for glibc's libc.so.6 while linking
set -eu
export LC_ALL=C
here=$(cd "$(dirname "$0")" && pwd)
command=$(command -v rt) || {
    echo "the toolchain's command rt isn't on the PATH: README says what is needed" >&2
    exit 1
}
tools=$(dirname "$(dirname "$(readlink -f "$command")")")/toolchain/bin
room=$(mktemp -d)
trap 'rm -rf "$room"' EXIT

compile() { "$tools/clang" --target=aarch64-unknown-linux-gnu "$@"; }

libc() {
    # (each name that a semicolon ends, but for the versions, stands for a function)
    sed 's/\/\*.*\*\///; s/^GLIBC[^ ]*//' "$here/libc.map" | grep -o '[a-z_][a-z0-9_]*;' | tr -d ';' |
        sed 's/.*/.globl &\n.type &, %function\n&:/' >"$room/libc.s"
    compile -c "$room/libc.s" -o "$room/libc.o"
    "$tools/ld.lld" -shared -soname libc.so.6 --version-script "$here/libc.map" --build-id=none -o "$1" "$room/libc.o"
}

if [ "$1" = --libc ]; then
    libc "$2"
    exit
fi
libc "$room/libc.so.6"
compile -c "$here/start.s" -o "$room/start.o"
compile -std=c11 -Wall -Wextra -Werror -O2 -fPIC -ffunction-sections -ffreestanding -fno-ident \
    -c "$here/support.c" -o "$room/support.o"
"$tools/ld.lld" -m aarch64linux -pie --dynamic-linker /lib/ld-linux-aarch64.so.1 --as-needed -z relro -z now -z noexecstack \
    --eh-frame-hdr --gc-sections --build-id=sha1 --fatal-warnings --threads=1 -o "$2" \
    "$room/start.o" "$1" "$room/support.o" "$room/libc.so.6"
