#!/bin/bash
# cc.sh OUT [-DNAME..] FILE..: compiles C files for x86-64, the processor that the kit compiles for, and links them with the archives
# that are named, by the kit's own compiler, linker and C library; tools/run.sh runs the program with that library.
# A -D option stands before the C files that it is for.
set -eu
out=$1
shift
kit=$(dirname "$(dirname "$(readlink -f "$(command -v rt)")")")
tools=$kit/toolchain
headers=(-isystem "$(gcc -print-file-name=include)" -isystem "/usr/include/$(gcc -dumpmachine)" -isystem /usr/include)
work=$(mktemp -d)
trap 'rm -rf "$work"' EXIT
objects=() defines=()
for file in "$@"; do
    case $file in
    -D*) defines+=("$file") ;;
    *.c)
        object=$work/$(basename "$file" .c).o
        "$tools/bin/clang" --target=x86_64-linux-gnu "${headers[@]}" "${defines[@]}" -std=c99 -Wall -Wextra -Werror -O2 -fPIE -Iinclude \
            -c "$file" -o "$object"
        objects+=("$object")
        ;;
    *) objects+=("$file") ;;
    esac
done
lib=$tools/lib
"$tools/bin/ld.lld" --dynamic-linker "$lib/ld-linux-x86-64.so.2" -pie -o "$out" "$lib/Scrt1.o" "$lib/crti.o" "$lib/crtbeginS.o" "${objects[@]}" \
    "$lib/libc.so.6" "$lib/libc_nonshared.a" "$lib/crtendS.o" "$lib/crtn.o"
