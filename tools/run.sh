#!/bin/bash
# run.sh PROGRAM [WORDS..]: runs a program that the kit compiled, with the kit's loader and C library.
kit=$(dirname "$(dirname "$(readlink -f "$(command -v rt)")")")
lib=$kit/toolchain/lib
exec "$lib/ld-linux-x86-64.so.2" --library-path "$lib" "$@"
