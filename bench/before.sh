#!/bin/bash
# before.sh REV [--seconds S] [--turns N]: what calls cost at commit REV and now, first translate alone in one program (bench/before.c),
# then every row of the bench, each commit's library beside its own plain Rust (bench/before.py): S seconds a row, N turns.
# Builds the libraries of REV in a clone beside the checkout, since rt ci refuses another repository inside it; the first time that proves
# them, so REV has to be a commit that the installed kit proves. The two may have images of different lengths.
set -eu -o pipefail
cd "$(dirname "$(readlink -f "$0")")/.."
top=$PWD old=$PWD.before rev=$(git rev-parse "$1")
shift
[ -d "$old" ] || git clone -q . "$old"
git -C "$old" fetch -q "$top" "$rev"
git -C "$old" checkout -q "$rev"
bench/build.sh
(cd "$old" && "$top/bench/build.sh")

# The older library has other names outside, and its own header says how long its images are.
nm -g "$old/build/native/lend_entry.o" | awk '$2 == "T" {print $NF, "before_" $NF}' >build/native/names
objcopy --redefine-syms=build/native/names "$old/build/native/lend_entry.o" build/native/before.o
length=$(echo LEND_ENTRY_IMAGE | gcc -E -P -include "$old/include/lend.h" - | tail -n 1)
gcc -O2 -Wall -DBEFORE_IMAGE="$length" -o build/native/before bench/before.c build/native/lend_entry.o build/native/before.o
build/native/before
echo
bench/before.py "$old/build/cargo/release/lend-bench" build/cargo/release/lend-bench "$@"
