#!/bin/bash
# build.sh: builds the bench of the tree that it is run in, build/cargo/release/lend-bench, with the library of each model and a second
# copy of it whose copies of memory are counted: the same object, with other names outside. Needs what run.sh needs.
set -eu -o pipefail
LEND_OBJECTS=
for name in lend_entry lend_premium; do
    bench/native.sh "$name"
    library=$PWD/build/native/$name.o
    counting=$PWD/build/native/${name}_counting.o
    nm -g "$library" | awk '{print $NF, "counting_" $NF}' >build/native/names
    objcopy --redefine-syms=build/native/names "$library" "$counting"
    LEND_OBJECTS+="$library $counting "
done
export LEND_OBJECTS CARGO_TARGET_DIR=$PWD/build/cargo
cargo build --quiet --release --offline --manifest-path bench/Cargo.toml
