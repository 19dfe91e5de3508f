#!/bin/bash
# lib.sh NAME..: has the kit prove these crates and build the static library of each, crates/NAME/out/libNAME.a; what stands is not built
# again. Run it at the top of the repository. Its output is rt's.
set -eu
for name in "$@"; do
    (cd "crates/$name" && rt lib)
done
