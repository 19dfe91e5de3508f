#!/bin/bash
# bench/run.sh [--write] [--seconds S]: measures the proved C library of each model beside plain Rust on this machine and prints the
# tables of docs/PERFORMANCE.md. With --write it puts them there too. S is the time for each row, 1 second if none is given.
# No pass and no fail: the figures are for reading.
# Needs the kit (rt), cargo, nm, objcopy and, for the script programs, cc. Everything is built below build/.
set -eu -o pipefail
cd "$(dirname "$(readlink -f "$0")")/.."
asked="bench/run.sh${*:+ $*}"
write= words=()
for word in "$@"; do
    if [ "$word" = --write ]; then write=yes; else words+=("$word"); fi
done

bench/build.sh

# script WORD NAME: builds the script program NAME and names it to the bench by the option WORD.
script() {
    if bench/native.sh "$2"; then
        cc -o "build/native/$2" "build/native/$2.o"
        words+=("$1" "$PWD/build/native/$2")
    else
        echo "run.sh: $2 was not built, so its lines are not measured" >&2
    fi
}
script --entry-script board_script
script --premium-script board_script_premium

load() { cut -d' ' -f1 /proc/loadavg; }
report() {
    echo "$(date -u +%Y-%m-%d), \`$asked\`: $(uname -sm) ($(lscpu | sed -n 's/^Model name: *//p')), $(nproc) processors, load $(load) at the start;"
    echo "$(rt version), $(rustc --version), commit $(git describe --always --dirty --exclude='*')."
    build/cargo/release/lend-bench "${words[@]}"
    echo
    echo "The load at the end of the run was $(load)."
}
report | tee build/tables.md

# The tables take the place of the section that has them.
if [ -n "$write" ]; then
    awk -v tables=build/tables.md '
        /^## / { old = 0 }
        !old
        /^## The tables$/ { print ""; while ((getline line <tables) > 0) print line; print ""; old = 1 }
    ' docs/PERFORMANCE.md >build/PERFORMANCE.md
    cp build/PERFORMANCE.md docs/PERFORMANCE.md
fi
