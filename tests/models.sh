#!/bin/bash
# tools/models.py --check finds what it is there to find: a copy of the text passes, and each copy with one thing wrong is refused.
set -eu
cd "$(dirname "$0")/.."
work=$(mktemp -d)
trap 'rm -rf "$work"' EXIT

# A fresh copy of the text in $work/text.
copy() {
    rm -rf "$work/text"
    mkdir "$work/text"
    tar -c --exclude=out crates crates.txt include tools | tar -x -C "$work/text"
}

# The copy, as it was left, has to be refused.
refused() {
    if "$work/text/tools/models.py" --check >"$work/said"; then
        echo "models.py --check took this: $1"
        exit 1
    fi
}

copy
"$work/text/tools/models.py" --check

sed -i '0,/sizes (Create/s//sizes (Delete/' "$work/text/crates/lend_premium/src/spaces.rt"
refused "a premium contract of its own"

copy
sed -i 's/ROOM: usize = 1500000/ROOM: usize = 1500001/' "$work/text/crates/board_script_premium/src/main.rt"
refused "another length"

copy
rm "$work/text/crates/lend_premium/src/withdraw.rt"
refused "a premium file that is missing"

copy
echo '// more' >"$work/text/crates/lend_premium/src/more.rt"
refused "a premium file that no entry file stands behind"

copy
sed -i 's/lend_premium_load(uint8_t \*image/lend_premium_load(const uint8_t *image/' "$work/text/include/lend.h"
refused "a premium declaration of its own"

copy
sed -i 's/^#define LEND_PREMIUM_PAGES .*/#define LEND_PREMIUM_PAGES 32/' "$work/text/include/lend.h"
refused "another size"

copy
sed -i '/^lend_premium /s/ access / /' "$work/text/crates.txt"
refused "a premium crate with crates of its own"
