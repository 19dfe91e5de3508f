#!/bin/bash
# run.sh [entry | premium | both]: the C examples over include/lend.h, linked with the archives that tools/lib.sh makes; all three where
# none is named. example.c is one text for both models, and what it prints is expected.txt on either; both.c has a board of
# each model in one program, and prints expected-both.txt.
set -eu
cd "$(dirname "$0")/../.."
mkdir -p build
entry=crates/lend_entry/out/liblend_entry.a premium=crates/lend_premium/out/liblend_premium.a
[ $# -gt 0 ] || set -- entry premium both
for model in "$@"; do
    case $model in
    entry) source=(tests/c/example.c) archives=("$entry") expected=expected.txt ;;
    premium) source=(-DPREMIUM tests/c/example.c) archives=("$premium") expected=expected.txt ;;
    both) source=(tests/c/both.c) archives=("$entry" "$premium") expected=expected-both.txt ;;
    *)
        echo "usage: run.sh [entry | premium | both]" >&2
        exit 2
        ;;
    esac
    gcc -std=c99 -Wall -Wextra -Werror -Iinclude -fsyntax-only "${source[@]}"
    tools/cc.sh "build/example_$model" "${source[@]}" "${archives[@]}"
    tools/run.sh "build/example_$model" | diff "tests/c/$expected" -
done
