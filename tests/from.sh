#!/bin/bash
# from.sh PROGRAM [WORDS..]: what board-script --from does with files that are no listing: those that cannot be read, and one that is cut
# where the program stops reading. Says what went wrong, and exits 1 where something did.
set -u
work=$(mktemp -d)
trap 'rm -rf "$work"' EXIT
status=0

# expect NAME STATUS OUTPUT FILE: the exit status and the output from that file; what cannot be read is said on standard error.
expect() {
    local name=$1 wanted=$2 output=$3 got code
    got=$("${program[@]}" --from "$4" </dev/null 2>"$work/said")
    code=$?
    if [ "$code" -ne "$wanted" ] || [ "$got" != "$output" ] || { [ "$wanted" -eq 0 ] && [ -s "$work/said" ]; } ||
        { [ "$wanted" -ne 0 ] && [ ! -s "$work/said" ]; }; then
        echo "from.sh: $name: exit $code, and: $got"
        status=1
    fi
}

program=("$@")
: >"$work/empty"
# 65,536 bytes that end with a last line, all pages the same; then a byte more
python3 - >"$work/limit" <<'END'
short, long = 'space=1 page=1 parent=0 at=5 rights=7\n', 'space=1 page=1 parent=0 at=15 rights=7\n'
first, last = 'live=3\n', 'held=9\n'
left = 65536 - len(first + last)
few = next(n for n in range(len(long)) if (left - n * len(long)) % len(short) == 0)
print(first + few * long + (left - few * len(long)) // len(short) * short + last, end='x')
END
head -c 65535 "$work/limit" >"$work/cut"
expect "no file" 2 "" "$work/none"
expect "a folder" 2 "" "$work"
expect "an empty file" 0 answer=17 "$work/empty"
expect "a file that goes on after what is read" 0 answer=18 "$work/limit"
expect "a file cut in its last line" 0 answer=17 "$work/cut"
expect "a pipe" 0 "$(printf 'live=7\nheld=0')" <(printf 'live=7\nheld=0\n')
exit $status
