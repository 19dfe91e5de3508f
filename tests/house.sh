#!/bin/bash
# tools/rules.py, tools/contracts.py and ./test find what they are there to find: the text passes, and each copy with one thing wrong
# is refused, for that thing.
set -eu
cd "$(dirname "$0")/.."
work=$(mktemp -d)
trap 'rm -rf "$work"' EXIT
tried=0

# A fresh copy of the text in $work/text.
copy() {
    rm -rf "$work/text"
    mkdir "$work/text"
    tar -c --exclude=out crates docs tools | tar -x -C "$work/text"
}

# A fresh copy with one function more in this file, in front of the others.
with() {
    copy
    sed -i "1r /dev/stdin" "$work/text/crates/$1"
}

# The tool refuses the copy, as it was left, and says this.
refused() {
    if (cd "$work/text" && "tools/$1" ${3:-} >"$work/said"); then
        echo "tools/$1 took this: $2"
        exit 1
    fi
    if ! grep -qF "$2" "$work/said"; then
        echo "tools/$1 did not say this: $2"
        cat "$work/said"
        exit 1
    fi
    tried=$((tried + 1))
}

# Both tools take the copy, as it was left.
taken() {
    (cd "$work/text" && tools/rules.py && tools/contracts.py)
    tried=$((tried + 1))
}

copy
taken

# ---- rules.py: a public function takes every input
with text/src/number.rt <<'F'
pub fn hollow(buffer: &mut [u8], x: u8) -> u8
    requires small { x < 3 }
    ensures { result ≡ result }
{
    x
}
F
refused rules.py "number.rt:2: a public function with a requires"
refused contracts.py "text::number::hollow has a contract of a form that is not known"

with lend_entry/src/start.rt <<'F'
#[unsafe(no_mangle)] pub extern "C" fn hollow(x: u8) -> u8
    ensures { result ≡ less_of x x }
    requires small { x < 3 }
{
    x
}
F
refused rules.py "start.rt:2: a public function with a requires"

with board/src/shape.rt <<'F'
impl<const PAGES: usize> Row<PAGES> {
    pub fn hollow<const WIDE: usize>(&mut self, x: u8) -> u8
        requires small { x < 3 }
        ensures { result ≡ less_of x x }
    {
        x
    }
}
F
refused rules.py "shape.rt:3: a public function with a requires"
refused contracts.py "board::shape::Row::hollow does not determine what it leaves in self"

with text/src/number.rt <<'F'
pub(crate) fn inner(x: u8) -> u8
    requires small { x < 3 }
{
    x
}
F
taken

# ---- rules.py: long functions
copy
sed -i "s/^    b.live\[s\] = true;/&$(printf '\\n%.0s' {1..30})/" "$work/text/crates/calls/src/create.rt"
refused rules.py ": a function of "

# ---- rules.py: sizes
with text/src/number.rt <<'F'
const ROOM: usize = 32;
F
refused rules.py "number.rt:2: a size as a bare number"

with lend_code/specs/Inner.antt <<'F'
abbrev pub room : ℕ
room = 1024
F
refused rules.py "Inner.antt:3: a size as a bare number"

with board/src/shape.rt <<'F'
pub const ALMOST: Shape<8, 32, 256, 16> = Shape {};
F
refused rules.py "shape.rt:2: a size as a bare number"

# ---- rules.py: wrong programs
copy
rm "$work/text/crates/board/controls/every_call_refused.control"
refused rules.py "every_call_refused.edit:1: an edit with neither a control nor a reason why there is none"

copy
sed -i 's/every_call_refused/no_call_done/' "$work/text/docs/PROOF.md"
refused rules.py "every_call_refused.edit:1: an edit that docs/PROOF.md does not name"

# ---- contracts.py: what a clause may say
with board/src/shape.rt <<'F'
pub fn hollow(x: u8) -> u8 {
    x
}
F
refused contracts.py "board::shape::hollow has no contract"

with board/src/shape.rt <<'F'
pub fn hollow(x: u8) -> u8
    ensures { result ≡ result }
{
    x
}
F
refused contracts.py "board::shape::hollow has a contract of a form that is not known"

with board/src/shape.rt <<'F'
pub fn hollow(x: u8) -> u8
    ensures { result ≡ x ⊎ Any result }
{
    x
}
F
refused contracts.py "board::shape::hollow has a contract of a form that is not known"

with board/src/shape.rt <<'F'
pub fn hollow(buffer: &mut [u8])
    ensures { buffer.new ≡ buffer.new }
{
}
F
refused contracts.py "board::shape::hollow has a contract of a form that is not known"

# ---- contracts.py: what has to be determined
with board/src/shape.rt <<'F'
pub fn hollow(buffer: &mut [u8], out: &mut [u32; 4], x: u8) -> u8
    ensures { result ≡ less_of x x }
    ensures { out.new ≡ four_of x x }
{
    x
}
F
refused contracts.py "board::shape::hollow does not determine what it leaves in buffer"

with board/src/shape.rt <<'F'
pub fn hollow(buffer: &mut [u8]) -> u8
    ensures { buffer.new ≡ buffer.old }
{
    0
}
F
refused contracts.py "board::shape::hollow does not determine its result"

with board/src/shape.rt <<'F'
pub fn whole(buffer: &mut [u8], x: u8) -> u8
    ensures { result ≡ less_of x x }
    ensures { buffer.new ≡ buffer.old }
{
    0
}
F
taken

with board/src/shape.rt <<'F'
impl<const PAGES: usize> Row<PAGES> {
    pub fn hollow(&mut self, x: u8) -> u8
        ensures { result ≡ less_of x self.old.live }
    {
        x
    }
}
F
refused contracts.py "board::shape::Row::hollow does not determine what it leaves in self"

with board/src/shape.rt <<'F'
impl From<Row> for u32 {
    ghost from_gives = { λ r n. n ≡ n };

    fn from(row: Row) -> u32 {
        0
    }
}
F
refused contracts.py "board::shape::u32::from has no contract"

with board/src/shape.rt <<'F'
pub fn hollow(bytes: &mut [u8]) -> u8
    ensures { result ≡ less_of 1 bytes.entry }
{
    0
}
F
refused contracts.py "board::shape::hollow does not determine what it leaves in bytes"

with board/src/shape.rt <<'F'
pub fn hollow(bytes: &[u8]) -> Option<&[u8]>
    ensures { range_meant result ≡ less_of 1 bytes.now }
{
    None
}
F
refused contracts.py "board::shape::hollow does not determine what it hands back by reference"

with text/src/number.rt <<'F'
pub fn hollow(s: &[u8]) -> Option<(u32, &[u8])>
    ensures { read_off result ≡ number_of s.now }
{
    None
}
F
refused contracts.py "text::number::hollow has a contract of a form that is not known"

with board/src/shape.rt <<'F'
pub fn whole(bytes: &[u8]) -> &[u8]
    ensures { result ≡ bytes.entry }
{
    bytes
}
F
taken

with board/src/shape.rt <<'F'
struct Reading<'a> {
    bytes: &'a mut [u8],
}

pub fn hollow(reading: Reading<'_>) -> u8
    ensures { result ≡ less_of 1 1 }
{
    0
}
F
refused contracts.py "board::shape::hollow does not determine what it leaves in reading"

copy
sed -i 's/^    pub frame: u8,/&\n    pub steps: u8,/' "$work/text/crates/board/src/lines.rt"
refused contracts.py "board::lines::Board::lookup does not determine the field steps of its result"

copy
sed -i '/^    ensures first_checks /d' "$work/text/crates/calls/src/flush_range.rt"
refused contracts.py "calls::flush_range::flush_range does not determine its result"

copy
sed -i 's/outcome result (tables b.new)/outcome result (tables b.old)/' "$work/text/crates/calls/src/create.rt"
refused contracts.py "calls::create::create has a contract of a form that is not known"

# ---- contracts.py: a struct that holds what was lent
with text/src/write.rt <<'F'
pub fn hollow<'a>(buffer: &'a mut [u8], other: &mut [u8]) -> Writer<'a>
    ensures { result ≡ starting buffer.entry }
{
    Writer::new(buffer)
}
F
refused contracts.py "text::write::hollow does not determine what it leaves in other"

# ---- contracts.py: the theorem of a view
copy
sed -i 's/\bone_answer\b/one_reply/' "$work/text/crates/code_demands/proofs/Unique.antt"
refused contracts.py "wants a theorem one_answer in code_demands, Unique: one result by outcome"

copy
sed -i '/^pub one_load :/s/loaded //g' "$work/text/crates/code_demands/proofs/Unique.antt"
refused contracts.py "wants a theorem one_load in code_demands, Unique: one result by loaded"

copy
sed -i '/^pub one_store :/,/^one_store /s/ × (m ≡ n)$//' "$work/text/crates/code_demands/proofs/Unique.antt"
refused contracts.py "wants a theorem one_store in code_demands, Unique: one result by stored"

copy
sed -i '/^pub one_range :/s/range_meant \([rs]\)/range_meant (Some \1)/g' "$work/text/crates/code_demands/proofs/Unique.antt"
refused contracts.py "wants a theorem one_range in code_demands, Unique: one result by range_meant"

copy
sed -i '/^pub one_check :/s/answer_of s ≡ meaning/answer_of refusal ≡ meaning/' "$work/text/crates/code_demands/proofs/Unique.antt"
refused contracts.py "wants a theorem one_check in code_demands, Unique: one result by answer_of"

copy
sed -i '/^pub one_check :/s/answer_of s ≡ meaning/r ≡ s/' "$work/text/crates/code_demands/proofs/Unique.antt"
refused contracts.py "wants a theorem one_check in code_demands, Unique: one result by answer_of"

copy
sed -i 's/\.{tables}/.{nothing as tables}/' "$work/text/crates/calls/src/start.rt"
refused contracts.py "calls::start::start has another tables than the theorem one_board"

copy
sed -i 's/\.{tables}/.{nothing as tables}/' "$work/text/crates/calls/src/create.rt"
refused contracts.py "calls::create::create has another tables than the theorem one_board"

# ---- contracts.py: the page
copy
sed -i '/calls::flush::flush/d' "$work/text/docs/CONTRACTS.md"
refused contracts.py "docs/CONTRACTS.md is not what tools/contracts.py makes" --check

# ---- ./test: a step that tried nothing
eval "$(sed -n '/^count() {/,/^}/p; /^counted() {/,/^}/p; /^merge_gate() {/,/^}/p' test)"
passed=0 failed=0
counted "all is well" . echo "3 passed, 0 failed" >"$work/said"
counted "nothing is tried" . echo "0 passed, 0 failed" >>"$work/said"
if [ "$passed $failed" != "3 1" ]; then
    echo "./test took a step that tried nothing"
    cat "$work/said"
    exit 1
fi

# ---- ./test: what rt ci says of a must-fail edit that it could not try
rt() {
    printf '%s\n' "$said" "3 passed, 0 failed"
}
passed=0 failed=0
said="rt: ok; handles allowed: none; must-fail edits: 2 refused; done in this run: 1 of the 1 proofs"
counted "all edits are refused" . merge_gate >"$work/said"
said="rt: ok; handles allowed: none; must-fail edits: 2 refused, 1 bad; done in this run: 1 of the 1 proofs"
counted "an edit is bad" . merge_gate >>"$work/said"
said="rt: a and the crates below passed"
counted "it is not the gate" . merge_gate >>"$work/said"
unset -f rt
if [ "$passed $failed" != "3 2" ]; then
    echo "./test took a bad must-fail edit"
    cat "$work/said"
    exit 1
fi

echo "$((tried + 2)) passed, 0 failed"
