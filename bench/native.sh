#!/bin/bash
# native.sh NAME: has the kit prove and compile the crate NAME, keeps the LLVM module that the kit's compiler hands to its clang, and
# compiles that very module for the machine at hand: build/native/NAME.o. The kit itself compiles for x86-64 only.
# Nothing is done where the object is newer than every crate. Run it at the top of the repository.
set -eu
name=$1
out=$PWD/build/native
object=$out/$name.o
if [ -f "$object" ] && [ -z "$(find crates crates.txt bench/native.sh -name out -prune -o -type f -newer "$object" -print -quit)" ]; then exit 0; fi
kit=$(dirname "$(dirname "$(readlink -f "$(command -v rt)")")")
clang=$kit/toolchain/bin/clang
work=$(mktemp -d)
trap 'rm -rf "$work"' EXIT
mkdir -p "$out"

# A folder that is the kit by links, save for three files: a copy of rt, which looks for the kit where it stands itself; and its clang
# keeps the module and then is the kit's clang.
mkdir -p "$work/kit/bin" "$work/kit/toolchain/bin"
cp "$kit/bin/rt" "$kit/bin/rtlib.py" "$work/kit/bin/"
for part in "$kit"/* "$kit/bin"/* "$kit/toolchain"/* "$kit/toolchain/bin"/*; do
    place=$work/kit/${part#"$kit/"}
    if [ "$part" != "$clang" ] && [ ! -e "$place" ]; then ln -s "$part" "$place"; fi
done
cat >"$work/kit/toolchain/bin/clang" <<END
#!/bin/sh
for word in "\$@"; do
    case \$word in *.bc | *.ll) cp "\$word" "$work/module" ;; esac
done
exec "$clang" "\$@"
END
chmod +x "$work/kit/toolchain/bin/clang"

# A program is compiled when it is run, unless its stamp says that it has been; a library when its archive is asked for.
if [ -f "crates/$name/src/main.rt" ]; then
    rm -f "crates/$name/out/$name.stamp"
    task=run
else
    task=lib
fi
if ! (cd "crates/$name" && "$work/kit/bin/rt" "$task") >"$out/$name.log" 2>&1 </dev/null || [ ! -f "$work/module" ]; then
    tail -n 20 "$out/$name.log" >&2
    echo "native.sh: the kit handed no module of $name to its clang" >&2
    exit 2
fi

# As text, with no pass run over it, to take the name of the x86-64 processor out; then compiled as the kit does, for this machine.
"$clang" -Wno-override-module -x ir "$work/module" -O3 -Xclang -disable-llvm-passes -S -emit-llvm -o "$work/text.ll"
sed -e 's/"target-cpu"="[^"]*"//' "$work/text.ll" >"$out/$name.ll"
"$clang" -x ir "$out/$name.ll" -O3 -fPIC -ffunction-sections -fdata-sections -mllvm -trap-unreachable -mllvm -no-trap-after-noreturn \
    -c -o "$object"
