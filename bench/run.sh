#!/bin/sh
# run.sh BENCH [FOLDER]: lays the program of bench/BENCH and the crates that it uses into FOLDER, or into a new folder,
# proves and builds it there, and runs it. Where the bench has the same in plain Rust, that is built too, and runs
# first. The bench's uses.txt is its program's line in crates.txt, its folder proofs, if there is one, the program's;
# what those crates use is found in the crates.txt of this repository. With UNPROVED=1 nothing is proved, so that it is
# built soon (see build-unproved); with CRATES=CHECKOUT the crates are those of another checkout, so that commits
# can be compared by one program; with BUILD_ONLY=1 nothing is run, and the program is
# FOLDER/crates/bench_BENCH/out/bench_BENCH.
set -e
root=$(readlink -f -- "$(dirname -- "$(readlink -f -- "$0")")/..")
bench=$root/bench/$1
crates=${CRATES:-$root}
if [ -z "$1" ] || [ ! -f "$bench/uses.txt" ]; then
    echo 'usage: run.sh crew|hall|net|packets|peer|settle|wire [FOLDER]' >&2
    exit 2
fi
work=${2:-$(mktemp -d)}
mkdir -p "$work"
work=$(cd "$work" && pwd)
program=$work/crates/bench_$1
mkdir -p "$program/src" "$program/specs" "$program/proofs"

# the line of each crate of this repository that a line uses, and of those that these use, each once
below() {
    awk -F: '
        function take(names, count, list, i) {
            count = split(names, list, " ")
            for (i = 1; i <= count; i++)
                if (list[i] in line && !(list[i] in taken)) {
                    taken[list[i]]
                    print line[list[i]]
                    take(uses[list[i]])
                }
        }
        FNR == NR { line[$1] = $0; uses[$1] = $2; next }
        { take($2) }
    ' "$crates/crates.txt" "$1"
}

below "$bench/uses.txt" > "$work/crates.txt"
for crate in $(cut -d : -f 1 "$work/crates.txt"); do
    cp -r "$crates/crates/$crate" "$work/crates/"
done
cat "$bench/uses.txt" >> "$work/crates.txt"
cp "$bench/bench_$1.rt.txt" "$program/src/main.rt"
: > "$program/specs/Lib.antt"
: > "$program/proofs/Lib.antt"
if [ -d "$bench/proofs" ]; then
    cp -r "$bench/proofs" "$program/"
    # their names end in .txt here, since `rt ci` takes no file of proofs outside a crate
    find "$program/proofs" -name '*.antt.txt' -exec sh -c 'mv "$1" "${1%.txt}"' _ {} \;
fi
if [ -f "$bench/plain.rs" ]; then
    rustc -O -o "$work/plain" "$bench/plain.rs"
fi
cd "$program"
if [ -n "$UNPROVED" ]; then
    mkdir -p out
    "$root/bench/build-unproved" "$work" "bench_$1" "out/bench_$1"
else
    rt run > "$work/build.log" 2>&1 || { tail -20 "$work/build.log"; exit 1; }
fi
if [ -n "$BUILD_ONLY" ]; then
    exit 0
fi
if [ -f "$bench/plain.rs" ]; then
    echo "plain Rust"
    "$work/plain"
    echo "Rattle"
fi
"./out/bench_$1"
