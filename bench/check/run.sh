#!/bin/sh
# run.sh [GRAPH..]: makes the certificates that are missing, and prints the table of times; without words of all graphs.
# NOW=PROGRAM measures that executable of overlay-check, in place of this repository's, which is built where it is
# missing.
# BEFORE=PROGRAM measures an earlier executable beside it.
set -e
here=$(dirname "$(readlink -f "$0")")
root=$(readlink -f "$here/../..")
now=${NOW:-$root/crates/overlay_check/out/overlay_check}
if [ $# -eq 0 ]; then
    set -- ring-200 regular-256 regular-256-group all-but-one-256 half-256 regular-1024 dense-1024
fi

mkdir -p "$here/out"
for graph; do
    file=$here/out/$graph.json
    if [ ! -f "$file" ]; then
        python3 "$here/certify.py" "$graph" "$file.part"
        mv "$file.part" "$file"
    fi
done

if [ -z "$NOW" ] && [ ! -x "$now" ]; then
    "$root/bin/build" overlay-check > "$here/out/build.log"
fi

python3 "$here/measure.py" ${BEFORE:+--before "$BEFORE"} "$now" "$@"
