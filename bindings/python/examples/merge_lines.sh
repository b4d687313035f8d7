#!/bin/sh
# Passes that memory does not hold: hex lines, which the system's own tools sort on disk, merge and compare. `rowstation encode` and
# `decode` take any number of rows in little memory; LC_ALL=C makes sort and comm compare bytes.
#
#   merge_lines.sh A.csv B.csv COLUMNS [WORDS for encode...]
set -eu
a=$1 b=$2 columns=$3
shift 3
rowstation=${ROWSTATION:-python3 -m rowstation}
export LC_ALL=C
work=$(mktemp -d)
trap 'rm -rf "$work"' EXIT

# Each pass in parts, as they come from the machine: sorted part by part, then merged.
for pass in a b; do
    eval "file=\$$pass"
    $rowstation encode "$file" --columns "$columns" "$@" -o "$work/$pass.hex"
    split -l 3 "$work/$pass.hex" "$work/$pass.part."
    for part in "$work/$pass.part."*; do sort -o "$part" "$part"; done
    sort -m -u "$work/$pass.part."* >"$work/$pass.sorted"
done

# A line in both is ink, a line in one is dust.
comm -12 "$work/a.sorted" "$work/b.sorted" >"$work/ink"
comm -23 "$work/a.sorted" "$work/b.sorted" >"$work/dust.a"
comm -13 "$work/a.sorted" "$work/b.sorted" >"$work/dust.b"
for what in ink dust.a dust.b; do
    echo "$what:"
    $rowstation decode "$work/$what" --columns "$columns" | tail -n +2
done
