#!/bin/sh
# Measures whether the rounds of reports/ can be paired at all (C.04.3 A.9): runs the small program completion.rattle over the crate
# dutch_completion, in a folder of its own, over all reports of the folder reports/ beside it, or of the folder given. Steps are exact; the times
# are those of a trial build, which is not optimised. (The program is no crate of the repository, so it does not end in .rt.)
set -e
here=$(cd "$(dirname "$0")" && pwd)
reports=$(cd "${1:-$here/reports}" && pwd)
work=$(mktemp -d)
trap 'rm -rf "$work"' EXIT
mkdir "$work/crates"
for crate in trf16_report trf16_reader dutch_player dutch_sequence dutch_arrangements dual matching dutch_bracket dutch_completion; do
    cp -r "$here/../crates/$crate" "$work/crates/$crate"
done
mkdir -p "$work/crates/completion/src"
cp "$here/completion.rattle" "$work/crates/completion/src/main.rt"
{
    grep -E '^(trf16_report|trf16_reader|dutch_player|dutch_sequence|dutch_arrangements|dual|matching|dutch_bracket|dutch_completion):' "$here/../crates.txt"
    echo 'completion: dutch_completion dutch_bracket dutch_player dutch_arrangements trf16_reader trf16_report arrayvec'
} > "$work/crates.txt"
set --
names=
for report in "$reports"/*.trf; do
    name=$(basename "$report")
    set -- "$@" --data "$name=$report"
    names="$names $name"
done
cd "$work/crates/completion"
rt try --seconds 600 "$@" -- $names
