#!/bin/sh
# Measures the candidates of a bracket: runs the small program candidates.rattle over the crate dutch_listing, in a folder of its own. Steps
# are exact; the times are those of a trial build, which is not optimised. (The program is no crate of the repository, so it does not end in
# .rt.)
set -e
here=$(cd "$(dirname "$0")" && pwd)
work=$(mktemp -d)
trap 'rm -rf "$work"' EXIT
mkdir "$work/crates"
cp -r "$here/../crates/dutch_sequence" "$here/../crates/dutch_arrangements" "$here/../crates/dutch_listing" "$work/crates"
mkdir -p "$work/crates/candidates/src"
cp "$here/candidates.rattle" "$work/crates/candidates/src/main.rt"
printf 'dutch_sequence: arrayvec\ndutch_arrangements: dutch_sequence arrayvec itoa thiserror\ndutch_listing: dutch_arrangements dutch_sequence\ncandidates: dutch_listing dutch_arrangements arrayvec\n' > "$work/crates.txt"
cd "$work/crates/candidates"
rt try
