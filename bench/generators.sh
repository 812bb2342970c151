#!/bin/sh
# Measures the generators: runs the small program generators.rattle over the crate dutch_arrangements, in a folder of its own. Steps are
# exact; the times are those of a trial build, which is not optimised. (The program is no crate of the repository, so it does not end in
# .rt.)
set -e
here=$(cd "$(dirname "$0")" && pwd)
work=$(mktemp -d)
trap 'rm -rf "$work"' EXIT
mkdir "$work/crates"
cp -r "$here/../crates/dutch_sequence" "$here/../crates/dutch_arrangements" "$work/crates"
mkdir -p "$work/crates/generators/src"
cp "$here/generators.rattle" "$work/crates/generators/src/main.rt"
printf 'dutch_sequence: arrayvec\ndutch_arrangements: dutch_sequence arrayvec itoa thiserror\ngenerators: dutch_arrangements\n' > "$work/crates.txt"
cd "$work/crates/generators"
rt try
