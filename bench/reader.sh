#!/bin/sh
# Proves and builds what the kit's `sqlite` alone takes of opening a farm: sh bench/reader.sh PROGRAM
# It is no crate of this repository, whose gate would have to build the whole of `sqlite` once more for it. It is
# proved and built as bin/farm is, in a folder of its own, in a few minutes.
set -eu
program=$(realpath -m "$1")
here=$(realpath "$(dirname "$0")")
folder=$(mktemp -d)
trap 'rm -r "$folder"' EXIT
mkdir -p "$folder/crates/kit_reader/src"
cp "$here/../HANDLES" "$folder/"
cp "$here/kit_reader.rattle" "$folder/crates/kit_reader/src/main.rt"
echo 'kit_reader: sqlite anyhow' > "$folder/crates.txt"
cd "$folder/crates/kit_reader"
rt run -- "$folder/new.db" < /dev/null > "$folder/said" 2>&1 || {
    cat "$folder/said"
    exit 1
}
cp out/kit_reader "$program"
