#!/bin/sh
# Measures everything beside its peers: sh bench/all.sh bin/farm [ROUNDS]
# First the table of instructions and memory, on one screen, which a busy machine leaves as it is; then, with ROUNDS,
# the times, in so many rounds that alternate: they want a machine with nothing else to do, and with five rounds half
# an hour. It wants cc, SQLite's header, library and shell, valgrind (else the table tells times), and gnuplot for the
# times; and crates/farm_bench/out/farm_bench, which make test leaves.
set -eu
farm=$(realpath "$1")
cd "$(dirname "$0")/.."
passes=$PWD/crates/farm_bench/out/farm_bench
[ -x "$passes" ] || (cd crates/farm_bench && rt run > /dev/null)
folder=$(mktemp -d ./bench-XXXXXX)
trap 'rm -r "$folder"' EXIT
sh bench/reader.sh "$folder/kit_reader"
python3 bench/table.py "$farm" "$passes" "$folder/kit_reader" "$folder"
[ $# -gt 1 ] || exit 0
for what in commands views open full waiting migrate growth; do
    echo "== $what"
    python3 bench/compare.py "$what" "$farm" "$folder" "$2"
done
echo "== passes"
python3 bench/compare.py passes "$passes" "$folder" "$2"
