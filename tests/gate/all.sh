#!/bin/sh
# What `make test` runs: what it wants is installed (install.sh); then every proof, every wrong body that has a name,
# every test and program from nothing (rt ci), and the tests of tests/ over the program that it built (scripts.sh).
# It tells what that cost by kind, and ends with what wasn't tried, a line a reason, and 'N passed, M failed, K skipped'. With
# FARM_STRICT=1 what isn't tried counts as failed. The further wrong bodies are only read: `make wrong` tries them.
set -u
cd "$(dirname "$0")/../.." || exit 1
sh tests/gate/install.sh test
command -v rt > /dev/null || {
    echo "make test: there is no rt on PATH: it wants the Rattle toolchain (README.md says which)"
    exit 1
}
folder=$(mktemp -d)
trap 'rm -r "$folder"' EXIT
trap 'echo "make test: interrupted"; exit 130' INT TERM
. tests/gate/counting.sh

# One process to a proof, and as many proofs side by side as there are processors, each with room for 7 GB: several
# processes to one proof take more of the processor in all.
proofs=$(nproc)
room=$(awk '/^MemAvailable:/ { print int($2 / 7000000) }' /proc/meminfo)
[ "$room" -ge "$proofs" ] || proofs=$room
[ "$proofs" -ge 1 ] || proofs=1

status=0
counting proofs env RT_JOBS="${RT_JOBS:-$proofs}" rt ci || status=1
costing "tests of scripts" timeout -k 10 1200 python3 tests/gate/waves.py --read || status=1
if [ "$status" = 0 ]; then
    counting "tests over the program" sh tests/gate/scripts.sh crates/farm/out/farm crates/farm_play/out/farm_play || status=1
else
    left_out "the tests of tests/" "no program was proved"
fi
python3 tests/gate/costs.py "$folder/costs"
[ "$failed" = 0 ] || status=1
told
exit "$status"
