#!/bin/sh
# Builds the desk's program without its proofs, within minutes:
#     sh tests/gate/unproved.sh TO
# `rt try` compiles crates/farm; what it makes of it, before its own checks slow it down, is compiled to the program TO,
# which is as fast as the proved one. Nothing of it is proved.
set -eu
cd "$(dirname "$0")/../.."
. tests/gate/modules.sh
to=$1
kit=$(dirname "$(realpath "$(command -v rt)")")/..
folder=$(mktemp -d)
trying=
trap '[ -z "$trying" ] || kill "$trying" 2> /dev/null; wait; rm -rf "$folder"' EXIT
trap 'exit 130' INT TERM
# shellcheck disable=SC2046 # (the words are names)
(cd crates/farm && TMPDIR=$folder exec rt try --steps 1 --seconds 300 -- $(cat args)) \
    < crates/farm/stdin > "$folder/said" 2> "$folder/errors" &
trying=$!
until take_module "$folder" || ! kill -0 "$trying" 2> /dev/null; do sleep 0.2; done
[ -e "$folder/module.bc" ] || {
    tail -n 15 "$folder/errors"
    exit 1
}
kill "$trying" 2> /dev/null || :
wait "$trying" 2> /dev/null || :
trying=
sh tests/gate/without_checks.sh "$kit" "$folder/module.bc" "$folder/farm"
mkdir -p "$(dirname "$to")"
mv "$folder/farm" "$to"
