#!/bin/sh
# Runs the tests of tests/ over a built program and a player of transcripts, side by side, three a processor, since
# most of their time is waiting:
#     sh tests/gate/scripts.sh PROGRAM PLAYER [pytest's words]
# The last lines are 'not tried: WHAT (why)', one a reason, where something was left out, and 'N passed, M failed, K skipped'.
set -u
cd "$(dirname "$0")/../.." || exit 1
farm=$1 player=$2
shift 2
for python in python3 /usr/bin/python3; do
    "$python" -c 'import pytest, xdist, pytest_timeout' 2> /dev/null || continue
    # (what they are compiled to is kept, since else each of the processes would compile all of them)
    unset PYTHONDONTWRITEBYTECODE
    "$python" -m pytest tests --farm "$farm" --collect-only -q > /dev/null 2>&1
    # shellcheck disable=SC2093 # (the next one is tried only where this one has no pytest)
    exec "$python" -m pytest tests --farm "$farm" --player "$player" -q -n "$(($(nproc) * 3))" --dist loadgroup "$@"
done
echo "not tried: the tests of tests/ (no Python here has pytest, pytest-xdist and pytest-timeout)"
if [ "${FARM_STRICT-}" = 1 ]; then
    echo "0 passed, 1 failed, 0 skipped"
    exit 1
fi
echo "0 passed, 0 failed, 1 skipped"
