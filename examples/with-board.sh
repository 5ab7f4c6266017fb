#!/bin/sh
# A test on a board of the farm, from a terminal, cron or any runner of jobs: sh with-board.sh TAG ..
# It begins itself once more with a board that has these tags. The board is given back however the test ends: by
# itself, by Ctrl-C, or by the SIGTERM of a runner. The exit status is the test's (desk(1), with).
set -eu
if [ -z "${RESERVATION:-}" ]; then
    exec desk with "$@" -- sh "$0"
fi

# ---- the test, with BOARD, BOARD_TYPE, BOARD_TAGS and RESERVATION; the lab's own commands stand here
echo "testing $BOARD, a $BOARD_TYPE, under reservation $RESERVATION"
for tag in $BOARD_TAGS; do
    case $tag in
        power=*) echo "its power comes from ${tag#power=}" ;;
    esac
done
