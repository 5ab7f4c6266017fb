#!/bin/sh
# What all.sh and check.sh share: counts, and what was left out. They set `folder`, a folder of their own.
# shellcheck disable=SC2154 # (they do)
passed=0
failed=0
skipped=0

# Runs a command, and keeps what it cost under a kind.
costing() {
    python3 tests/gate/costs.py "$folder/costs" "$@"
}

# Runs a command and keeps what it cost under a kind; its last line 'N passed, M failed', or with ', K skipped', is
# added to the sums, and its lines 'not tried: ..' are kept.
counting() {
    {
        costing "$@"
        echo $? > "$folder/status"
    } 2>&1 | tee "$folder/said"
    counts=$(sed -n 's/^\([0-9]*\) passed, \([0-9]*\) failed$/\1 \2 0/p
        s/^\([0-9]*\) passed, \([0-9]*\) failed, \([0-9]*\) skipped$/\1 \2 \3/p' "$folder/said" | tail -n 1)
    # shellcheck disable=SC2086 # (three numbers)
    set -- ${counts:-0 1 0}
    passed=$((passed + $1))
    failed=$((failed + $2))
    skipped=$((skipped + $3))
    sed -n 's/^not tried: //p' "$folder/said" >> "$folder/left"
    return "$(cat "$folder/status")"
}

# Counts something that was left out: NAME, and why. With FARM_STRICT=1 that is a failure.
left_out() {
    if [ "${FARM_STRICT-}" = 1 ]; then
        failed=$((failed + 1))
    else
        skipped=$((skipped + 1))
    fi
    echo "$1 ($2)" >> "$folder/left"
}

# Prints what was left out, and the sums.
told() {
    [ ! -s "$folder/left" ] || sed 's/^/not tried: /' "$folder/left"
    echo "$passed passed, $failed failed, $skipped skipped"
}
