#!/bin/sh
# What scripts over the program share; the first word is the program's path.
# `farm` is that path and `folder` a new folder, which is taken away at the end, as the process `server` is, where
# there is one. `shown` says what a part of the script has shown, `left_out` what isn't tried and why, and `fail` what
# went wrong, and ends it. The last lines are 'not tried: NAME (why), ..', if anything was left out, and
# 'N passed, M failed, K skipped'. With FARM_STRICT=1 what is left out makes it end with 1.
farm=$(realpath "$1")
folder=$(mktemp -d)
server=
passed=0 failed=0 skipped=0
left=
finish() {
    [ $? = 0 ] || failed=1
    [ -z "$server" ] || kill "$server" 2> /dev/null || :
    chmod -R u+w "$folder"
    rm -r "$folder"
    [ -z "$left" ] || echo "not tried: $left"
    echo "$passed passed, $failed failed, $skipped skipped"
    [ "$failed" = 0 ] || exit 1
    [ "${FARM_STRICT-}" != 1 ] || [ "$skipped" = 0 ] || exit 1
}
trap finish EXIT

shown() {
    passed=$((passed + 1))
    echo "$(basename "$0" .sh): $*"
}

# Leaves out a part: NAME WHY
left_out() {
    skipped=$((skipped + 1))
    left="$left${left:+, }$1 ($2)"
}

fail() {
    echo "$(basename "$0" .sh): $*"
    exit 1
}

# Serves as `serve_file` does, on the port `port`; 1 where another has it.
listens() {
    : > "$folder/listening"
    "$farm" serve --db "$1" --port $port --max "$2" > "$folder/listening" 2> "$folder/told" &
    server=$!
    while [ "$(wc -l < "$folder/listening")" -eq 0 ]; do
        if ! kill -0 "$server" 2> /dev/null; then
            server=
            [ "$(cat "$folder/told")" = 'farm: 80 read fault' ] || fail "serve told '$(cat "$folder/told")'"
            return 1
        fi
        sleep 0.01
    done
}

# Serves the farm in file $1 for $2 connections on a free port, `port`, as the process `server`, which listens then.
# The port is below those that the system gives to whoever asks for any.
serve_file() {
    port=$((20000 + $$ % 12000))
    until listens "$1" "$2"; do
        port=$((port + 1))
    done
}
