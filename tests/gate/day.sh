#!/bin/sh
# A day of the example lab, shown to a newcomer: the desk is built without its proofs (unproved.sh), served in a folder
# of its own with its dispatcher, and asked by the client `desk`, each command beside what it prints. What it built it
# leaves at bin/farm-unproved.
set -eu
cd "$(dirname "$0")/../.."
for program in rt python3; do
    command -v "$program" > /dev/null || {
        echo "make run: there is no $program on PATH: it wants the Rattle toolchain (README.md says which), whose rt is in Python"
        exit 1
    }
done
. tests/gate/modules.sh
top=$PWD
farm=$top/bin/farm-unproved
is_new "$farm" || {
    echo "make run: builds bin/farm-unproved, the desk without its proofs, which takes two or three minutes"
    sh tests/gate/unproved.sh "$farm"
}
lab=$(mktemp -d)
serving=
dispatching=
waiting=
# shellcheck disable=SC2086 # (those that run)
trap 'kill $serving $dispatching $waiting 2> /dev/null; wait; rm -rf "$lab"' EXIT
trap 'exit 130' INT TERM
port=$(python3 -c 'import socket; it = socket.socket(); it.bind(("127.0.0.1", 0)); print(it.getsockname()[1])')
export DESK_SERVER="http://127.0.0.1:$port" DISPATCH_SERVER="http://127.0.0.1:$port"
PATH=$top/tools:$PATH

say() {
    printf '\n# %s\n' "$*"
}

# Shows a command, and what it prints, which `printed` has afterwards.
shown() {
    echo "\$ $*"
    "$@" > "$lab/printed" 2>&1 || echo "(status $?)" >> "$lab/printed"
    cat "$lab/printed"
}

# The number that the last command printed first.
number() {
    grep -m 1 -x '[0-9]*' "$lab/printed"
}

serve() {
    "$farm" serve --db "$lab/lab.db" --port "$port" --max 100000 > /dev/null &
    serving=$!
    for _ in $(seq 100); do
        desk types > /dev/null 2>&1 && return
        sleep 0.1
    done
}

# Waits until a command prints something.
until_printed() {
    words=$1
    shift
    for _ in $(seq 300); do
        "$@" 2>&1 | grep -q "$words" && return
        sleep 0.1
    done
}

say "A farm is a file. The desk serves it, and takes the boards of the lab from examples/lab.toml."
echo "\$ bin/farm-unproved init --db lab.db"
"$farm" init --db "$lab/lab.db"
serve
farm-dispatch --folder "$lab/jobs" --every 1 examples/run-job > "$lab/dispatcher" 2>&1 &
dispatching=$!
shown desk import examples/lab.toml
for board in rpi4b-01 rpi4b-02 bbb-01 bbb-02 bbb-03; do desk --user admin health "$board" Good; done
say "The admin has set five boards Good. Ann reserves the one with a display, and Bob waits for it."
shown desk --user ann reserve hdmi gigabit --acquire
reservation=$(number)
desk --user bob reserve hdmi gigabit --acquire > "$lab/bob" 2> "$lab/why" &
waiting=$!
until_printed waiting cat "$lab/why"
echo "\$ desk --user bob reserve hdmi gigabit --acquire"
head -n 1 "$lab/why"
say "A job for three boards starts with all of them or not at all. This lab's examples/run-job only says what it would do."
shown desk --user ann submit examples/multinode.toml --wait
shown desk --history "$lab/jobs" log "$(number)"
say "The desk is killed, as by a power cut, and started again: Ann still has her board."
kill -9 "$serving"
wait "$serving" 2> /dev/null || :
serve
shown desk boards rpi4b-02
say "A command that is sent twice under one key is done once: both print the number of the one job."
for _ in 1 2; do shown desk --user ann submit --key nightly-1 examples/boot.toml; done
say "Bob isn't the admin."
shown desk --user bob health rpi4b-02 Retired
say "Ann gives her board back, and Bob gets it."
shown desk --user ann cancel-reservation "$reservation"
until_printed rpi cat "$lab/bob"
echo "\$ desk --user bob reserve hdmi gigabit --acquire     # it goes on"
cat "$lab/bob"
cat << EOT

That was a build without proofs. 'make bin' proves the desk and builds bin/farm in half an hour. To go on with this one:
    bin/farm-unproved init --db lab.db && bin/farm-unproved serve --db lab.db --port 9080 --max 100000 &
    export DESK_SERVER=http://127.0.0.1:9080 DISPATCH_SERVER=http://127.0.0.1:9080; tools/desk import examples/lab.toml
    tools/farm-dispatch --folder jobs examples/run-job & tools/farm-page --server \$DESK_SERVER --folder jobs
EOT
