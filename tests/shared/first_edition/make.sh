#!/bin/sh
# Makes the farm of this folder anew, by a program of the first edition, and shows it:
#     sh tests/shared/first_edition/make.sh PROGRAM FOLDER
# FOLDER, which has no farm yet, then has lab.db and lab.db-wal as the program left them, and shown.txt, what it
# printed of a copy of them. README.md says which program that was, and how the farm stands.
set -eu
here=$(cd "$(dirname "$0")" && pwd)
program=$(realpath "$1")
examples=$(realpath "$here/../../../examples")
cd "$2"
[ ! -e lab.db ] && [ ! -e lab.db-wal ] || { echo "make: there is a farm in $2" >&2; exit 1; }
begun=1795600000

# A command, which is accepted, and its answer's body: SECOND WHO PATH, and a body and a key.
does() {
    {
        printf 'POST %s HTTP/1.1\r\nx-user: %s\r\n' "$3" "$2"
        [ -z "${5-}" ] || printf 'x-key: %s\r\n' "$5"
        printf 'content-length: %d\r\n\r\n%s' "$(printf '%s' "${4-}" | wc -c)" "${4-}"
    } | "$program" once --db lab.db --at $((begun + $1)) > answer ||
        { echo "make: at $1 $2's POST $3 is answered: $(tail -n 1 answer)" >&2; exit 1; }
    echo "$1 $2 $3 $(tail -n 1 answer)"
}

health() {
    does "$1" admin "/boards/$2/health" "{\"health\":\"$3\"}"
}

pass() {
    does "$1" dispatcher /pass '' "${2-}"
}

starts() {
    does "$1" dispatcher "/jobs/$2/start" '' "${3-}"
}

finishes() {
    does "$1" dispatcher "/jobs/$2/finish" "{\"outcome\":\"$3\"}" "${4-}"
}

# A job of one emulated board: SECOND WHO TEXT, and a key.
submits() {
    does "$1" "$2" /jobs "job_name = \"$3\"
device_type = \"qemu-aarch64\"
" "${4-}"
}

"$program" init --db lab.db
"$program" import --db lab.db --at $begun "$examples/lab.toml"

# ---- boards of each health
for board in bbb-01 bbb-02 bbb-03 rpi4b-01 rpi4b-02 rpi4b-03 qemu-01 qemu-02 qemu-04; do
    health 10 $board Good
done
health 11 qemu-03 Unknown
health 12 rpi4b-04 Retired
does 13 admin /boards/qemu-02/tags '{"tags":["virtual","slow"]}'

# ---- checks: one is complete, one isn't, one runs; a reservation that waits in vain
does 20 ann /jobs "$(cat "$examples/boot.toml")" nightly-1 # 1
does 21 erin /reservations '{"tags":["can"],"priority":0}' # 2
pass 30 pass-1                                             # makes the checks 3, 4 and 5
starts 40 3
finishes 45 3 Complete finish-3
starts 46 4
finishes 47 4 Incomplete
starts 48 5

# ---- jobs that ended, that are canceled while they run, that run
pass 60
starts 70 1 start-1
finishes 80 1 Complete
submits 85 ann "ends by the lab's fault" # 6
submits 86 bob 'canceled while it runs'  # 7
submits 87 carol 'ładuje \"jądro\"'      # 8
pass 90
starts 91 6
finishes 92 6 Infra
starts 93 7
does 94 bob /jobs/7/cancel '' cancel-7
starts 95 8

# ---- a group that waits, one that is scheduled, a job that is, one that was canceled; reservations in each state
does 100 dave /jobs "$(cat "$examples/multinode.toml")" # 9, 10 and 11
does 101 frank /jobs 'job_name = "two boards"
priority = "high"
[roles.left]
device_type = "rpi4b"
count = 1
[roles.right]
device_type = "rpi4b"
count = 1' # 12 and 13
submits 102 dave 'has its board'                                               # 14
submits 103 ann 'canceled while it waits'                                      # 15
does 104 ann /jobs/15/cancel
does 105 erin /reservations '{"tags":["name=rpi4b-03"]}' reserve-1             # 16
does 106 erin /reservations '{"tags":["kvm"]}'                                 # 17
does 107 grace /reservations '{"tags":["hdmi","serial"],"priority":20}'        # 18
does 108 grace /reservations '{"tags":["virtual"]}'                            # 19
does 109 grace /reservations/19/cancel
pass 120
does 125 erin /reservations/17/acquire
does 130 ann /jobs 'job_name = "waits"
device_type = "beaglebone-black"
priority = "low"' nightly-2 # 20

rm answer
mkdir shown
cp lab.db lab.db-wal shown
sh "$here/show.sh" "$program" shown/lab.db > shown.txt
rm -r shown
