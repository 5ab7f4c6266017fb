#!/bin/sh
# Prints what a program shows of a farm in a file: each view with its answer's body, and the three reports.
#     sh tests/shared/first_edition/show.sh PROGRAM FILE
set -eu
program=$1
file=$2

# The line of a view, and the body of its answer, which is the answer's last line.
view() {
    echo "GET $1"
    printf 'GET %s HTTP/1.1\r\n\r\n' "$1" | "$program" once --db "$file" --at 0 | sed -n '$p'
    echo
}

view /status
view /types
view /boards
view /queue
view /reservations
number=1
while [ "$number" -le 20 ]; do
    view "/jobs/$number"
    number=$((number + 1))
done
for which in boards queue reservations; do
    echo "report $which"
    "$program" report --db "$file" "$which"
done
