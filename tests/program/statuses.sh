#!/bin/sh
# Runs the program over files: each exit status, each line of a fault but want of memory, which
# tests/faults/test_refused_memory.py shows, and what the files hold afterwards. tests/program/test_words.py has its words.
#     sh tests/program/statuses.sh bin/farm
set -eu
. "$(dirname "$0")/../shared/folder.sh"
cd "$folder"
: > input

# Runs the program, and demands status $1 and, byte by byte, what stands in `wanted` and `wanted_errors`.
runs() {
    due=$1
    shift
    status=0
    "$farm" "$@" < input > output 2> errors || status=$?
    if [ "$status" != "$due" ] || ! cmp -s output wanted || ! cmp -s errors wanted_errors; then
        fail "farm $* ended with status $status, printed '$(cat output)', told '$(cat errors)'"
    fi
}

# Lines with their ends; nothing for none.
lines() {
    [ -z "$1" ] || printf '%s\n' "$1"
}

# Demands that the program ends with status $1, prints the lines $2 and tells the lines $3.
expect() {
    due=$1
    lines "$2" > wanted
    lines "$3" > wanted_errors
    shift 3
    runs "$due" "$@"
}

# An answer: HTTP status $1 and body $2.
answer() {
    printf 'HTTP/1.1 %s\r\ncontent-type: application/json\r\ncontent-length: %d\r\nconnection: close\r\n\r\n%s' \
        "$1" "$(printf '%s' "$2" | wc -c)" "$2"
}

# Demands exit status $1 and an answer: HTTP status $2 and body $3.
answers() {
    due=$1
    answer "$2" "$3" > wanted
    : > wanted_errors
    shift 3
    runs "$due" "$@"
}

# The next request: WHO METHOD PATH, and a body.
request() {
    printf '%s %s HTTP/1.1\r\nx-user: %s\r\ncontent-length: %d\r\n\r\n%s' \
        "$2" "$3" "$1" "$(printf '%s' "${4-}" | wc -c)" "${4-}" > input
}

# A command of WHO on the farm in a file, which is done: FILE AT WHO PATH BODY NUMBER.
does() {
    request "$3" POST "$4" "$5"
    answers 0 '200 OK' "{\"number\":$6}" once --db "$1" --at "$2"
}

# A new file with the type bbb and its good board b1.
good_board() {
    expect 0 ready '' init --db "$1"
    does "$1" 10 admin /types '{"name":"bbb"}' 0
    does "$1" 10 admin /boards '{"name":"b1","type":"bbb"}' 0
    does "$1" 10 admin /boards/b1/health '{"health":"Good"}' 0
}

# Changes a file by a statement.
change() {
    if command -v sqlite3 > /dev/null; then
        sqlite3 "$1" "$2"
    else
        python3 -c 'import sqlite3, sys
with sqlite3.connect(sys.argv[1]) as file: file.execute(sys.argv[2])' "$1" "$2"
    fi
}

# Demands that an init over a farm is refused, and that its file and its log stay, byte by byte.
no_second_init() {
    cp "$1" before
    cp "$1-wal" before-wal
    expect 4 '' "$store_fault" init --db "$1"
    cmp -s before "$1" && cmp -s before-wal "$1-wal" || fail "an init that was refused changed $1"
}

# The tables of a file and their rows, as statements.
tables() {
    if command -v sqlite3 > /dev/null; then
        sqlite3 "$1" .dump
    else
        python3 -c 'import sqlite3, sys
print("\n".join(sqlite3.connect(sys.argv[1]).iterdump()))' "$1"
    fi
}

# Demands that an order on a file of no sound farm is told so, and leaves its tables: FILE ORDER WORDS..
refuses() {
    file=$1
    order=$2
    shift 2
    tables "$file" > before
    expect 4 '' "$bad_store" "$order" --db "$file" "$@"
    tables "$file" > after
    cmp -s before after || fail "farm $order, which told bad store, changed the tables of $file"
}

# A job of ann's for a board of the type bbb: FILE AT NUMBER.
submits() {
    request ann POST /jobs 'device_type = "bbb"
job_name = "boot"'
    answers 0 '200 OK' "{\"number\":$3}" once --db "$1" --at "$2"
}

# Demands that this job is there, waits and is told whole: FILE AT NUMBER.
has_job() {
    printf 'GET /jobs/%d HTTP/1.1\r\n\r\n' "$3" > input
    answers 0 '200 OK' "{\"board\":\"\",\"group\":$3,\"kind\":\"ordinary\",\"number\":$3,\"owner\":\"ann\",\"priority\":50,\"result\":\"\",\"role\":\"\",\"state\":\"Submitted\",\"tags\":[],\"text\":\"device_type = \\\"bbb\\\"\\njob_name = \\\"boot\\\"\",\"type\":\"bbb\"}" once --db "$1" --at "$2"
}

first_type() {
    printf 'POST /types HTTP/1.1\r\nx-user: admin\r\ncontent-length: 14\r\n\r\n{"name":"bbb"}' > input
}

bad_store='farm: 62 bad store'
store_fault='farm: 60 store fault'
read_fault='farm: 80 read fault'
write_fault='farm: 81 write fault'

# ---- once, in memory

first_type
answers 0 '200 OK' '{"number":0}' once --memory --at 1700000000
printf 'GET /nowhere HTTP/1.1\r\n\r\n' > input
answers 3 '404 Not Found' '{"code":52,"text":"no such route"}' once --memory --at 1700000000

# An input that can't be read, and an output that can't be written, of each order.
first_type
status=0
"$farm" once --memory --at 1 < . > output 2> errors || status=$?
[ "$status $(cat errors)" = "4 $read_fault" ] && ! [ -s output ] || fail "a folder as input: $status"

# Demands that an order whose output is refused tells so.
unwritten() {
    status=0
    "$farm" "$@" < input > /dev/full 2> errors || status=$?
    [ "$status $(cat errors)" = "4 $write_fault" ] || fail "farm $* into a full file: $status, told '$(cat errors)'"
}
printf '[boards.b1]\ntype = "bbb"\n' > lab.toml
unwritten --help
unwritten once --memory --at 1
unwritten init --db unwritten.db
unwritten once --db unwritten.db --at 10
unwritten import --db unwritten.db --at 10 lab.toml
unwritten report --db unwritten.db boards
# What they did stands in the file all the same.
expect 0 'Maintenance Idle     none                  never               b1 bbb' '' report --db unwritten.db boards

# ---- files

# same_type_twice_in_a_file
expect 0 ready '' init --db twice.db
first_type
answers 0 '200 OK' '{"number":0}' once --db twice.db --at 1700000000
answers 3 '409 Conflict' '{"code":11,"text":"type exists"}' once --db twice.db --at 1700000000
# orders_by_their_words: a report without rows.
expect 0 '' '' report --db twice.db --west 60 boards

# init_twice: the second is refused, and the farm of the first stays, byte by byte.
no_second_init twice.db
printf 'GET /types HTTP/1.1\r\n\r\n' > input
answers 0 '200 OK' '{"types":[{"check":"none","every":0,"name":"bbb"}]}' once --db twice.db --at 1700000000

# init_over_a_job: where a farm with a job is there, init is refused, and the job stands as before.
good_board job.db
submits job.db 20 1
no_second_init job.db
has_job job.db 20 1
expect 0 ' 50         1 group       1 ann' '' report --db job.db queue

# file_without_tables: the store's fault comes before that of a lab file that isn't there, and of input.
first_type
expect 4 '' "$store_fault" report --db bare.db boards
expect 4 '' "$store_fault" import --db bare.db --at 10 missing.toml
expect 4 '' "$store_fault" once --db bare.db --at 10
expect 0 ready '' init --db bare.db

# import_without_a_farm
printf '[types.bbb]\n' > lab.toml
expect 4 '' "$store_fault" import --db 'no folder/farm.db' --at 10 lab.toml

# lab_file_twice
expect 0 ready '' init --db lab.db
expect 4 '' "$read_fault" import --db lab.db --at 10 missing.toml
expect 4 '' "$read_fault" import --db lab.db --at 10 .
printf '[types.bbb]\n[boards.b1]\ntype = "bbb"\n' > lab.toml
expect 0 'accepted 2, kept 0' '' import --db lab.db --at 10 lab.toml
expect 0 'accepted 0, kept 2' '' import --db lab.db --at 20 lab.toml
printf '[types.a]\n[boards.b2]\ntype = "c"\n' > lab.toml
expect 3 '' 'farm: 10 no such type at 2' import --db lab.db --at 30 lab.toml

# lab_files_that_are_refused
printf 'types = 1\n' > lab.toml
expect 3 '' 'farm: 71 bad lab file' import --db lab.db --at 10 lab.toml
printf '[types."a b"]\n' > lab.toml
expect 3 '' 'farm: 5 bad name' import --db lab.db --at 10 lab.toml
printf '[types.a]\n[boards.b]\ntype = "a"\ntags = ["name=x"]\n' > lab.toml
expect 3 '' 'farm: 6 bad tag' import --db lab.db --at 10 lab.toml
printf '[boards.b]\ntype = "zzz"\n' > lab.toml
expect 3 '' 'farm: 10 no such type at 1' import --db lab.db --at 10 lab.toml
# long_lab_file: as long as a lab file may be, and longer.
printf '%1048576s' '' > lab.toml
expect 0 'accepted 0, kept 0' '' import --db lab.db --at 10 lab.toml
printf '%1048577s' '' > lab.toml
expect 3 '' 'farm: 71 bad lab file' import --db lab.db --at 10 lab.toml

# Commands of a lab file that the farm refuses, each at its place: words that stand already, a moment that
# is too late, a key of another command, more rows than a farm has.
good_board places.db
printf '[types.bbb]\n' > lab.toml
expect 3 '' 'farm: 11 type exists at 1' import --db places.db --at 10 lab.toml
printf '[types.a]\n[boards.b1]\ntype = "a"\n' > lab.toml
expect 3 '' 'farm: 13 board exists at 2' import --db places.db --at 10 lab.toml
printf '[types.c]\n' > lab.toml
expect 3 '' 'farm: 2 bad moment at 1' import --db places.db --at 250000000001 lab.toml
printf 'POST /pass HTTP/1.1\r\nx-user: admin\r\nx-key: type.c\r\n\r\n' > input
answers 0 '200 OK' '{"checks":0,"expired":0,"served":0}' once --db places.db --at 10
expect 3 '' 'farm: 40 key reused at 1' import --db places.db --at 10 lab.toml
printf '[types.d]\n[boards.d]\ntype = "d"\ntags = ["1","2","3","4","5","6","7","8","9","10","11","12","13","14","15","16","17"]\n' > lab.toml
expect 3 '' 'farm: 7 bad count' import --db places.db --at 10 lab.toml

seq 65 | sed 's/.*/[types.t&]/' > lab.toml
expect 0 ready '' init --db full.db
expect 3 '' 'farm: 4 full at 65' import --db full.db --at 10 lab.toml

# reservation_in_a_report
good_board reservation.db
does reservation.db 20 ann /reservations '{"tags":["name=b1"]}' 1
expect 0 ' 50         1 reservation 1 ann' '' report --db reservation.db queue
request dispatcher POST /pass
answers 0 '200 OK' '{"checks":0,"expired":0,"served":1}' once --db reservation.db --at 30
expect 0 '        1 allocated  50 1970-01-01 00:01:30 b1 ann' '' report --db reservation.db reservations
expect 0 '        1 allocated  50 1969-12-31 23:01:30 b1 ann' '' report --db reservation.db --west 60 reservations
expect 0 '' '' report --db reservation.db queue

# ---- a store that can't write: no file may be longer than 4,096 bytes, or 8,192 where a shell counts so

# Runs the program, as `runs` does, where long files can't be written.
runs_without_room() {
    (
        trap '' XFSZ
        ulimit -f 8
        runs "$@"
    )
}
expect 0 ready '' init --db small.db
# An opening that can't copy the log into the file ends the order.
first_type
: > wanted
echo "$store_fault" > wanted_errors
runs_without_room 4 once --db small.db --at 10
# Once the log is in the file it is the command that can't be written.
expect 0 '' '' report --db small.db boards
first_type
answer '503 Service Unavailable' '{"code":60,"text":"store fault"}' > wanted
echo "$store_fault" > wanted_errors
runs_without_room 4 once --db small.db --at 10
: > wanted
printf '[types.bbb]\n' > lab.toml
runs_without_room 4 import --db small.db --at 10 lab.toml
runs_without_room 4 init --db none.db
# The file has a farm, with the commands that weren't answered as done or without them.
expect 0 '' '' report --db small.db boards
printf 'GET /status HTTP/1.1\r\n\r\n' > input
"$farm" once --db small.db --at 10 < input > output
grep -q '"count":[01],"jobs":0,' output || fail "after store faults the status is '$(cat output)'"

# ---- serve

# serve_nobody, on a free port, which is then taken by a server that waits for one connection.
expect 0 ready '' init --db served.db
port=$((20000 + $$ % 12000))
until "$farm" serve --db served.db --port $port --max 0 > output 2> errors; do
    [ "$(cat errors)" = "$read_fault" ] || fail "serve told '$(cat errors)'"
    port=$((port + 1))
done
expect 0 "listening $port" '' serve --db served.db --port $port --max 0
unwritten serve --db served.db --port $port --max 0
: > listening
"$farm" serve --db served.db --port $port --max 1 > listening &
server=$!
while [ "$(wc -l < listening)" -eq 0 ]; do
    kill -0 "$server" 2> /dev/null || fail "serve ended"
    sleep 0.01
done
[ "$(cat listening)" = "listening $port" ] || fail "serve printed '$(cat listening)'"
# serve_on_a_port_that_is_taken; the store's fault comes first.
expect 4 '' "$read_fault" serve --db bare.db --port $port --max 0
expect 4 '' "$store_fault" serve --db no_farm.db --port $port --max 0

# ---- damaged files

if command -v sqlite3 > /dev/null || python3 -c 'import sqlite3
assert sqlite3.sqlite_version_info >= (3, 37)' 2> /dev/null; then
    # serve_without_a_farm: another schema.
    change bare.db "UPDATE meta SET value = 9 WHERE name = 'schema'"
    expect 4 '' "$bad_store" serve --db bare.db --port $port --max 0
    expect 4 '' "$bad_store" import --db bare.db --at 10 missing.toml

    # bad_store_in_a_file: a board that runs, and nobody holds it.
    good_board bad.db
    change bad.db 'UPDATE boards SET state = 2'
    expect 4 '' "$bad_store" report --db bad.db boards

    # damaged_farm_with_a_job: each order that opens it is refused and changes nothing; once the damage is
    # undone, the job stands as before.
    good_board damaged.db
    submits damaged.db 20 1
    change damaged.db 'UPDATE boards SET state = 2'
    printf 'GET /jobs/1 HTTP/1.1\r\n\r\n' > input
    refuses damaged.db report queue
    refuses damaged.db import --at 20 missing.toml
    refuses damaged.db once --at 20
    refuses damaged.db serve --port $port --max 0
    change damaged.db 'UPDATE boards SET state = 0'
    has_job damaged.db 20 1

    # file_with_board_held_twice: by a scheduled job, and by a reservation.
    submits reservation.db 30 2
    expect 0 ' 50         2 group       1 ann' '' report --db reservation.db queue
    change reservation.db "UPDATE jobs SET state = 1, board = 'b1' WHERE number = 2"
    expect 4 '' "$bad_store" report --db reservation.db boards

    # checked_board_in_a_report
    good_board checked.db
    change checked.db "UPDATE meta SET value = 1700000000 WHERE name = 'clock'"
    change checked.db 'UPDATE boards SET last_check = 1700000000'
    expect 0 'Good        Idle     none                  2023-11-14 23:13:20 b1 bbb' '' report --db checked.db --east 60 boards

    # job_view: a text that no job file has, with each kind of byte that JSON escapes.
    submits checked.db 1700000000 1
    change checked.db "UPDATE jobs SET body = char(34, 233, 92, 10, 1)"
    printf 'GET /jobs/1 HTTP/1.1\r\n\r\n' > input
    "$farm" once --db checked.db --at 1700000000 < input > output || fail "a job's view ended with status $?"
    grep -qF '"tags":[],"text":"\"é\\\n\u0001","type":"bbb"}' output || fail "a job's view is '$(cat output)'"
else
    left_out 'damaged files' "there is no sqlite3, nor python3's module of that name"
fi

# init_without_locks: where nothing can be locked, as over some networks, init takes away what it made.
cat > unlocked.c <<'END'
#define _GNU_SOURCE
#include <dlfcn.h>
#include <errno.h>
#include <fcntl.h>
#include <stdarg.h>

int fcntl(int file, int command, ...)
{
    va_list given;
    va_start(given, command);
    void *value = va_arg(given, void *);
    va_end(given);
    if (command == F_SETLK || command == F_SETLKW || command == F_OFD_SETLK || command == F_OFD_SETLKW) {
        errno = ENOLCK;
        return -1;
    }
    return ((int (*)(int, int, ...))dlsym(RTLD_NEXT, "fcntl"))(file, command, value);
}

int fcntl64(int, int, ...) __attribute__((alias("fcntl")));
END
if cc -shared -fPIC -o unlocked.so unlocked.c -ldl 2> errors; then
    status=0
    LD_PRELOAD=./unlocked.so "$farm" init --db unlocked.db > output 2> errors || status=$?
    [ "$status" = 4 ] && [ "$(cat errors)" = 'farm: 60 store fault' ] || fail "init without locks ended with status $status"
    [ ! -e unlocked.db ] && [ ! -e unlocked.db-wal ] || fail 'init without locks left a file'
else
    left_out 'init where nothing can be locked' 'cc makes no library'
fi
shown 'each exit status and each line of a fault, but want of memory'
