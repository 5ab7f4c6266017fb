#!/bin/sh
# Upgrades a farm that a program of the first edition made (tests/shared/first_edition): sh tests/program/upgrade.sh bin/farm
# The other orders tell its edition and leave its two files as they are, byte by byte. `migrate` makes it this
# edition's, once: it shows what the first edition's program printed of it, and its jobs, reservations and kept
# replies go on from there. What is no sound farm of the first edition is refused and stays as it is.
# Damages want the sqlite3 shell, a served farm wants curl.
set -eu
. "$(dirname "$0")/../shared/folder.sh"
tests=$(cd "$(dirname "$0")/.." && pwd)
first=$tests/shared/first_edition
mkdir "$folder/lab" "$folder/old" "$folder/away"
gunzip -c "$first/lab.db.gz" > "$folder/old/lab.db"
gunzip -c "$first/lab.db-wal.gz" > "$folder/old/lab.db-wal"
cd "$folder/lab"
begun=1795600000
old_schema='farm: 63 old schema'
new_schema='farm: 64 new schema'
store_fault='farm: 60 store fault'
bad_store='farm: 62 bad store'

# The files of the folder, their bytes and nothing else.
stands() {
    find . -type f -exec cksum {} + | sort
}

# Demands that the program ends with status $1, prints the line $2 and tells the line $3; none where it's empty.
expect() {
    due=$1 printed=$2 told=$3
    shift 3
    status=0
    timeout 60 "$farm" "$@" < ../request > ../output 2> ../errors || status=$?
    [ "$status" = "$due" ] && [ "$(cat ../output)" = "$printed" ] && [ "$(cat ../errors)" = "$told" ] ||
        fail "farm $* ended with status $status, printed '$(cat ../output)', told '$(cat ../errors)'"
}

# Demands that an order is refused with a fault and leaves all files as they are, byte by byte: FAULT ORDER..
refuses() {
    told=$1
    shift
    stands > ../before
    expect 4 '' "$told" "$@"
    stands > ../after
    cmp -s ../before ../after || fail "farm $*, which told $told, left $(diff ../before ../after)"
}

# Demands that `migrate` tells that it was done before, and leaves the file as it is; an empty log may get a new head.
was_done() {
    cp lab.db ../away/before
    expect 4 '' "$new_schema" migrate --db lab.db
    cmp lab.db ../away/before || fail "a second migrate changed the file"
    rm ../away/before
}

# The next request: WHO PATH BODY KEY; no key where it's empty.
request() {
    {
        printf 'POST %s HTTP/1.1\r\nx-user: %s\r\n' "$2" "$1"
        [ -z "${4-}" ] || printf 'x-key: %s\r\n' "$4"
        printf 'content-length: %d\r\n\r\n%s' "$(printf '%s' "${3-}" | wc -c)" "${3-}"
    } > ../request
}

# Demands that a command has an answer, whose body is this: SECOND ANSWER WHO PATH, and a body and a key.
answers() {
    second=$1 wanted=$2
    shift 2
    request "$@"
    "$farm" once --db lab.db --at $((begun + second)) < ../request > ../output 2> ../errors || :
    [ "$(tail -n 1 ../output)" = "$wanted" ] ||
        fail "$1's POST $2 is answered '$(tail -n 1 ../output)$(cat ../errors)', not '$wanted'"
}

# Demands that a view has something in it: PATH TEXT
looks() {
    printf 'GET %s HTTP/1.1\r\n\r\n' "$1" | "$farm" once --db lab.db --at 0 > ../output
    grep -qF -e "$2" ../output || fail "GET $1 is answered '$(tail -n 1 ../output)'"
}

# Puts the first edition's farm into the folder, alone.
old_farm() {
    rm -f lab.db*
    cp ../old/lab.db ../old/lab.db-wal .
}

# The same, made this edition's.
new_farm() {
    old_farm
    expect 0 migrated '' migrate --db lab.db
}

# Demands that the farm shows what the first edition's program printed, in a copy; once where its bytes are the same, but the
# head of its log.
shows_all() {
    state=$(cksum lab.db && find . -name lab.db-wal -size +41c -exec cksum {} +)
    [ "$state" != "$seen" ] || return 0
    cp lab.db* ../away
    sh "$first/show.sh" "$farm" ../away/lab.db > ../found
    rm ../away/lab.db*
    python3 "$first/same.py" ../shown ../found || fail "after $1 the farm shows something else"
    seen=$state
}

seen=
: > ../request
sed 's/\("clock":[0-9]*\),/\1,"collector":0,/' "$first/shown.txt" > ../shown
printf '[types.new]\n' > ../more.toml

# ---- before: each order tells its edition

old_farm
refuses "$old_schema" report --db lab.db boards
refuses "$old_schema" report --db lab.db queue
refuses "$old_schema" import --db lab.db --at $begun ../more.toml
refuses "$old_schema" import --db lab.db --at $begun ../missing.toml
refuses "$old_schema" serve --db lab.db --port 9 --max 1
refuses "$store_fault" init --db lab.db
request admin /types '{"name":"new"}'
refuses "$old_schema" once --db lab.db --at $begun

# ---- the upgrade, which is done once

expect 0 migrated '' migrate --db lab.db
shows_all migrate
was_done
shows_all 'a second migrate'

# ---- an upgraded farm is in its file, and needs no log

new_farm
rm -f lab.db-wal
shows_all 'a migrate whose log is gone'

# ---- the farm goes on: kept replies

new_farm
answers 140 '{"number":1}' ann /jobs "$(cat "$tests/../examples/boot.toml")" nightly-1
answers 140 '{"number":20}' ann /jobs 'job_name = "waits"
device_type = "beaglebone-black"
priority = "low"' nightly-2
answers 140 '{"checks":3,"expired":0,"served":0}' dispatcher /pass '' pass-1
answers 140 '{"number":16}' erin /reservations '{"tags":["name=rpi4b-03"]}' reserve-1
answers 140 '{"number":7}' bob /jobs/7/cancel '' cancel-7
answers 140 '{"code":40,"text":"key reused"}' ann /jobs/20/cancel '' nightly-1
expect 0 'accepted 0, kept 15' '' import --db lab.db --at $((begun + 140)) "$tests/../examples/lab.toml"
shows_all 'commands that were done before'

# ---- scheduled jobs start, running ones end, an allocated board is acquired

answers 141 '{"number":14}' dispatcher /jobs/14/start
answers 142 '{"number":12}' dispatcher /jobs/13/start
answers 143 '{"number":8}' dispatcher /jobs/8/finish '{"outcome":"Complete"}'
answers 144 '{"number":7}' dispatcher /jobs/7/finish '{"outcome":"Complete"}'
looks /jobs/7 '"result":"Canceled"'
answers 145 '{"number":16}' erin /reservations/16/acquire
answers 146 '{"number":17}' erin /reservations/17/release

# ---- the group that waited collects, and begins once its boards are free; numbers go on

answers 150 '{"checks":0,"expired":0,"served":0}' dispatcher /pass
looks /status '"collector":9,'
looks /jobs/9 '"board":"bbb-01","group":9,"kind":"ordinary","number":9,"owner":"dave","priority":70,"result":"","role":"client","state":"Scheduling"'
answers 151 '{"number":5}' dispatcher /jobs/5/finish '{"outcome":"Complete"}'
answers 152 '{"number":12}' dispatcher /jobs/12/finish '{"outcome":"Complete"}'
answers 153 '{"number":21}' ann /jobs 'job_name = "new"
device_type = "qemu-aarch64"'
answers 160 '{"checks":0,"expired":0,"served":2}' dispatcher /pass
looks /status '"collector":0,'
answers 161 '{"number":9}' dispatcher /jobs/9/start
looks /jobs/20 '"state":"Submitted"'

# ---- an upgrade whose words can't be printed is done all the same

old_farm
status=0
"$farm" migrate --db lab.db > /dev/full 2> ../errors || status=$?
[ "$status $(cat ../errors)" = '4 farm: 81 write fault' ] || fail "into a full file: $status, $(cat ../errors)"
was_done
shows_all 'a migrate whose output is full'

# ---- where there is no room the old farm stays, or the new one is there

size=$(stat -c %s ../old/lab.db-wal)
for blocks in 0 8 $((size / 512)) $((size / 512 + 8)) $((size / 512 + 16)) $((size / 512 + 40)); do
    old_farm
    (
        trap '' XFSZ
        ulimit -f "$blocks"
        "$farm" migrate --db lab.db 2>&1 || :
    ) | cat > ../said
    case "$(cat ../said)" in
        "$store_fault") found='old or new' ;;
        migrated) found=new ;;
        *) fail "where there is no room beyond $blocks blocks migrate said '$(cat ../said)'" ;;
    esac
    status=0
    "$farm" migrate --db lab.db > ../output 2> ../errors || status=$?
    case "$found: $status $(cat ../output ../errors)" in
        'old or new: 0 migrated' | "$found: 4 $new_schema") shows_all "no room beyond $blocks blocks" ;;
        *) fail "after no room beyond $blocks blocks, which said $(cat ../said): $status $(cat ../output ../errors)" ;;
    esac
done

# ---- two at once: one is done, the other finds the file in use, or the upgrade done

for round in 1 2 3 4 5; do
    old_farm
    for number in 1 2; do
        "$farm" migrate --db lab.db > ../said$number 2>&1 &
    done
    wait
    case "$(sort ../said1 ../said2 | tr '\n' ,)" in
        "$store_fault,migrated," | "$new_schema,migrated,") ;;
        *) fail "two at once said $(cat ../said1 ../said2)" ;;
    esac
    shows_all "two at once, round $round"
done

# ---- what is no farm of the first edition

rm lab.db*
refuses "$store_fault" migrate --db lab.db
refuses "$store_fault" migrate --db nowhere/lab.db
refuses "$store_fault" migrate --db .
refuses "$store_fault" migrate --db ''
: > lab.db
refuses "$store_fault" migrate --db lab.db
cp ../old/lab.db-wal .
refuses "$store_fault" migrate --db lab.db
rm lab.db
refuses "$store_fault" migrate --db lab.db
rm lab.db-wal
echo 'SQLite format' > lab.db
refuses "$store_fault" migrate --db lab.db
rm lab.db
expect 0 ready '' init --db lab.db
was_done

# ---- damaged files

# Demands that a farm that a statement has damaged is refused by `migrate` and the others, and stays as it is.
damaged() {
    old_farm
    sqlite3 lab.db "$2"
    refuses "$1" migrate --db lab.db
}
if command -v sqlite3 > /dev/null; then
    edition=$(sqlite3 lab.db "SELECT value FROM meta WHERE name = 'schema'") # a new farm's
    damaged "$bad_store" "UPDATE jobs SET board = 'bbb-03' WHERE number = 14" # the running check's
    refuses "$old_schema" report --db lab.db boards
    damaged "$bad_store" "UPDATE reservations SET board = 'bbb-03' WHERE number = 16"
    damaged "$bad_store" "UPDATE boards SET holder = 0, held_by = 0, state = 0 WHERE name = 'bbb-03'"
    damaged "$bad_store" 'UPDATE jobs SET state = 5 WHERE number = 14'
    damaged "$bad_store" 'DELETE FROM jobs WHERE number = 10'
    damaged "$bad_store" "UPDATE jobs SET kind = 'none' WHERE number = 20"
    damaged "$bad_store" "DELETE FROM meta WHERE name = 'next'"
    damaged "$bad_store" "UPDATE meta SET value = 20 WHERE name = 'next'"
    damaged "$bad_store" "INSERT INTO meta VALUES ('collector', 0)"
    damaged "$bad_store" "UPDATE meta SET value = 0 WHERE name = 'schema'"
    damaged "$bad_store" "UPDATE meta SET value = 9 WHERE name = 'schema'"
    damaged "$new_schema" "UPDATE meta SET value = $edition WHERE name = 'schema'"
    refuses "$bad_store" report --db lab.db boards
    damaged "$bad_store" 'CREATE TABLE more(it INTEGER)'
    damaged "$store_fault" 'DROP TABLE kept' # (a table that is missing is a fault of the store)
    damaged "$store_fault" 'DROP TABLE meta'

    # The damage is undone: the farm is there.
    damaged "$bad_store" "UPDATE jobs SET board = 'bbb-03' WHERE number = 14"
    sqlite3 lab.db "UPDATE jobs SET board = 'qemu-01' WHERE number = 14"
    expect 0 migrated '' migrate --db lab.db
    shows_all 'damage that was undone'

    # ---- the rows, as the sqlite3 shell reads them

    # (jobs' states and the collector are made this edition's before)
    cat > ../rows << 'END'
PRAGMA integrity_check;
SELECT name, unit, every FROM types ORDER BY name;
SELECT name, kind, tags, health, state, holder, held_by, jobs_since, last_check FROM boards ORDER BY name;
SELECT number, grp, checking, owner, priority, kind, tags, role, state, outcome, board, body FROM jobs ORDER BY number;
SELECT number, owner, priority, tags, state, deadline, board FROM reservations ORDER BY number;
SELECT caller, ckey, kind, a, b, c FROM kept ORDER BY caller, ckey;
SELECT name, value FROM meta WHERE name <> 'schema' ORDER BY name;
SELECT type, name FROM sqlite_schema ORDER BY name;
END
    old_farm
    sqlite3 lab.db "UPDATE jobs SET state = state + 1 WHERE state > 0; INSERT INTO meta VALUES ('collector', 0)"
    sqlite3 lab.db < ../rows > ../wanted
    new_farm
    sqlite3 lab.db < ../rows > ../output
    diff ../wanted ../output || fail "the rows are others"
else
    left_out 'damaged files and rows' 'there is no sqlite3'
fi

# ---- a farm that is served

if command -v curl > /dev/null; then
    new_farm
    serve_file lab.db 1000
    refuses "$store_fault" migrate --db lab.db
    sed -n '/^report/q; p' ../shown > ../views
    while read -r method path; do
        read -r _
        printf '%s %s\n%s\n' "$method" "$path" "$(curl -sS -X "$method" "http://127.0.0.1:$port$path")"
    done < ../views > ../output
    python3 "$first/same.py" ../views ../output || fail 'the served farm shows something else'
    said=$(curl -sS -H 'x-user: ann' -H 'x-key: nightly-1' --data-binary "@$tests/../examples/boot.toml" "http://127.0.0.1:$port/jobs")
    [ "$said" = '{"number":1}' ] || fail "a command that is sent again is answered '$said'"
    said=$(curl -sS -H 'x-user: dispatcher' -X POST "http://127.0.0.1:$port/jobs/14/start")
    [ "$said" = '{"number":14}' ] || fail "a scheduled job's start is answered '$said'"
    kill "$server"
    wait "$server" 2> /dev/null || :
    server=
    looks /jobs/14 '"state":"Running"'
else
    left_out 'a served farm' 'there is no curl'
fi
shown "a farm of the first edition is told of, made this edition's once, and goes on as it was"
