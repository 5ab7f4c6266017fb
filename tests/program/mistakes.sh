#!/bin/sh
# Does to a farm's files what must not cost a lab its farm: a path that is mistyped, a file that is lost, cut
# or half restored, an `init` over what is there, a second program, a file or a folder that can't be written.
# No order but `init` makes a file, and none touches a log whose file is gone; what is refused leaves the
# folder as it was, byte by byte, and once the files lie where they belong the farm is there.
#     sh tests/program/mistakes.sh bin/farm
set -eu
. "$(dirname "$0")/../shared/folder.sh"
examples=$(cd "$(dirname "$0")/../../examples" && pwd)
mkdir "$folder/lab" "$folder/away"
cd "$folder/lab"
printf '[types.ccc]\n' > ../more.toml
printf 'POST /types HTTP/1.1\r\nx-user: admin\r\ncontent-length: 14\r\n\r\n{"name":"ddd"}' > ../command
store_fault='farm: 60 store fault'
bad_store='farm: 62 bad store'

# All that stands in the folder: names, kinds, rights, and the bytes of the files.
stands() {
    find . -exec stat -c '%n %F %a %s' {} + | sort
    find . -type f -exec cksum {} + | sort
}

# Demands that an order is refused with a fault and prints nothing: FAULT WORDS..
refused() {
    told=$1
    shift
    status=0
    timeout 60 "$farm" "$@" < ../command > ../output 2> ../errors || status=$?
    [ "$status" = 4 ] && ! [ -s ../output ] && [ "$(cat ../errors)" = "$told" ] ||
        fail "$what: farm $* ended with status $status, printed '$(cat ../output)', told '$(cat ../errors)'"
}

# Demands that orders on a file are refused with a fault and leave the folder as it was: FAULT FILE ORDER..
refuses() {
    told=$1
    file=$2
    shift 2
    stands > ../before
    for order in "$@"; do
        case $order in
            init) refused "$told" init --db "$file" ;;
            import) refused "$told" import --db "$file" --at 20 ../more.toml ;;
            once) refused "$told" once --db "$file" --at 20 ;;
            report) refused "$told" report --db "$file" queue ;;
            serve) refused "$told" serve --db "$file" --port 9 --max 1 ;;
        esac
        stands > ../after
        cmp -s ../before ../after || fail "$what: farm $order on $file left $(diff ../before ../after)"
    done
}

# The same where no file can be written, those that keep what the program says among them.
refused_in_vain() {
    status=0
    "$farm" "$@" > /dev/null 2>&1 || status=$?
    [ "$status" = 4 ] || fail "$what: farm $* ended with status $status"
}

# What a farm's file shows, or the fault.
shows() {
    "$farm" report --db "$1" queue 2>&1 || :
}

# Makes a farm in a file: the lab of examples/, and a job that waits.
make_farm() {
    "$farm" init --db "$1" > ../output
    "$farm" import --db "$1" --at 10 "$examples/lab.toml" > ../output
    { printf 'POST /jobs HTTP/1.1\r\nx-user: ann\r\ncontent-length: %d\r\n\r\n' "$(wc -c < "$examples/boot.toml")"
        cat "$examples/boot.toml"; } | "$farm" once --db "$1" --at 10 > ../output
    [ "$(shows "$1")" = "$job" ] || fail "the farm in $1 shows $(shows "$1")"
}
job=' 50         1 group       1 ann'

what='a path that is mistyped'
refuses "$store_fault" lba.db import once report serve
refuses "$store_fault" nowhere/lab.db init import once report serve
refuses "$store_fault" . init import once report serve
refuses "$store_fault" ':memory:' init import once report serve
refuses "$store_fault" 'file:lab' init import once report serve
refuses "$store_fault" '' init import once report serve

what='a file that is lost, with its log beside'
make_farm lab.db
mv lab.db ../away
refuses "$store_fault" lab.db import once report serve init
mv ../away/lab.db .
[ "$(shows lab.db)" = "$job" ] || fail "$what: once it is back the farm shows $(shows lab.db)"

what="a file that is half restored: no byte of it, or its first few, with its log beside"
cp lab.db ../away
for bytes in 0 1 15; do
    head -c $bytes ../away/lab.db > lab.db
    refuses "$store_fault" lab.db import once report serve init
done
cp ../away/lab.db .
[ "$(shows lab.db)" = "$job" ] || fail "$what: once it is whole the farm shows $(shows lab.db)"

what='an init where a farm is'
refuses "$store_fault" lab.db init
[ "$(shows lab.db)" = "$job" ] || fail "$what: the farm shows $(shows lab.db)"

what='a file that is something else'
printf x > one.txt
echo 'SQLite format' > text.txt
head -c 5000 /dev/zero > zeros
refuses "$store_fault" one.txt init import once report serve
refuses "$store_fault" text.txt init import once report serve
refuses "$store_fault" zeros init import once report serve

what='a file without a byte'
: > empty.db
refuses "$store_fault" empty.db import once report serve
[ "$("$farm" init --db empty.db)" = ready ] || fail "$what: init isn't done"
[ -z "$(shows empty.db)" ] || fail "$what: the new farm shows $(shows empty.db)"

what='a link to a file'
ln -s ../away/linked.db linked.db
refuses "$store_fault" linked.db import once report serve init
: > ../away/linked.db
[ "$("$farm" init --db linked.db)" = ready ] || fail "$what: init isn't done"
rm linked.db
refuses "$store_fault" linked.db report
ln -s ../away/linked.db linked.db
mv ../away/linked.db ../away/lost.db
refuses "$store_fault" linked.db import once report serve init
[ -s ../away/linked.db-wal ] || fail "$what: the log where it leads is gone"

what='a file that sqlite3 made anew or added to, and what the guide says of it'
if command -v sqlite3 > /dev/null; then
    # sqlite3 over a copy of the farm in a file, which goes with a log again then: FILE COMMANDS
    changed() {
        cp lab.db ../away/anew.db
        cp lab.db-wal ../away/anew.db-wal
        sqlite3 ../away/anew.db "pragma journal_mode = delete; $2; pragma journal_mode = wal" > ../output
        cp ../away/anew.db "$1"
    }
    for size in 512 4096 65536; do
        changed anew.db "pragma page_size = $size; vacuum"
        [ "$(shows anew.db)" = "$job" ] || fail "$what: pages of $size bytes show $(shows anew.db)"
        rm anew.db*
    done
    for kind in full incremental; do
        changed anew.db "pragma auto_vacuum = $kind; vacuum"
        refuses "$store_fault" anew.db import once report serve
        sqlite3 anew.db 'pragma auto_vacuum = none; vacuum' > ../output
        [ "$(shows anew.db)" = "$job" ] || fail "$what: without auto_vacuum it shows $(shows anew.db)"
        rm anew.db*
    done
    sqlite3 ../away/anew.db .dump > ../dump
    { echo "pragma encoding = 'UTF-16';"; cat ../dump; echo 'pragma journal_mode = wal;'; } | sqlite3 anew.db > ../output
    refuses "$store_fault" anew.db import once report serve
    rm anew.db*
    for added in analyze 'create index more on jobs(owner)'; do
        changed anew.db "$added"
        [ "$(shows anew.db)" = "$bad_store" ] || fail "$what: after $added it shows $(shows anew.db)"
        rm anew.db*
    done
    changed anew.db 'analyze; drop table sqlite_stat1'
    [ "$(shows anew.db)" = "$job" ] || fail "$what: once it is dropped it shows $(shows anew.db)"
    rm anew.db*
else
    left_out "$what" 'there is no sqlite3'
fi

what='an init that finds no room, or room for a part'
stands > ../before
for blocks in 0 1 8 32 200; do
    (
        trap '' XFSZ
        ulimit -f $blocks
        refused_in_vain init --db full.db
    )
    stands > ../after
    cmp -s ../before ../after || fail "$what, $blocks blocks, left $(diff ../before ../after)"
done
[ "$("$farm" init --db full.db)" = ready ] || fail "$what: with room it isn't done"

what='many inits at once'
for round in 1 2 3 4 5; do
    for number in 1 2 3 4; do
        "$farm" init --db many$round.db > ../init$number 2>&1 &
    done
    wait
    made=$(cat ../init? | grep -c '^ready$' || :)
    refused=$(cat ../init? | grep -c "^$store_fault$" || :)
    [ "$made $refused" = "1 3" ] || fail "$what: $made were done, and $refused refused"
    [ -z "$(shows many$round.db)" ] || fail "$what: the new farm shows $(shows many$round.db)"
done

what='a second program while one serves'
serve_file lab.db 9
refuses "$store_fault" lab.db init import once report serve
kill "$server"
wait "$server" 2> /dev/null || :
server=
[ "$(shows lab.db)" = "$job" ] || fail "$what: the farm shows $(shows lab.db)"

# As another user, where this one may write all.
as_nobody() {
    if [ "$(id -u)" != 0 ]; then
        "$@"
    else
        setpriv --reuid=65534 --regid=65534 --clear-groups "$@"
    fi
}
if as_nobody "$farm" once --memory --at 1 < /dev/null 2> /dev/null | grep -q '^HTTP/1.1 400'; then
    what='a copy that may only be read'
    mkdir copy
    cp lab.db lab.db-wal copy
    chmod 755 "$folder" . copy
    chmod 644 copy/*
    chmod 555 copy
    chmod 444 copy/*
    [ "$(id -u)" != 0 ] || chown -R root copy
    stands > ../before
    status=0
    as_nobody "$farm" report --db copy/lab.db queue > ../output 2> ../errors || status=$?
    [ "$status $(cat ../output ../errors)" = "4 $store_fault" ] || fail "$what: $status $(cat ../output ../errors)"
    stands > ../after
    cmp -s ../before ../after || fail "$what: it left $(diff ../before ../after)"
    chmod -R u+w copy
    [ "$(shows copy/lab.db)" = "$job" ] || fail "$what: once it may be written it shows $(shows copy/lab.db)"
else
    left_out 'a copy that may only be read' 'nobody else may run the program'
fi

what='the unit for systemd'
! grep -q '^Exec.* init ' "$examples/farm.service" || fail "$what makes a farm"
words=$(sed -n 's|^ExecStart=/usr/local/bin/farm ||p' "$examples/farm.service")
stands > ../before
# shellcheck disable=SC2086
refused "$store_fault" ${words%%--db*} --db gone.db --port ${words##*--port }
stands > ../after
cmp -s ../before ../after || fail "$what: it left $(diff ../before ../after)"

# Makes a database by statements.
make_database() {
    if command -v sqlite3 > /dev/null; then
        sqlite3 "$1" "$2" > ../output
    else
        python3 -c 'import sqlite3, sys
with sqlite3.connect(sys.argv[1]) as file: file.executescript(sys.argv[2])' "$1" "$2"
    fi
}
if command -v sqlite3 > /dev/null || python3 -c 'import sqlite3
assert sqlite3.sqlite_version_info >= (3, 37)' 2> /dev/null; then
    what="another program's database"
    make_database notes.db "CREATE TABLE note(title TEXT); INSERT INTO note VALUES ('a')"
    refuses "$store_fault" notes.db import once report serve

    what='a farm that was changed by hand, and has no log'
    cp lab.db changed.db
    cp lab.db-wal changed.db-wal
    make_database changed.db "UPDATE meta SET value = 9 WHERE name = 'schema'"
    [ ! -e changed.db-wal ] || fail "$what: its log is there"
    refuses "$bad_store" changed.db import once report serve
    refuses "$store_fault" changed.db init
else
    left_out 'other databases' "there is no sqlite3, nor python3's module of that name"
fi
shown 'lost, cut and half restored files, mistyped paths, a second init, a second program'
