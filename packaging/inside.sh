#!/bin/sh
# What packaging/try.sh runs in the clean Debian.
set -eu
export DEBIAN_FRONTEND=noninteractive LC_ALL=C
home=/var/lib/farm
lab=/usr/share/doc/fizgruk-desk/examples/lab.toml
log=/tmp/apt.log
# shellcheck disable=SC2086 # (what is installed are patterns of files)
cd /srv/packages
fail() {
    echo "package: $*"
    exit 1
}
as_farm() { setpriv --reuid farm --regid farm --clear-groups "$@"; }
does() { "$@" > "$log" 2>&1 || fail "$*: $(tail -n 5 "$log")"; }
install() { does apt-get install -y --no-install-recommends --reinstall -o Dpkg::Options::=--force-confold "$@"; }
client="./python3-fizgruk_*.deb ./fizgruk-desk_*.deb"
upgrade() { does dpkg -i $client ./fizgruk-worker_*.deb ./fizgruk-farm_*.deb; }
says() { grep -q "^fizgruk: $1" "$log" || fail "it doesn't say '$1', but $(cat "$log")"; }
is_silent() { ! grep '^fizgruk: ' "$log" || fail "$1"; }
# Demands that a unit is enabled or disabled, and active or inactive.
unit() {
    [ "$(systemctl is-enabled "$1") $(systemctl is-active "$1")" = "$2 $3" ] ||
        fail "$4: $1 is $(systemctl is-enabled "$1") $(systemctl is-active "$1")"
}
served() {
    tries=0
    until curl -sS http://127.0.0.1:880/status > /tmp/status 2>&1; do
        tries=$((tries + 1))
        [ "$tries" -lt 300 ] || fail "nothing is served: $(systemctl status farm)"
        sleep 0.1
    done
}
# What stands on the disk but for what Debian's own programs note.
stands() {
    find / -xdev ! -path '/proc*' ! -path '/var/log/*' ! -path '/var/cache/*' ! -path '/var/lib/dpkg/*' \
        ! -path '/var/lib/apt/*' ! -path '/tmp/*' ! -path '/var/tmp*' ! -path '/run/*' \
        ! -path '/etc/*-' ! -path '/var/lib/systemd/*clock' ! -path '/var/backups/*' | sort
}

does lintian --allow-root --fail-on error,warning ./*.deb
echo "package: lintian has no warning"
apt-get install -qq -y --no-install-recommends openssh-server python3-argcomplete \
    python3-prometheus-client python3-yaml > "$log" 2>&1 || fail "$(tail -n 3 "$log")"
stands > /tmp/before

# ---- the client alone
install $client
desk --help > /dev/null || fail "desk --help"
! getent passwd farm && ! systemctl cat farm > /dev/null 2>&1 || fail "the client brings the server"
does apt-get purge -y fizgruk-desk python3-fizgruk
stands | diff /tmp/before - || fail "the client leaves files"
echo "package: the client alone starts nothing, and leaves nothing"

# ---- the Python package alone
install ./python3-fizgruk_*.deb
(cd / && python3 -c 'import fizgruk') || fail "import fizgruk"
does apt-get purge -y python3-fizgruk
stands | diff /tmp/before - || fail "the Python package leaves files"
echo "package: the Python package alone can be imported, and leaves nothing"

# ---- the first import and the first reservation
began=$(date +%s%N)
install $client ./fizgruk-worker_*.deb ./fizgruk-farm_*.deb
unit farm enabled active 'the first installation'
unit farm-dispatch enabled active 'the first installation'
unit farm-worker enabled active 'the first installation'
unit farm-watch enabled inactive 'the first installation, without rules'
systemctl stop farm
cp "$lab" /root/lab.toml
said=$(runuser -u farm -- farm import --db $home/lab.db --at "$(date +%s)" /dev/stdin < /root/lab.toml)
[ "$said" = 'accepted 15, kept 0' ] || fail "the first import: $said"
rm /root/lab.toml
systemctl start farm
served
curl -sS -H 'x-user: admin' -d '{"health":"Good"}' http://127.0.0.1:880/boards/qemu-01/health > /dev/null
desk --user ann reserve virtual --acquire > /tmp/board 2> /dev/null || fail "the first reservation"
[ "$(tail -n 1 /tmp/board)" = qemu-01 ] || fail "the first reservation gives $(cat /tmp/board)"
runuser -u www-data -- grep -q '"jobs":' /var/lib/farm-dispatch/history.json || fail "nginx's user reads no history"
! runuser -u www-data -- ls /var/lib/farm-dispatch/jobs 2> /dev/null || fail "nginx's user reads jobs' folders"
! runuser -u nobody -- curl -sS http://127.0.0.1:880/status 2> /dev/null || fail "any account asks the desk's port"
metrics=/var/lib/prometheus/node-exporter
mkdir -p $metrics
systemctl start farm-metrics
grep -q '^fizgruk_passes_total [1-9]' $metrics/fizgruk.prom || fail "no passes are counted: $(cat $metrics/fizgruk.prom)"
rm -r /var/lib/prometheus
echo "package: the first import and the first reservation, $((($(date +%s%N) - began) / 1000000000)) s after the installation began"

# ---- a start that is refused is tried again until it isn't
systemctl stop farm
: > /tmp/other
as_farm timeout 25 farm serve --db $home/lab.db --port 8081 --max 1000 > /tmp/other &
until grep -q listening /tmp/other; do sleep 0.1; done
systemctl start farm || :
sleep 20
! curl -sS http://127.0.0.1:880/status > /tmp/status 2>&1 || fail "two programs serve one farm"
wait
served
echo "package: the unit tries again while another program has the farm"

# ---- an upgrade copies the farm and begins again; what an admin disabled stays so
upgrade
is_silent "an upgrade finds fault with the farm"
unit farm enabled active 'an upgrade'
unit farm-dispatch enabled active 'an upgrade'
[ "$(find $home -path '*/before-2*/lab.db' | wc -l)" = 1 ] || fail "the copy of an upgrade"
served
curl -sS http://127.0.0.1:880/reservations | grep -q '"board":"qemu-01".*"acquired"' || fail "what an upgrade keeps"
systemctl disable -q --now farm-dispatch
upgrade
unit farm enabled active 'an upgrade beside a disabled unit'
unit farm-dispatch disabled inactive 'an upgrade of a disabled unit'
systemctl disable -q --now farm
upgrade
unit farm disabled inactive 'an upgrade of a disabled unit'
unit farm-dispatch disabled inactive 'an upgrade of a disabled unit'
systemctl enable -q --now farm farm-dispatch
upgrade
unit farm-dispatch enabled active 'an upgrade of an enabled unit'
systemctl enable -q --now farm-backup.timer
upgrade
unit farm-backup.timer enabled active 'an upgrade of an enabled timer'
unit farm-metrics.timer disabled inactive 'an upgrade of a disabled timer'
systemctl disable -q --now farm-backup.timer
echo "package: an upgrade copies the farm, and leaves disabled what an admin disabled"

# ---- the next farm, by the commands of next-farm.md
desk --user ann cancel-reservation 1
sed -n '/^## The turn/,$s/^    //p' /usr/share/doc/fizgruk-farm/next-farm.md > /tmp/next.sh
(cd /root && EDITOR=true sh -eu /tmp/next.sh && rm next.toml) > "$log" 2>&1 || fail "the next farm: $(cat "$log")"
grep -q '^/var/lib/farm/lab.db is the farm of next.toml; the old one is in /var/lib/farm/old-1' "$log" ||
    fail "the next farm: $(cat "$log")"
desk boards | grep -q '^qemu-01 .*Good' || fail "the next farm's boards: $(desk boards)"
curl -sS http://127.0.0.1:880/status | grep -q '"next":1,' || fail "the next farm isn't new"
echo "package: the next farm begins as next-farm.md says"

# ---- the way to boards: nothing begins with it; then who holds a board gets to it, and purging leaves keys alone
install ./fizgruk-access_*.deb
for it in farm-access-sshd farm-access-guard; do unit $it disabled inactive 'the way to boards'; done
printf '[[ways]]\nsay = ["/bin/echo", "..."]\n' > /etc/farm/access.toml
ssh-keygen -q -t ed25519 -N '' -C '' -f /root/key
cp /root/key.pub /etc/farm/keys/ann
systemctl enable -q --now farm-access-sshd farm-access-guard
desk --user ann reserve virtual --acquire > /tmp/board 2> /dev/null || fail "a reservation of the next farm"
farm-access check > "$log" || fail "farm-access check: $(cat "$log")"
said=$(ssh -F none -i /root/key -p 2222 -o BatchMode=yes -o StrictHostKeyChecking=no -o UserKnownHostsFile=/tmp/known \
    board@127.0.0.1 qemu-01 say here 2> "$log") || fail "who holds a board: $(cat "$log")"
[ "$said" = here ] || fail "who holds a board gets $said"
does dpkg -i ./fizgruk-access_*.deb
for it in farm-access-sshd farm-access-guard; do unit $it enabled active 'an upgrade of the way to boards'; done
does apt-get purge -y fizgruk-access
[ "$(ls /etc/farm/keys)" = ann ] && ! ls -d /var/lib/farm-access* 2> /dev/null || fail "what purging the way to boards leaves"
rm -r /root/key /root/key.pub /etc/farm/keys
desk --user ann cancel-reservation 1
echo "package: the way to boards begins when it is enabled, and lets in who holds a board"

# ---- a farm of the first edition is made this edition's, by an upgrade and where a package was removed before
for file in lab.db lab.db-wal; do
    gunzip -c "/srv/first_edition/$file.gz" > "/tmp/$file"
done
sed -n '/^report queue$/,/^report reservations$/p' /srv/first_edition/shown.txt | sed '1d; $d' > /tmp/queue
# Puts the first edition's farm in the place of the farm that is there; nothing else then changes it.
old_farm() {
    systemctl disable -q --now farm-dispatch farm 2> /dev/null || :
    rm -rf $home/lab.db* $home/before-* $home/old-*
    for file in lab.db lab.db-wal; do
        as_farm sh -c "umask 077; cat > $home/$file" < "/tmp/$file"
    done
}
# Demands that an installation upgrades it and keeps a copy of it as it was.
upgraded() {
    upgrade
    systemctl stop farm-dispatch farm
    says 'the farm is upgraded; '
    for file in lab.db lab.db-wal; do
        cmp "/tmp/$file" $home/before-upgrade-*/"$file" || fail "$1: the copy of $file"
    done
    [ -z "$(find $home ! -user farm)" ] || fail "$1 leaves files of others: $(find $home ! -user farm)"
    as_farm farm report --db $home/lab.db queue > /tmp/shown || fail "$1: the report"
}
old_farm
upgraded 'an upgrade'
cmp /tmp/shown /tmp/queue || fail "the queue of an upgraded farm"
upgrade
is_silent "an upgraded farm is upgraded again"
does dpkg --purge fizgruk-farm
old_farm
upgraded 'an installation'
echo "package: a farm of the first edition is upgraded, with a copy"

# ---- what is no farm is told of and left; removing and purging keep it
echo nothing > $home/lab.db
echo more > $home/lab.db-wal
upgrade
says "the farm in $home can't be opened (farm: 60 store fault)"
does dpkg --remove fizgruk-farm
[ -x /etc/farm/run-job ] || fail "a removal takes what an admin wrote"
does dpkg --purge fizgruk-farm
says "the farm stays in $home"
[ "$(cat $home/lab.db $home/lab.db-wal | xargs)" = 'nothing more' ] && ! [ -e /usr/bin/farm ] || fail "what a removal leaves"
rm -r $home
does apt-get purge -y fizgruk-desk python3-fizgruk
stands | diff /tmp/before - || fail "purging leaves more than the farm"
install $client ./fizgruk-worker_*.deb ./fizgruk-farm_*.deb
unit farm-dispatch enabled active 'an installation after purging'
does dpkg --remove fizgruk-farm
does script -qec 'echo yes | DEBIAN_FRONTEND=teletype dpkg --purge fizgruk-farm' /dev/null
grep -q 'Remove the board farm' "$log" && ! [ -e $home ] || fail "purging doesn't ask: $(cat "$log")"
install $client ./fizgruk-worker_*.deb ./fizgruk-farm_*.deb
echo 'fizgruk-farm fizgruk-farm/remove-farm boolean true' | debconf-set-selections
does apt-get purge -y fizgruk-farm fizgruk-worker fizgruk-desk python3-fizgruk
stands | diff /tmp/before - || fail "purging with the farm leaves files"
echo "package: a removal keeps the farm, purging keeps it where the answer isn't yes, and leaves nothing else"

# ---- from the single package 2.0: the farm, the admin's command, and each unit as it was
install ../old.deb
unit farm enabled active 2.0
echo '# ours' >> /etc/farm/run-job
install ./*fizgruk*.deb
says 'farm-dispatch is disabled, as it was'
unit farm enabled active 'an upgrade from 2.0'
unit farm-dispatch disabled inactive 'an upgrade from 2.0'
ls "$home"/before-2*/lab.db > /dev/null 2>&1 || fail "the copy of an upgrade from 2.0"
does apt-get purge -y fizgruk
tail -n 1 /etc/farm/run-job | grep -q ours || fail "the admin's command"
dpkg -S /etc/farm/run-job | grep -q "^fizgruk-worker:" || fail "whose the admin's command is"
systemctl enable -q --now farm-dispatch
upgrade
unit farm-dispatch enabled active 'an upgrade after the one from 2.0'
does apt-get purge -y fizgruk-access fizgruk-farm fizgruk-worker fizgruk-desk python3-fizgruk
rm -rf $home
stands | diff /tmp/before - || fail "purging after 2.0 leaves files"
install ../old.deb
systemctl disable -q --now farm
install ./*fizgruk*.deb
unit farm disabled inactive 'an upgrade from 2.0, where it was disabled'
echo "package: 2.0 is upgraded, with its farm, the admin's commands, and each unit as it was"
