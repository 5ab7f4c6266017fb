#!/bin/sh
# Installs the packages in a clean Debian with its own systemd, as a new user would: the client alone, and the Python
# package; the first import and the first reservation, timed; upgrades, from the single package 2.0 and of a farm of
# the first edition too; what an admin disabled; removing and purging. Wants root, debootstrap and a mirror of
# Debian; takes minutes, and is run by hand:
#     git archive 337eb97 | tar -x -C OLD && sh OLD/packaging/build.sh bin/farm OLD     # the package 2.0
#     sh packaging/try.sh bin OLD/fizgruk_2.0_amd64.deb [FOLDER OF A DEBIAN THAT IS THERE]
set -eu
here=$(dirname "$(realpath "$0")")
packages=$(realpath "$1")
old=$(realpath "$2")
room=$(mktemp -d)
outside=
trap '[ -z "$outside" ] || kill -KILL $(pgrep -P "$outside") || :; rm -rf "$room"' EXIT
trap 'exit 1' HUP INT TERM
root=$room/debian
if [ -n "${3:-}" ]; then
    cp -a "$3" "$root"
else
    command -v debootstrap > /dev/null || { echo "package: it wants debootstrap"; exit 1; }
    mkdir "$root"
    debootstrap --variant=minbase bookworm "$root" > "$room/log"
fi
chmod 755 "$room"
mkdir "$root/srv/packages"
cp "$packages"/fizgruk*.deb "$packages"/python3-fizgruk*.deb "$root/srv/packages"
cp "$old" "$root/srv/old.deb"
cp -r "$here/inside.sh" "$here/../tests/shared/first_edition" "$root/srv"
cp /etc/resolv.conf "$root/etc/resolv.conf"
chroot "$root" sh -c 'apt-get update -qq && DEBIAN_FRONTEND=noninteractive apt-get install -qq -y --no-install-recommends \
    systemd systemd-sysv lintian curl adduser nftables python3' > "$room/log" 2>&1 || { tail -n 5 "$room/log"; exit 1; }

# ---- its systemd, in namespaces of its own
unshare --mount --pid --fork --uts --ipc --cgroup --propagation private sh -c '
    mount --bind "$1" "$1"
    mount -t proc proc "$1/proc"
    mount -t sysfs -o ro sysfs "$1/sys"
    if [ -e /sys/fs/cgroup/cgroup.controllers ]; then
        mount -t cgroup2 cgroup2 "$1/sys/fs/cgroup"
    else
        mount -t tmpfs tmpfs "$1/sys/fs/cgroup"
        mkdir "$1/sys/fs/cgroup/systemd"
        mount -t cgroup -o none,name=systemd cgroup "$1/sys/fs/cgroup/systemd"
    fi
    mount -t tmpfs tmpfs "$1/run"
    mount -t tmpfs tmpfs "$1/dev"
    for name in null zero full random urandom tty; do
        touch "$1/dev/$name"
        mount --bind "/dev/$name" "$1/dev/$name"
    done
    mkdir "$1/dev/shm" "$1/dev/pts"
    ln -s pts/ptmx "$1/dev/ptmx"
    hostname clean
    cd "$1"
    pivot_root . mnt
    umount -l /mnt
    exec env -i container=lxc PATH=/usr/sbin:/usr/bin:/sbin:/bin /lib/systemd/systemd --system' sh "$root" > "$room/log" 2>&1 &
outside=$!
tries=0
until booted=$(pgrep -P "$outside") && inside=$(nsenter -t "$booted" -a systemctl is-system-running 2> /dev/null) ||
    [ "${inside:-}" = degraded ]; do
    tries=$((tries + 1))
    [ "$tries" -lt 300 ] || { echo "package: the clean Debian doesn't boot"; exit 1; }
    sleep 0.1
done
nsenter -t "$booted" -a env -i HOME=/root PATH=/usr/sbin:/usr/bin:/sbin:/bin sh /srv/inside.sh
