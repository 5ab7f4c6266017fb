#!/bin/sh
# Installs Debian packages as root, and starts and enables none of their services:
#     sh tests/gate/install_packages.sh WHO LOG PACKAGE..
# WHO begins each line, one a phase; LOG gets what apt says. While it runs, /usr/sbin/policy-rc.d keeps packages from
# starting their services; afterwards units and boot scripts that weren't enabled before are disabled again.
set -u
who=$1 log=$2
shift 2
export DEBIAN_FRONTEND=noninteractive LC_ALL=C
policy=/usr/sbin/policy-rc.d
before=$(mktemp -d)

# (a machine that has just begun may be at its own upgrades, whose lock is awaited)
apt() {
    apt-get -o DPkg::Lock::Timeout=600 "$@"
}

# What begins with the machine: units that are enabled, and scripts of the older kind.
enabled() {
    systemctl --root=/ list-unit-files --state=enabled --no-legend 2> /dev/null | awk '{ print $1 }' | sort > "$1/units"
    find /etc/rc[2-5].d -name 'S*' 2> /dev/null | sed 's,.*/S[0-9][0-9],,' | sort -u > "$1/scripts"
}

disable_new() {
    mkdir "$before/now"
    enabled "$before/now"
    comm -13 "$before/scripts" "$before/now/scripts" | while read -r name; do update-rc.d "$name" disable; done
    comm -13 "$before/units" "$before/now/units" | while read -r name; do systemctl --root=/ disable "$name"; done
}

# Runs at the end, also when it is interrupted. A policy of the machine's own stays as it is.
put_back() {
    if [ -e "$before/policy" ]; then mv "$before/policy" "$policy"; else rm -f "$policy"; fi
    disable_new >> "$log" 2>&1
    rm -r "$before"
}

enabled "$before"
[ ! -e "$policy" ] || cp -p "$policy" "$before/policy"
trap put_back EXIT
trap 'exit 130' INT TERM HUP
printf '#!/bin/sh\nexit 101\n' > "$policy"
chmod 755 "$policy"

echo "$who: $# Debian packages are missing; FARM_INSTALL=no installs none. The log is $log"
echo "$who: fetches the lists of packages"
# (where no lists can be fetched, since another fetches them, those that are there may do)
apt update > "$log" 2>&1
counts=$(apt install --assume-no --no-install-recommends "$@" 2>&1 |
    sed -n 's/.* \([0-9]*\) newly installed.*/\1 packages with what they want/p; s/^Need to get \(.*\) of archives.*/\1 to fetch/p
        s/^After this operation, \(.*\) of additional.*/\1 on the disk/p' | paste -sd, | sed 's/,\([0-9]* [^0-9]\)/, \1/g; s/,\([0-9.]* [kMG]\)/, \1/g')
echo "$who: fetches $counts"
apt install -y --download-only --no-install-recommends "$@" >> "$log" 2>&1 || exit 1
echo "$who: installs them; no service of theirs is started or enabled"
apt install -y --no-install-recommends "$@" >> "$log" 2>&1 || exit 1
