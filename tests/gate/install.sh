#!/bin/sh
# Installs the Debian packages that a command of the Makefile wants and that are missing:
#     sh tests/gate/install.sh COMMAND
# By apt-get where this is root, or sudo asks for no password; else, and where FARM_INSTALL=no, it prints the one
# line to type. It takes no time where nothing is missing. No service that comes with them starts, now or with the
# machine (install_packages.sh). What the list says is `unpacked`, the kernel that tests boot, isn't installed: its
# files lie in a cache (unpack.sh), since /boot belongs to the machine's own kernel. The status is 0 where all is
# there at the end, else 1. Where there is no dpkg it says so, since it can't tell.
set -u
command=$1
here=$(dirname "$0")

# The packages of the list that a command wants: those to install, or with `unpacked` those of which files are enough.
listed() {
    awk -v command="$command" -v form="$1" '/^[^#]/ {
        wanted = 0; unpacked = 0
        for (at = 2; at <= NF && $at ~ /^(run|bin|test|check|wrong|bench|deb|coverage|unpacked)$/; at++) {
            if ($at == command) wanted = 1
            if ($at == "unpacked") unpacked = 1
        }
        if (wanted && unpacked == (form == "unpacked")) print $1
    }' "$here/packages.txt"
}

# Those that aren't installed.
missing() {
    wanted=$(listed installed)
    # shellcheck disable=SC2086 # (names are words)
    there=$(dpkg-query -W -f '${db:Status-Status} ${Package}\n' $wanted 2> /dev/null | sed -n 's/^installed //p')
    for package in $wanted; do
        printf '%s\n' "$there" | grep -qx "$package" || printf ' %s' "$package"
    done
}

# Those that aren't in the cache.
packed() {
    for package in $(listed unpacked); do
        sh "$here/unpack.sh" --there "$package" || printf ' %s' "$package"
    done
}

command -v dpkg-query > /dev/null || {
    echo "make $command: this is no Debian, so what is missing isn't looked at (tests/gate/packages.txt has a list)"
    exit 1
}
wants=$(missing)
unpacks=$(packed)
[ -n "$wants$unpacks" ] || exit 0
root=
if [ "$(id -u)" != 0 ]; then
    root=sudo
    sudo -n true 2> /dev/null || FARM_INSTALL=no
fi
if [ "${FARM_INSTALL-yes}" = no ]; then
    [ -z "$wants" ] || {
        echo "make $command: these Debian packages are missing. To install them, type:"
        echo "    ${root:+sudo }apt-get install --no-install-recommends$wants"
    }
    [ -z "$unpacks" ] || echo "make $command: not unpacked:$unpacks (sh tests/gate/unpack.sh PACKAGE)"
    exit 1
fi
log=$(mktemp)
status=0
if [ -n "$wants" ]; then
    # shellcheck disable=SC2086 # (it is a list of words)
    $root sh "$here/install_packages.sh" "make $command" "$log" $wants || status=1
fi
for package in $unpacks; do
    echo "make $command: unpacks $package, which isn't installed"
    sh "$here/unpack.sh" "$package" >> "$log" 2>&1 || status=1
done
if [ "$status" = 0 ]; then
    rm -f "$log"
    exit 0
fi
tail -n 5 "$log"
echo "make $command: not all could be installed:$(missing)$(packed); the log is $log"
exit 1
