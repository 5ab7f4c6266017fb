#!/bin/sh
# Unpacks a Debian package, or the one that it stands for, into a cache, and installs nothing:
#     sh tests/gate/unpack.sh PACKAGE          # afterwards CACHE/PACKAGE has its files, as CACHE/PACKAGE/boot/vmlinuz-..
#     sh tests/gate/unpack.sh --there PACKAGE  # whether it is there
# CACHE is FARM_TEST_CACHE, or fizgruk-tests in the user's folder of caches.
set -eu
cache=${FARM_TEST_CACHE:-${XDG_CACHE_HOME:-$HOME/.cache}/fizgruk-tests}
if [ "$1" = --there ]; then
    [ -d "$cache/$2" ]
    exit
fi
package=$1
mkdir -p "$cache"
new=$(mktemp -d "$cache/.new-XXXXXX")
trap 'rm -rf "$new"' EXIT
# (a package without files of its own stands for the newest of its kind: linux-image-cloud-amd64)
real=$(apt-cache depends --important "$package" | sed -n 's/^  Depends: \(linux-image-.*\)/\1/p' | head -n 1)
mkdir "$new/files"
chmod 755 "$new/files"
(cd "$new" && apt-get download "${real:-$package}")
dpkg -x "$new"/*.deb "$new/files"
mv -T "$new/files" "$cache/$package"
