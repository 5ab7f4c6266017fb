#!/bin/sh
# Builds the Debian packages of a built program, and prints where they are, a line each.
#     sh packaging/build.sh bin/farm bin
# Says what of it isn't there, and which of Debian's packages have it, and ends with status 1 then.
set -eu
if ! [ -x "$1" ]; then
    echo "package: not built, since there is no program $1: 'make bin' builds it"
    exit 1
fi
missing=
for tool in dpkg-buildpackage dh dh_python3 po2debconf pybuild register-python-argcomplete strip; do
    command -v "$tool" > /dev/null || missing="$missing, no $tool"
done
/usr/bin/python3 -c 'import setuptools' 2> /dev/null || missing="$missing, no python3-setuptools"
if [ -n "$missing" ]; then
    wanted=$(sed -n 's/^\([a-z0-9-]*\) .* deb .*/\1/p' "$(dirname "$0")/../tests/gate/packages.txt" | tr '\n' ' ')
    echo "package: not built, since there is ${missing#, }: apt install ${wanted}binutils python3-setuptools"
    exit 1
fi
program=$(realpath "$1")
to=$(realpath "$2")
cd "$(dirname "$0")/.."
folder=$(mktemp -d)
trap 'rm -r "$folder"' EXIT
umask 022
tree=$folder/fizgruk
mkdir "$tree"
cp -r packaging/debian tools python docs examples "$tree"
install -D -m 644 -t "$tree/packaging" packaging/desk.zsh
find "$tree" -name __pycache__ -prune -exec rm -r {} +
install -m 755 "$program" "$tree/farm"
(cd "$tree" && dpkg-buildpackage --build=binary --no-sign --no-check-builddeps) > "$folder/log" 2>&1 ||
    { tail -n 20 "$folder/log"; echo "package: it can't be built"; exit 1; }
for package in "$folder"/*.deb; do
    cp "$package" "$to"
    echo "$to/${package##*/}"
done
