#!/bin/sh
# Looks into the Debian packages of a built program: sh tests/program/package.sh bin/farm [FOLDER]
# FOLDER has them, where they are built. What each has and does at its installation, that its tools say their help,
# each file's sum, each man page of docs/, each document that is named, and what lintian says where that is there.
# packaging/try.sh installs them in a clean Debian.
set -eu
. "$(dirname "$0")/../shared/folder.sh"
cd "$(dirname "$0")/../.."
if [ $# -gt 1 ]; then
    cp "$2"/*.deb "$folder"
elif ! built=$(sh packaging/build.sh "$farm" "$folder"); then
    case $built in
        'package: not built, since '*) left_out 'the packages' "${built#*since }" ;;
        *) fail "they aren't built: $built" ;;
    esac
    exit 0
fi
built=$(ls "$folder"/*.deb)
tree=$folder/tree
for deb in $built; do
    dpkg-deb -x "$deb" "$tree"
    name=$(dpkg-deb -f "$deb" Package)
    dpkg-deb -e "$deb" "$folder/$name"
    (cd "$tree" && md5sum --quiet -c "$folder/$name/md5sums") || fail "the sums of $name"
    dpkg-deb --fsys-tarfile "$deb" | tar -t > "$folder/$name/files"
    for script in preinst postinst prerm postrm; do
        [ ! -e "$folder/$name/$script" ] || sh -n "$folder/$name/$script" || fail "$name's $script is no script"
    done
done
[ "$(echo "$built" | wc -l)" = 6 ] || fail "it builds $built"

# ---- what each package has and needs
field() { dpkg-deb -f "$folder"/"$1"_*.deb "$2"; }
[ "$(field fizgruk-desk Architecture)" = all ] || fail "the client's architecture"
! grep -E '^./(lib|etc|usr/bin/farm)' "$folder/fizgruk-desk/files" || fail "the client's package has more than the client"
! grep -l 'systemctl\|deb-systemd\|adduser' "$folder"/fizgruk-desk/*inst || fail "the client's package starts something"
for file in lib/systemd/system/farm.service lib/systemd/system/farm-dispatch.service usr/bin/farm usr/bin/farm-dispatch \
    lib/systemd/system/farm-watch.service usr/bin/farm-watch \
    lib/systemd/system/farm-port.service usr/share/fizgruk/farm-port.nft etc/logrotate.d/fizgruk-farm \
    lib/systemd/system/farm-door.service usr/bin/farm-door etc/nginx/farm-door.conf \
    lib/systemd/system/farm-worker.socket lib/systemd/system/farm-worker@.service \
    lib/systemd/system/farm-backup.timer lib/systemd/system/farm-metrics.timer \
    usr/share/fizgruk/page/farm.html usr/share/fizgruk/page/farm.js usr/bin/farm-page etc/nginx/sites-available/farm; do
    grep -qx "./$file" "$folder/fizgruk-farm/files" || fail "fizgruk-farm has no $file"
done
for file in usr/share/fizgruk/farm-worker lib/systemd/system/farm-worker.service lib/systemd/system/farm-job-.service.d/farm.conf \
    etc/farm/run-job etc/farm/check-board etc/farm/run-job-labgrid etc/farm/run-job-lava; do
    grep -qx "./$file" "$folder/fizgruk-worker/files" || fail "fizgruk-worker has no $file"
done
for name in fizgruk-desk fizgruk-farm; do
    field fizgruk Depends | grep -q "$name (>= " || fail "2.0 isn't upgraded to $name"
    [ "$(field $name Breaks | grep -o '^fizgruk ([^)]*)')$(field $name Replaces)" = 'fizgruk (<< 2.0-1~)fizgruk (<< 2.0-1~)' ] ||
        fail "$name doesn't take the files of 2.0"
done
# (the commands of jobs were fizgruk-farm's until 2.0-1)
taken='fizgruk (<< 2.0-1~), fizgruk-farm (<< 2.0-2~)'
[ "$(field fizgruk-worker Breaks)$(field fizgruk-worker Replaces)" = "$taken$taken" ] || fail "fizgruk-worker doesn't take the files of 2.0-1"
! field fizgruk-worker Depends | grep 'python\|fizgruk' || fail "a machine that runs jobs needs more than its package"
field fizgruk-farm Depends | grep -q 'fizgruk-worker (= ' || fail "the desk's own machine runs no jobs"
for name in 'fizgruk-desk (= ' 'python3-fizgruk (= ' 'python3:any' nftables; do
    field fizgruk-farm Depends | grep -q "$name" || fail "fizgruk-farm doesn't depend on $name"
done
field fizgruk-desk Depends | grep -q 'python3-fizgruk (= ' || fail "the client doesn't depend on the library"

# ---- the way to boards is a package of its own, which enables nothing, and whose configuration sshd takes
for file in usr/bin/farm-access usr/share/fizgruk/farm_access/main.py etc/farm/access.toml etc/farm/farm-access-sshd.conf \
    etc/farm/port.d/access.nft lib/systemd/system/farm-access-sshd.service lib/systemd/system/farm-access-guard.service \
    lib/systemd/system/farm-access.service lib/systemd/system/farm-access-opener.service lib/systemd/system/farm-access-opener.socket \
    lib/systemd/system/farm-access-ssh.socket lib/systemd/system/farm-access-jobs.socket lib/systemd/system/farm-hold.slice \
    usr/share/man/man8/farm-access.8.gz; do
    grep -qx "./$file" "$folder/fizgruk-access/files" || fail "fizgruk-access has no $file"
done
! grep farm-access "$folder/fizgruk-farm/files" || fail "fizgruk-farm has the way to boards"
for name in 'fizgruk-farm (>= ' openssh-server dbus nftables; do
    field fizgruk-access Depends | grep -q "$name" || fail "fizgruk-access doesn't depend on $name"
done
for unit in farm-access-sshd farm-access-guard; do
    grep -q "debian-installed '$unit.service'" "$folder/fizgruk-access/postinst" || fail "$unit is enabled before it is set up"
done
if command -v sshd > /dev/null || [ -x /usr/sbin/sshd ]; then
    ssh-keygen -q -t ed25519 -N '' -f "$folder/ssh_host_ed25519_key"
    sed "s,/var/lib/farm-access-sshd,$folder," "$tree/etc/farm/farm-access-sshd.conf" > "$folder/sshd.conf"
    as=
    if [ "$(id -u)" = 0 ]; then
        chmod 755 "$folder"
        chown nobody "$folder/ssh_host_ed25519_key"
        as='setpriv --reuid nobody --regid nogroup --clear-groups'
    fi
    # shellcheck disable=SC2086 # (it is a command)
    $as /usr/sbin/sshd -t -f "$folder/sshd.conf" || fail "sshd doesn't take its configuration"
else
    left_out 'the configuration of sshd' 'there is no openssh-server'
fi

# ---- the Python package stands alone, and is the one that docs/PYTHON.md installs
[ "$(field python3-fizgruk Architecture)" = all ] || fail "the Python package's architecture"
! field python3-fizgruk Depends | grep fizgruk || fail "the Python package needs others"
! grep -vE '^./(usr/(lib/(python3/(dist-packages/(fizgruk.*)?)?)?|share/(doc/(python3-fizgruk/.*)?)?)?)?$' \
    "$folder/python3-fizgruk/files" || fail "the Python package has more than its modules and documents"
modules=$tree/usr/lib/python3/dist-packages
for file in python/src/fizgruk/*.py python/src/fizgruk/*/*.py python/src/fizgruk/py.typed; do
    inner=${file#python/src/}
    cmp -s "$file" "$modules/$inner" || fail "the packages have no $file"
    case $inner in
        fizgruk/desk/*) name=fizgruk-desk ;;
        *) name=python3-fizgruk ;;
    esac
    grep -qx "./usr/lib/python3/dist-packages/$inner" "$folder/$name/files" || fail "$name has no $file"
done
for file in tools/farm_*/*.py; do
    cmp -s "$file" "$tree/usr/share/fizgruk/${file#tools/}" || fail "fizgruk-farm has no $file"
done
said=$(PYTHONPATH=$modules /usr/bin/python3 -c 'import importlib.metadata as it; print(it.version("fizgruk"))')
[ "$said" = "$(field python3-fizgruk Version | sed 's,-.*,,')" ] || fail "the Python package's version $said"
if /usr/bin/python3 -c 'import pytest' 2> /dev/null; then
    (cd "$folder" && PYTHONPATH=$modules /usr/bin/python3 -m pytest --help) > "$folder/help"
    grep -q '^  --farm=TAGS' "$folder/help" || fail "pytest doesn't find the plugin"
else
    left_out 'the plugin of pytest' 'there is no python3-pytest'
fi
for name in fail2ban.conf farm-port-site.nft gitlab-ci.yml Jenkinsfile with-board.sh; do
    cmp -s "examples/$name" "$tree/usr/share/doc/fizgruk-desk/examples/$name" || fail "there is no example $name"
done
cmp -s docs/PYTHON.md "$tree/usr/share/doc/python3-fizgruk/PYTHON.md" || fail "python3-fizgruk has no PYTHON.md"

architecture=$(dpkg --print-architecture)
for name in $(grep -oh 'bin/[a-z3-]*fizgruk[^ ]*[.]deb' docs/setting-up.md docs/PYTHON.md | sed "s,bin/,,; s,amd64,$architecture," | sort -u); do
    [ -e "$folder/$name" ] || fail "docs/setting-up.md or docs/PYTHON.md names $name"
done

# ---- its units: enabled at the first installation alone, by what keeps an admin's choice
for unit in farm farm-dispatch farm-watch; do
    grep -q "was-enabled '$unit.service'" "$folder/fizgruk-farm/postinst" || fail "$unit isn't enabled"
done
for unit in farm-backup farm-metrics; do
    # (such a unit is enabled again where the admin had enabled it, and by nothing else)
    grep -q "debian-installed '$unit.timer'" "$folder/fizgruk-farm/postinst" || fail "$unit.timer is enabled"
done
! grep 'systemctl.* enable\|systemctl.* disable' "$folder"/fizgruk-farm/p* || fail "it enables what an admin disabled"
# (2.0 kept no note of what was disabled: it is made by the one of the two that comes first)
for name in fizgruk fizgruk-farm; do
    grep -q 'deb-systemd-helper update-state' "$folder/$name/preinst" || fail "$name forgets what was disabled in 2.0"
done
for line in StartLimitIntervalSec=0 Restart=on-failure LimitNOFILE=2048; do
    grep -qx "$line" "$tree/lib/systemd/system/farm.service" || fail "farm.service doesn't say $line"
done
grep -q -- '--port 880 ' "$tree/lib/systemd/system/farm.service" && grep -q '127.0.0.1:880;' "$tree/etc/nginx/sites-available/farm" ||
    fail "the desk's port"
# (nginx's user goes through the dispatcher's folder to the history and the logs, and no login does)
dispatch=$tree/lib/systemd/system/farm-dispatch.service
grep -qx StateDirectoryMode=0710 "$dispatch" && grep -q '^ExecStartPre=+.*setfacl .*u:www-data:x' "$dispatch" ||
    fail "who gets to the history"
grep -q '^d /var/lib/farm-dispatch 0710 ' "$tree/usr/lib/tmpfiles.d/fizgruk-farm.conf" || fail "who gets to the history at first"
grep -q 'root /var/lib/farm-dispatch;' "$tree/etc/nginx/sites-available/farm" || fail "nginx serves no history"
if grep -rn /usr/local "$tree/lib" "$tree/etc"; then fail "names of an installation by hand"; fi
if command -v systemd-analyze > /dev/null; then
    cp "$tree"/lib/systemd/system/*.timer "$folder"
    for unit in farm farm-port farm-dispatch farm-watch farm-backup farm-metrics farm-access-sshd farm-access-guard farm-access farm-access-opener; do
        sed "s,/usr/bin/,$tree/usr/bin/,; s,/etc/farm,$tree/etc/farm,g" "$tree/lib/systemd/system/$unit.service" > "$folder/$unit.service"
    done
    systemd-analyze --man=no verify "$folder"/*.service "$folder"/*.timer > "$folder/said" 2>&1 || :
    ! grep "$folder.*\(service\|timer\):" "$folder/said" || fail "its units"
else
    left_out 'its units' 'there is no systemd-analyze'
fi

# ---- programs and documents
export PYTHONPATH="$modules" PYTHONDONTWRITEBYTECODE=1
for name in farm $(cd tools && echo desk farm-*); do
    [ "$name" != farm-worker ] || continue # (a script, which has no --help)
    "$tree/usr/bin/$name" --help > "$folder/help" || fail "$name --help"
    grep -qi "^usage: $name" "$folder/help" || fail "$name --help prints '$(cat "$folder/help")'"
done
said=$("$tree/usr/bin/farm" --version)
version=$(field fizgruk-farm Version)
[ "$said" = "farm ${version%-*}" ] || fail "farm --version printed '$said'"
docs=/usr/share/doc/fizgruk-desk
for page in docs/*.[18]; do
    sed "s,docs/\([A-Za-z-]*[.]md\),$docs/\1,g" "$page" > "$folder/page"
    gunzip -c "$tree/usr/share/man/man${page##*.}/$(basename "$page").gz" | cmp -s - "$folder/page" || fail "$page isn't in it"
done
mkdir "$folder/pages"
for page in "$tree"/usr/share/man/man?/*.gz; do
    gunzip -c "$page" > "$folder/pages/$(basename "$page" .gz)"
done
for page in "$tree$docs"/*.md "$folder"/pages/* "$tree"/etc/farm/* "$tree/etc/nginx/sites-available/farm" "$tree"/lib/systemd/system/*; do
    [ -f "$page" ] || continue
    named=$(sed 's,[a-z/]*[A-Z]*[.]md of the source,,g' "$page" |
        grep -Eo '[a-z/-]*[A-Z]+[.]md|docs/[a-z-]+[.]md|docs/[a-z.-]+[0-9]|docs/[a-z]+[.]png|openapi[.]json' | sort -u)
    for name in $named; do
        name=$(basename -- "$name")
        [ -e "$tree$docs/$name" ] || [ -e "$tree/usr/share/man/man${name##*.}/$name.gz" ] ||
            fail "$(basename "$page") names $name, which isn't in it"
    done
done
if command -v lintian > /dev/null; then
    # shellcheck disable=SC2086
    lintian --allow-root --fail-on error,warning $built > "$folder/said" 2>&1 || fail "lintian says $(cat "$folder/said")"
else
    left_out 'what lintian says' 'there is no lintian'
fi
shown "client, server and Python package apart, units that an admin may disable, the tools, man pages and each document that is named"
