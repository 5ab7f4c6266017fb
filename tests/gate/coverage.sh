#!/bin/sh
# What `make coverage` runs: the branch coverage of tools/ and python/ by the tests, of the processes that they start
# too, as a table; it ends with 1 where a test fails, or where the whole stands below 95 %.
#     sh tests/gate/coverage.sh FARM PLAYER [WORD OF pytest..]
# Wants Debian's python3-coverage. COVERAGE_JOBS is how many tests run side by side, else as many as there are
# processors. Each process of Python that finds the setting in its environment begins to count as it starts, by what
# Python looks for in a user's own folder, which is one of the run's; nothing is installed. counted.py says how one that
# is killed keeps what it counted, and tests/shared/counting.py how what has another environment, account or machine
# counts, too.
set -eu
farm=$(realpath "$1")
player=$(realpath "$2")
shift 2
[ $# -gt 0 ] || set -- tests
cd "$(dirname "$0")/../.."
python=/usr/bin/python3
$python -c 'import coverage' 2> /dev/null || { echo "coverage: there is no python3-coverage"; exit 1; }
folder=$(mktemp -d)
trap 'rm -r "$folder"' EXIT
chmod 755 "$folder"
mkdir -m 1777 "$folder/counts"
cp tests/gate/counted.py "$folder"
site=$(PYTHONUSERBASE="$folder/user" $python -m site --user-site) || :
mkdir -p "$site"
export PYTHONUSERBASE="$folder/user" COVERAGE_PROCESS_START="$folder/settings"
installed=/usr/local/lib/farm-tools
cat > "$folder/settings" << WORDS
[run]
branch = True
parallel = True
data_file = $folder/counts/data
source =
    $PWD/tools
    $PWD/python/src
    $installed
[paths]
library =
    $PWD/python/src/fizgruk
    $installed/fizgruk
tools =
    $PWD/tools
    $installed
[report]
show_missing = True
skip_covered = True
precision = 1
exclude_lines =
    pragma: no cover
    if TYPE_CHECKING:
    if __name__ == .__main__.:
WORDS
PYTHONPATH=tests/shared $python -c 'import counting; print(counting.lines(), end="")' > "$site/usercustomize.py"
status=0
$python -m pytest "$@" --farm "$farm" --player "$player" -n "${COVERAGE_JOBS:-$(nproc)}" --dist loadgroup || status=$?
unset PYTHONUSERBASE COVERAGE_PROCESS_START
cd "$folder/counts"
$python -m coverage combine -q --rcfile ../settings
$python -m coverage report --rcfile ../settings --fail-under=95 || status=1
exit "$status"
