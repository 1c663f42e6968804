# Sourced by scripts whose first argument is a program: finds the program and the top of the repository, and makes a folder for the
# script, which is removed at the end. `fail` reports and counts a failure in the case `name`.
[ -x "$1" ] || { echo "no program at $1" >&2; exit 1; }
program=$(realpath "$1")
top=$(cd "$(dirname "$0")/.." && pwd)
work=$(mktemp -d)
trap 'rm -rf "$work"' EXIT
failed=0

fail() {
    echo "FAILED $name: $1"
    failed=$((failed + 1))
}
