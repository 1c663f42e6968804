#!/bin/sh
# Runs the built program with less and less memory (for data, in KiB: all that is allocated, without the stack), on a cycle of 65,520 slots
# and a service of 25 pages. Each command of `ttx --help` either does what it does with enough memory, or ends with `fault: memory`, status 3,
# and OUT empty or not made. Each command does both at some size. `help`, whose status is never 0, is left out.
#
# usage: memory.sh PROGRAM
set -u
. "$(dirname "$0")/workplace.sh"
cd "$work" || exit 1
cp "$top/examples/broadcast.toml" "$top/examples/harbour.toml" "$top/tests/data/base.toml" .
base=$top/tests/data/base.t42
for _ in $(seq $((65536 * 42 / $(wc -c < "$base")))); do cat "$base"; done > long.t42
"$program" find long.t42 base.toml long.cert > /dev/null || exit 1
"$program" find long.t42 base.toml clearing.cert --class clearing > /dev/null || exit 1
cp "$top/tests/data/base-26.counter" long.counter
runs=0
tried=

# Whether standard error has the first lines of what it has with enough memory, and then `fault: memory`.
is_told() {
    head -n -1 stderr > before
    [ "$(tail -n 1 stderr)" = "fault: memory" ] && cmp -s -n "$(wc -c < before)" before wanted.stderr
}

# Judges what a command did. Status 127: the program could not even be loaded.
judge() {
    case $status in
    0)
        finished=$((finished + 1))
        cmp -s wanted.stdout stdout && cmp -s wanted.stderr stderr && cmp -s wanted.out out || fail "it does something else"
        ;;
    3)
        refused=$((refused + 1))
        [ ! -s stdout ] && is_told && [ ! -s out ] || fail "status 3, and $(head -c 300 stderr)"
        ;;
    127) ;;
    *) fail "status $status" ;;
    esac
}

for command in "inspect long.t42" "plan broadcast.toml out" "plan broadcast.toml out --class clearing" \
    "find long.t42 base.toml out" "find long.t42 base.toml out --class clearing" "certify long.t42 base.toml long.cert" \
    "certify long.t42 base.toml clearing.cert" "certify long.t42 base.toml long.cert --late" "certify long.t42 base.toml long.cert --late --numbers" "monitor long.t42 base.toml long.cert long.t42" \
    "certify long.t42 base.toml long.cert --twice" "refute long.t42 base.toml long.cert" "preview broadcast.toml 130 --as ansi" "preview broadcast.toml --all" "receive long.t42 100 --slots 20000" "show long.t42 100 --slots 20000 --as ansi" \
    "splice long.t42 long.t42 base.toml base.toml long.cert long.cert" \
    "wait long.t42 base.toml" "send long.t42 --at 61000/000000 --fields 100 --lines 12" "replay long.t42 base.toml long.counter" "pages long.t42" "book long.t42 out" "report long.t42 base.toml long.cert out" "extract long.t42 out --lines 12" "compose harbour.toml out" "decompose broadcast.toml out" "check broadcast.toml" \
    "certify long.t42 base.toml long.cert --json" "wait long.t42 base.toml --json" "check broadcast.toml --long" "check harbour.toml" \
    "explain witness-bad" "version" "air broadcast.toml --within 5 --at 61000/000000 --fields 100"; do
    tried="$tried ${command%% *} "
    finished=0
    refused=0
    rm -f out
    : > wanted.out
    # the command is split into words here
    # shellcheck disable=SC2086
    "$program" $command > wanted.stdout 2> wanted.stderr || exit 1
    name=$command
    # only the log of air stands there
    [ "${command%% *}" = air ] || [ ! -s wanted.stderr ] || fail "standard error has $(head -c 300 wanted.stderr)"
    [ -f out ] && mv out wanted.out
    for room in $(seq 100 125 12600); do
        name="$command, $room KiB"
        : > out
        # shellcheck disable=SC2086
        (ulimit -d "$room" && exec "$program" $command) > stdout 2> stderr
        status=$?
        runs=$((runs + 1))
        judge
    done
    name=$command
    [ "$finished" -gt 0 ] || fail "it never has enough memory"
    [ "$refused" -gt 0 ] || fail "it is never refused memory"
done

for name in $("$program" --help | sed -n 's/^  \([a-z][a-z]*\)  .*/\1/p' | grep -vx help); do
    case $tried in
    *" $name "*) ;;
    *) fail "it is not tried" ;;
    esac
done

echo "memory: $runs runs, $failed failed"
[ "$failed" = 0 ]
