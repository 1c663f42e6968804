#!/bin/sh
# Writes the man page and the completions from the help texts of the built program, and tries them.
#
# usage: packed.sh PROGRAM
set -u
. "$(dirname "$0")/workplace.sh"
name=packed

python3 "$top/tools/helpers.py" "$program" "$work" || fail "helpers.py: status $?"

# the man page of find, laid out if groff is installed
if command -v groff > /dev/null; then
    groff -man -ww -Tutf8 "$work/ttx.1" > "$work/page" 2> "$work/said" || fail "the man page: groff, status $?"
    [ -s "$work/said" ] && fail "the man page: $(head -n 3 "$work/said")"
else
    echo "packed: there is no groff, so the man page isn't laid out"
    cp "$work/ttx.1" "$work/page"
fi
tr -s ' ' < "$work/page" | grep -q 'Reads CYCLE and SERVICE, in this order' || fail "the man page: no text of find"

# the completions that bash offers after these words
offered() {
    bash -c 'source "$1"; shift; COMP_WORDS=("$@"); COMP_CWORD=$(($# - 1)); compopt() { :; }; _ttx; echo "${COMPREPLY[@]}"' bash "$work/ttx.bash" "$@"
}
[ "$(offered ttx re)" = "refute replay report receive" ] || fail "bash: ttx re: $(offered ttx re)"
[ "$(offered ttx receive x --ki)" = "--kind" ] || fail "bash: --ki: $(offered ttx receive x --ki)"
[ "$(offered ttx show x 100 --as s)" = "svg" ] || fail "bash: --as s: $(offered ttx show x 100 --as s)"

count=0
for command in $("$program" --help | sed -n 's/^  \([a-z]*\)  .*/\1/p' | grep -vx help | sort -u); do
    for option in $("$program" "$command" --help | sed -n 's/^ *\(-h, \)*--\([a-z-]*\).*/\2/p'); do
        count=$((count + 1))
        grep -q "^        $command) .*'--$option\\[" "$work/_ttx" || fail "zsh: $command --$option"
        grep -q "__fish_seen_subcommand_from $command' -l $option" "$work/ttx.fish" || fail "fish: $command --$option"
    done
done
[ "$count" -gt 30 ] || fail "only $count options"
echo "packed: $count options, $failed failed"
[ "$failed" = 0 ]
