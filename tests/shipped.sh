#!/bin/sh
# Checks that what is shipped with the program agrees with it: the test data, the pictures, the demo, the scripts of examples/, and the
# logic that `version` names.
#
# usage: shipped.sh PROGRAM
set -u
. "$(dirname "$0")/workplace.sh"
here=$top/tests

name=data
python3 "$here/make_data.py" "$work/data" || fail "make_data.py: status $?"
diff -r "$work/data" "$here/data" > /dev/null || fail "tests/data isn't what make_data.py makes"

name=markup
python3 "$here/markup.py" "$here"/cases/expected/*.svg "$here"/cases/expected/*.html || fail "a picture isn't XML"

name=demo
sh "$top/demo/demo.sh" "$program" > "$work/demo" 2>&1 || fail "the demo ends with status $?"
cmp -s "$top/demo/expected" "$work/demo" || fail "it prints something else than demo/expected"

name=recipes
sh "$here/recipes.sh" "$program" > "$work/recipes" 2>&1 || fail "$(tail -n 3 "$work/recipes")"

name=logic
# a kit with another name may have the same logic
"$program" version > "$work/version" 2> "$work/said" || fail "version: status $?"
[ ! -s "$work/said" ] || fail "version: $(head -n 3 "$work/said")"
logic=$(sed -n 's/^logic //p' "$work/version")
[ -n "$logic" ] || fail "version names no logic"
rt version | head -n 1 | grep -q " logic $logic$" || fail "it is proved by another logic, or there is no rt"

echo "shipped: 5 checks, $failed failed"
[ "$failed" = 0 ]
