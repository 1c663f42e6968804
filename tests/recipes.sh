#!/bin/sh
# Runs the Makefile and each script of examples/ as docs/RECIPES.md and docs/SPLICES.md say, on the shipped example.
#
# usage: recipes.sh PROGRAM
set -u
. "$(dirname "$0")/workplace.sh"
mkdir "$work/bin" "$work/news"
ln -s "$program" "$work/bin/ttx"
PATH=$work/bin:$PATH
# the make of the gate would hand its own flags down to that of the recipe
unset MAKEFLAGS MFLAGS MAKELEVEL
cp "$top/examples/broadcast.toml" "$work/news/news.toml"
cd "$work/news" || exit 1
count=0
ran=

# begins the case of a recipe
recipe() {
    name="examples/$1"
    ran="$ran $1"
    count=$((count + 1))
}

# runs a script of the examples; its output is in `printed`
try() {
    recipe "$1"
    sh "$top/examples/$1" > "$work/printed" 2>&1 || fail "status $?: $(head -c 300 "$work/printed")"
}

recipe news.mk
make -s -f "$top/examples/news.mk" > "$work/printed" 2> "$work/said" || fail "make fails"
[ ! -s "$work/said" ] || fail "$(head -c 300 "$work/said")"
cut -d ' ' -f 1 news.yes | grep -qx yes || fail "no verdict"
# after a refused service the old files are still there
cp news.t42 kept
echo 'serial' >> news.toml
make -s -f "$top/examples/news.mk" > "$work/printed" 2>&1 && fail "make goes on"
grep -q "^refused: service 1 not-toml" "$work/printed" || fail "make says $(head -c 300 "$work/printed")"
cmp -s news.t42 kept || fail "news.t42 is touched"
cp "$top/examples/broadcast.toml" news.toml
touch news.t42 news.cert

name="empty slots"
count=$((count + 1))
ttx send news.t42 --at 61000/120000 --fields 50 --lines 12 > second.raw 2> "$work/said" || fail "status $?"
[ ! -s "$work/said" ] || fail "$(head -c 300 "$work/said")"
python3 - <<'P' || fail "empty slots are left out or put in"
data, cycle = open("second.raw", "rb").read(), open("news.t42", "rb").read()
slots = [cycle[i % len(cycle):i % len(cycle) + 42] for i in range(0, len(data), 42)]
sent = [data[i:i + 42] for i in range(0, len(data), 42)]
assert len(sent) == 50 * 12 and [any(s) for s in slots] == [any(s) for s in sent]
P

try serial-or-parallel.sh
[ "$(grep -cE '^all [0-9]+ fields [0-9]+\.[0-9]{2} s$' "$work/printed")" = 2 ] || fail "$(cat "$work/printed")"
# `wait` prints for all pages the deadline that `find` finds
for way in serial parallel; do
    deadline=$(ttx find $way.t42 $way.toml $way.cert 2>&1) || fail "$way: $deadline"
    grep -q "^all ${deadline#found deadline } fields " "$work/printed" || fail "$way: $deadline"
done

try verdict.sh
[ "$(cat "$work/printed")" = "$(cat news.yes)
every page is seen" ] || fail "it prints $(cat "$work/printed")"
cp news.t42 whole.t42
head -c 42 /dev/zero > news.t42
try verdict.sh
tail -n 1 "$work/printed" | grep -qx "not accepted, for the reason above: ttx refute looks for a viewer that fails" || fail "a no isn't reported"
rm news.t42
try verdict.sh
tail -n 1 "$work/printed" | grep -qx "nothing was judged" || fail "a fault isn't reported"
mv whole.t42 news.t42

# what comes back: two minutes and a part of one, in the second of which a packet is lost
ttx send news.t42 --at 61000/120000 --fields 6100 --lines 12 --phase 7 > "$work/received" 2> "$work/said" || fail "send: status $?"
[ ! -s "$work/said" ] || fail "send: $(head -c 300 "$work/said")"
lost=$(python3 -c 'import sys; data = open(sys.argv[1], "rb").read(); print(next(n for n in range(40000, 41000) if any(data[42 * n:42 * n + 42])))' "$work/received")
dd if=/dev/zero of="$work/received" bs=42 seek="$lost" count=1 conv=notrunc status=none
printf '#!/bin/sh\ncat "%s"\n' "$work/received" > "$work/bin/receiver"
printf '#!/bin/sh\ncat >> alarms\n' > "$work/bin/alarm"
chmod +x "$work/bin/receiver" "$work/bin/alarm"
try monitor.sh
[ "$(sed 's/ wrong.*//' alarms)" = "no slot $lost lost
no start 84 slots 73200" ] || fail "the alarms are $(cat alarms)"
[ "$(sed 's/^[^ ]* //; s/ wrong.*//' monitor.log)" = "slots 36000
slots 72000
total lost 1 bits 0 minute lost 0 bits 0" ] || fail "the log is $(cat monitor.log)"

# the worked page 100: the old cycle, and as the new one the same cycle turned by ten slots. With the deadline of the cycle alone, the
# loop ends at the turn that continues where the old period ended
recipe turns.sh
cp "$top/tests/data/base.t42" old.t42
cp "$top/tests/data/base.toml" old.toml
cp "$top/tests/data/base.toml" new.toml
cp "$top/tests/data/base.cert" old.cert
{ tail -c +421 old.t42; head -c 420 old.t42; } > new.t42
sh "$top/examples/turns.sh" 27 > said 2>&1 || fail "status $?"
[ "$(wc -l < said)" = 38 ] || fail "it tries $(wc -l < said) answers, not those of 19 turns"
[ "$(tail -n 1 said)" = yes ] || fail "it ends with $(tail -n 1 said)"
cmp -s turned.t42 old.t42 || fail "it ends with another cycle"

# an input under another name, or as standard input, is not overwritten
cp "$top/tests/data/base.toml" same.toml
ln same.toml linked.toml
ln -s same.toml named.toml
for out in same.toml linked.toml named.toml; do
    name="plan - $out"
    count=$((count + 1))
    [ "$(ttx plan - $out < same.toml 2>&1; echo $?)" = "refused: same
2" ] || fail "it isn't refused"
    cmp -s same.toml "$top/tests/data/base.toml" || fail "the input is touched"
done

name=examples
for file in "$top"/examples/*.sh "$top"/examples/*.mk; do
    case " $ran " in *" ${file##*/} "*) ;; *) fail "${file##*/} isn't run" ;; esac
done
echo "recipes: $count runs, $failed failed"
[ "$failed" = 0 ]
