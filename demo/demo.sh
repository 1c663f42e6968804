#!/bin/sh
# Takes a service from its text to the air, on shipped files. Prints each command before its output.
#
# usage: demo.sh PROGRAM
set -u
. "$(dirname "$0")/../tests/workplace.sh"
cp "$top/examples/broadcast.toml" "$top/examples/harbour.toml" "$top/tests/data/often-3.toml" "$work"
cp "$top/tests/data/bad-slot.t42" "$top/tests/data/83-bytes" "$work"
cd "$work" || exit 1

# counts a status that is not as it should be, and prints any but 0: ended WANTED STATUS
ended() {
    [ "$2" = "$1" ] || failed=$((failed + 1))
    [ "$2" = 0 ] || echo "(status $2)"
    echo
}

# runs a command, with all its output
run() {
    run_to 0 "$@"
}

# the same for a command that ends with another status: run_to WANTED WORDS..
run_to() {
    wanted=$1
    shift
    echo "\$ ttx $*"
    "$program" "$@" 2>&1
    ended "$wanted" $?
}

# runs another tool, with all its output
show() {
    echo "\$ $*"
    "$@" || failed=$((failed + 1))
}

# on a terminal, keeps a file for a browser, and prints where it is
keep() {
    if [ -t 1 ]; then
        kept=$(mktemp -d) && cp "$1" "$kept" && echo "It stays as $kept/$1."
    fi
}

# runs a command, with the beginning of its first lines
front() {
    lines=$1
    shift
    echo "\$ ttx $* | head -n $lines | cut -c 1-77"
    "$program" "$@" > "$work/told" 2>&1
    status=$?
    head -n "$lines" "$work/told" | cut -c 1-77
    ended 0 $status
}

# runs a command, with the end of its output
back() {
    lines=$1
    shift
    echo "\$ ttx $* | tail -n $lines"
    "$program" "$@" > "$work/told" 2>&1
    status=$?
    tail -n "$lines" "$work/told"
    ended 0 $status
}

echo "A page of a service, as its author sees it before anything is sent."
run preview broadcast.toml 130
echo "The 25 pages of the service are laid out as a cycle of packets."
run plan broadcast.toml broadcast.t42
echo "Its first slots: packet 8/30, the page header of the index, an empty field, and the first rows."
front 20 inspect broadcast.t42
echo "A certificate names transmissions of each row of each page that no receiver may miss, and the least number of fields in which all are seen."
run find broadcast.t42 broadcast.toml broadcast.cert
show head -n 10 broadcast.cert
echo
echo "The longest wait for each page in seconds, and the item that causes it: the last pages, and all."
back 4 wait broadcast.t42 broadcast.toml
echo "The verdict on cycle, service and certificate: whoever tunes to a page, at any slot, sees it within so many fields."
run certify broadcast.t42 broadcast.toml broadcast.cert
echo "libzvbi's decoder shows a page only when another page number ends it in its magazine; in this cycle not every page is ended so."
run_to 1 certify broadcast.t42 broadcast.toml broadcast.cert --late
echo "Planned for such decoders, too: a time-filling header comes between two headers of one page number."
run plan broadcast.toml late.t42 --late
run find late.t42 broadcast.toml late.cert
run certify late.t42 broadcast.toml late.cert --late
echo "Whoever keys 110 and no subcode sees its three subpages in turn, and cannot read them: a stay may be less than a tenth of a second."
back 1 wait late.t42 broadcast.toml --numbers
echo "With --spread each stays for the eight seconds that the service asks for, and all other pages come between them."
run plan broadcast.toml spread.t42 --late --spread
run find spread.t42 broadcast.toml spread.cert
run certify spread.t42 broadcast.toml spread.cert --late --numbers
back 1 wait spread.t42 broadcast.toml --numbers
echo "What a receiver shows that was set to the forecast at slot 40; and its first rows for programs, a word for each cell."
run show broadcast.t42 131 --lines 12 --start 40
front 3 receive broadcast.t42 131 --lines 12 --start 40
echo "Now the cycle is broken: row 1 of the forecast is moved from slot 495 next to its header, where a receiver may miss it."
show cp broadcast.t42 broken.t42
show dd if=broadcast.t42 of=broken.t42 bs=42 skip=495 seek=483 count=1 conv=notrunc status=none
show dd if=/dev/zero of=broken.t42 bs=42 seek=495 count=1 conv=notrunc status=none
echo
run_to 1 certify broken.t42 broadcast.toml broadcast.cert
echo "No other certificate is accepted either, so none is written."
run_to 1 find broken.t42 broadcast.toml none.cert
echo "This is a real failure: a receiver that keeps the rules still shows the page wrong after the deadline."
run_to 1 refute broken.t42 broadcast.toml broadcast.cert --save viewer
echo "That receiver misses row 1 each time, and shows what it held before. The row as it is shown, and as the page has it:"
front 5 replay broken.t42 broadcast.toml viewer
echo "Tomorrow's forecast. The carousel is changed at a period's end; is each page that stays seen right through the change?"
echo "\$ sed 's/0001Storm /0003Sunny /' broadcast.toml > tomorrow.toml"
sed 's/0001Storm /0003Sunny /' broadcast.toml > tomorrow.toml || failed=$((failed + 1))
run plan tomorrow.toml tomorrow.t42
run find tomorrow.t42 tomorrow.toml tomorrow.cert
run splice broadcast.t42 tomorrow.t42 broadcast.toml tomorrow.toml broadcast.cert tomorrow.cert
echo "An author's text, with accents, colours and mosaics as they look, becomes a service text, a cycle, and a page on a screen."
run compose harbour.toml harbour-service.toml
run plan harbour-service.toml harbour.t42
run show harbour.t42 100 --lines 12
echo "All pages as one HTML file for a browser, with an index: three typed digits lead to a page."
run book broadcast.t42 broadcast.html
show ls broadcast.html
keep broadcast.html
echo
echo "A wrong bit in the address of the fifth slot: it is read, and the line says that it was corrected."
front 5 inspect bad-slot.t42
echo "A file that cannot be read is refused, with the place; and the place of an author's mistake is reported."
run_to 2 inspect 83-bytes
run_to 2 plan often-3.toml refused.t42
run_to 2 check often-3.toml
echo "On the air, an author saves tomorrow's text, and the pages follow. Here the service is a pipe, with a text for each time that ttx looks."
# puts a text where the service is looked for, once it is
save() {
    exec 3> service
    mkfifo next
    mv next service
    cat "$1" >&3
    exec 3>&-
}
mkfifo service
{ save broadcast.toml; while :; do save tomorrow.toml; done; } &
author=$!
echo "\$ ttx air service --within 5 --at 61369/110000 --offset 2 --fields 375 > air.t42"
"$program" air service --within 5 --at 61369/110000 --offset 2 --fields 375 > air.t42 2> air.log
status=$?
cut -c 1-77 air.log
kill $author
wait $author 2> /dev/null
ended 0 $status
echo "The forecast on a receiver that got the last two periods:"
echo "\$ tail -c 126000 air.t42 > end.t42"
tail -c 126000 air.t42 > end.t42 || failed=$((failed + 1))
run show end.t42 131 --lines 12

[ "$failed" = 0 ] || echo "FAILED demo: $failed commands end with another status" >&2
[ "$failed" = 0 ]
