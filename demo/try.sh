#!/bin/sh
# Does the main job on shipped files without any proof: a page as an author sees it, and the verdict on a carousel.
#
# usage: try.sh
set -u
cd "$(dirname "$0")/../crates/ttx" || exit 1
data=../../tests/data

# prints a command before its output
say() {
    echo "\$ ttx $*"
}

echo "Nothing is proved here: rt compiles the program with run-time checks, runs it, and keeps no program."
say preview broadcast.toml 100 --as text
rt try --data broadcast.toml=../../examples/broadcast.toml -- preview broadcast.toml 100 --as text || exit 1
say certify base.t42 base.toml base.cert
rt try --data base.t42=$data/base.t42 --data base.toml=$data/base.toml --data base.cert=$data/base.cert -- \
    certify base.t42 base.toml base.cert
