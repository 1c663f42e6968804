#!/bin/sh
# Turns new.t42 slot by slot until splice accepts the change from old.t42 with this deadline: turned.t42, turned.cert.
#
# usage: turns.sh DEADLINE
slots=$(($(wc -c < new.t42) / 42))
for t in $(seq 0 $((slots - 1))); do
    { tail -c +$((42 * t + 1)) new.t42; head -c $((42 * t)) new.t42; } > turned.t42
    ttx find turned.t42 new.toml turned.cert --deadline "$1"
    ttx splice old.t42 turned.t42 old.toml new.toml old.cert turned.cert && break
done
