#!/bin/sh
# Prints how long viewers of news.toml wait in serial and in parallel transmission.
sed 's/^serial = .*/serial = true/' news.toml > serial.toml
sed 's/^serial = .*/serial = false/' news.toml > parallel.toml
for way in serial parallel; do
    ttx plan $way.toml $way.t42 > /dev/null
    ttx wait $way.t42 $way.toml | tail -n 1
done
