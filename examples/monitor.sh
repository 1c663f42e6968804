#!/bin/sh
# Compares what comes back from the air with news.t42: a line a minute into monitor.log, and each breach of the error rule to alarm.
# receiver delivers slots of 42 bytes, zeros for an empty line, from any slot on.
receiver | ttx monitor news.t42 news.toml news.cert - --all --every 3000 | while read -r line; do
    case $line in
        no*) echo "$line" | alarm ;;
        *) echo "$(date -u +%FT%TZ) $line" >> monitor.log ;;
    esac
done
