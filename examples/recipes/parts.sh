# Runs parts.toml over the ticks of long.csv from 0, 40 and 80 on, one part after another, and writes the lines of the whole run.
# A line of tick t needs the tuples up to t + 28, since the Aggregates on the way have the sizes 10 and 20: 9 + 19.
set -euo pipefail
network=$PWD/parts.toml stream=$PWD/long.csv room=$(mktemp -d)
trap 'rm -rf "$room"' EXIT
cd "$room"
for from in 0 40 80; do
    awk -F, -v from=$from '$1 >= from && $1 < from + 40 + 28' "$stream" >long.csv
    aurora run "$network" | awk -F, -v from=$from '
        /^@/ { whole = /^@end$/; next }
        $2 >= from && $2 < from + 40
        END { exit !whole }'
done
