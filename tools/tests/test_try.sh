#!/usr/bin/env bash
# `tools/try` passes all words on, with a copy of each file beside the network, and says first what it does.
cd "$(dirname "${BASH_SOURCE[0]}")/../.." || exit 1
room=$(mktemp -d)
trap 'rm -rf "$room"' EXIT
printf '%s\n' '#!/bin/sh' 'echo "$@"' >"$room/rt"
chmod +x "$room/rt"
said=$(PATH=$room:$PATH tools/try examples/overload/front.toml --capacities capacity.csv --seed=7 2>"$room/told")
failed=0
[[ $said == "try "*" -- run front.toml --capacities capacity.csv --seed=7" ]] || { echo "the words are: $said"; failed=1; }
[[ $said == *" --data capacity.csv=$PWD/examples/overload/capacity.csv "* ]] || { echo "the capacities aren't copied: $said"; failed=1; }
grep -q '^try: the program is built, without a proof' "$room/told" || { echo "it doesn't say what it does"; failed=1; }
[[ $(PATH=$room:$PATH tools/try --help) == "Builds the program "*" tools/try examples/desk/desk.toml"* ]] || { echo "it doesn't say what its words are"; failed=1; }
# A file with = in its name is left out and told, and line feeds belong to names.
mkdir "$room/data" && touch "$room/data/a=b.csv" "$room/data/end"$'\n' && cp examples/first/alarm.toml "$room/data/net"$'\n'
printf '%s\n' '#!/bin/sh' 'printf "[%s]" "$@"' >"$room/rt"
said=$(PATH=$room:$PATH tools/try "$room/data/net"$'\n' 2>"$room/told")
[[ $said == *"[end"$'\n'"=$room/data/end"$'\n'"]"*"[run][net"$'\n'"]" ]] || { echo "names with line feeds: $said"; failed=1; }
[[ $said != *a=b* ]] && grep -q "a=b.csv isn't copied" "$room/told" || { echo "a name with =: $said"; failed=1; }
exit $failed
