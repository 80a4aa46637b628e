#!/usr/bin/env bash
# Completion offers commands, options that aren't given yet, values of options, and networks.
cd "$(dirname "${BASH_SOURCE[0]}")/../.." || exit 1
source tools/completion.bash
cd examples/overload || exit 1
failed=0

# offers WANTED WORD..: the last word is to be completed.
offers() {
    local wanted=$1
    COMP_WORDS=("${@:2}") COMP_CWORD=$(($# - 2))
    _aurora
    if [ "${COMPREPLY[*]}" != "$wanted" ]; then
        echo "${COMP_WORDS[*]}: '${COMPREPLY[*]}' for '$wanted'"
        failed=1
    fi
}

offers "run gen audit tap" aurora ""
offers "run" aurora r
offers "front.toml" aurora run ""
offers "--capacities --policy --seed --picks --train --frames" aurora run front.toml --
offers "" aurora run front.toml --seed 3 --se
offers "--policy --picks" aurora run front.toml --seed = 3 --p
offers "rr long seeded" aurora run front.toml --policy ""
offers "rr long seeded" aurora run front.toml --policy =
offers "long" aurora run front.toml --policy = l
offers "capacity.csv" aurora run front.toml --capacities cap
offers "" aurora gen ""
offers "front.toml" aurora audit ""
offers "capacity.csv" aurora audit front.toml cap
offers "" aurora audit front.toml text ""
offers "front.toml" aurora tap ""
offers "" aurora tap front.toml ""
offers "front.toml" aurora tap front.toml tens 60 0 fr

# offers_of WANTED TOOL WORD..: the last word is to be completed.
offers_of() {
    local wanted=$1
    COMP_WORDS=("${@:2}") COMP_CWORD=$(($# - 2))
    _aurora_tool "$2"
    if [ "${COMPREPLY[*]}" != "$wanted" ]; then
        echo "${COMP_WORDS[*]}: '${COMPREPLY[*]}' for '$wanted'"
        failed=1
    fi
}

offers_of "--unit" aurora-stream --u
offers_of "ns us ms s m h d" aurora-stream --tick ""
offers_of "--hints --help" aurora-explain --h
offers_of "--version" aurora-explain --v
offers_of "capacity.csv" aurora-plan front.toml cap

# A name with a dash at its start needs its folder; what is cut off at a line feed is no name.
room=$(mktemp -d)
trap 'rm -rf "$room"' EXIT
cd "$room" || exit 1
touch -- -opt.toml $'a\nb.toml' plain.toml
offers "plain.toml ./-opt.toml" aurora run ""
offers_of "./-opt.toml" aurora-plan ./-
exit $failed
