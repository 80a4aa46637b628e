#!/usr/bin/env bash
# zsh offers commands, options, values of options, and networks: asked of a zsh in a terminal of its own.
command -v zsh >/dev/null || { echo "skipped: zsh isn't installed"; exit 0; }
cd "$(dirname "${BASH_SOURCE[0]}")/../.." || exit 1
room=$(mktemp -d)
trap 'rm -rf "$room"' EXIT
cp tools/completion.zsh "$room/_aurora"
cd examples/overload || exit 1

# What would be offered is caught where it is added, between two lines with a byte 0.
cat >"$room/inner" <<INNER
PROMPT=
fpath=($room \$fpath)
autoload -Uz compinit
compinit -u -d $room/dump
bindkey '^I' complete-word
mark() { print -r -- \$'\\0' }
compprefuncs=(mark)
comppostfuncs=(mark exit)
zstyle ':completion:*' insert-tab false
compadd() {
    if [[ \${@[1,(i)(-|--)]} == *-(O|A|D)\\ * ]]; then
        builtin compadd "\$@"
        return
    fi
    local -a found
    builtin compadd -A found "\$@"
    (( \$#found )) && print -rl -- \$found
    builtin compadd "\$@"
}
print ready
INNER
cat >"$room/outer" <<'OUTER'
zmodload zsh/zpty
zpty inner zsh -f -i
zpty -w inner "source $1"
while zpty -r inner line; do [[ $line == ready* ]] && break; done
zpty -w -n inner "$2"$'\t'
integer marks=0
local -a offered
while zpty -r inner line; do
    for part in ${(f)line}; do
        if [[ $part == *$'\0'* ]]; then
            (( marks++ ))
        elif (( marks == 1 )); then
            offered+=(${part%$'\r'})
        fi
    done
    (( marks > 1 )) && break
done
print -r -- ${(ou)offered}
OUTER
failed=0

# offers WANTED LINE: what is offered at the end of a line, in the order of letters.
offers() {
    local said
    said=$(timeout 300 zsh -f "$room/outer" "$room/inner" "$2")
    if [ "$said" != "$1" ]; then
        echo "$2: '$said' for '$1'"
        failed=1
    fi
}

offers "audit gen run tap" "aurora "
offers "front.toml" "aurora run fr"
offers "--picks --policy" "aurora run front.toml --p"
offers "long rr seeded" "aurora run front.toml --policy="
offers "--decimals" "aurora-stream --de"
offers "d h m ms ns s us" "aurora-stream --tick "
offers "capacity.csv" "aurora-plan front.toml cap"
exit $failed
