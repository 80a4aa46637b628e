# Completion of aurora's words for bash.

_aurora_options()
{
    local given=" ${COMP_WORDS[*]} " option
    for option in --capacities --policy --seed --picks --train --frames; do
        [[ $given == *" $option"[\ =]* ]] && [ "$option" != "$1" ] || echo "$option"
    done
}

# Names of files as words: one that begins with a dash needs its folder before it, and what a line feed in a name cuts off is none.
_aurora_names()
{
    local name
    while IFS= read -r name; do
        [[ $name == -* ]] && name=./$name
        if [[ $name == '~'* || -e ${name%/} ]]; then printf '%s\n' "$name"; fi
    done
}

_aurora()
{
    local at=$((COMP_CWORD - 1)) word=${COMP_WORDS[COMP_CWORD]}
    # bash cuts `--name=value` at the sign, which is a word of its own.
    if [ "$word" = = ]; then
        word=
    elif [ "${COMP_WORDS[at]}" = = ]; then
        at=$((at - 1))
    fi
    local before=${COMP_WORDS[at]}
    COMPREPLY=()
    if [ "$COMP_CWORD" = 1 ]; then
        mapfile -t COMPREPLY < <(compgen -W "run gen audit tap" -- "$word")
        return
    fi
    if [ "${COMP_WORDS[1]}" = audit ]; then
        # The network, and then a text.
        case $COMP_CWORD in
            2) mapfile -t COMPREPLY < <({ compgen -f -X '!*.toml' -- "$word"; compgen -d -S / -- "$word"; } | _aurora_names) ;;
            3) mapfile -t COMPREPLY < <(compgen -f -- "$word" | _aurora_names) ;;
        esac
        return
    fi
    if [ "${COMP_WORDS[1]}" = tap ]; then
        # The network, a stream, a tick and a history, and then the query.
        case $COMP_CWORD in
            2 | 6) mapfile -t COMPREPLY < <({ compgen -f -X '!*.toml' -- "$word"; compgen -d -S / -- "$word"; } | _aurora_names) ;;
        esac
        return
    fi
    [ "${COMP_WORDS[1]}" = run ] || return
    case $before in
        --policy) mapfile -t COMPREPLY < <(compgen -W "rr long seeded" -- "$word") ;;
        --capacities | --picks) mapfile -t COMPREPLY < <(compgen -f -- "$word" | _aurora_names) ;;
        --seed | --train | --frames) ;;
        *)
            if [[ $word == -* ]]; then
                mapfile -t COMPREPLY < <(compgen -W "$(_aurora_options "$word")" -- "$word")
            else
                mapfile -t COMPREPLY < <({ compgen -f -X '!*.toml' -- "$word"; compgen -d -S / -- "$word"; } | _aurora_names)
            fi
            ;;
    esac
}

# The options of the tools, as tools/pages --words tells them.
_aurora_tool_words()
{
    sed -n "s/^${1#aurora-}: //p" <<'WORDS'
draw: --network --column --seconds
explain: --program --messages --hints --capacities
output: --csv --jsonl --sqlite --output --field --tick --origin
plan: --epoch --full --tuple --seed --load
report: --seconds --title
shard: --time --slices --bytes --delay --on-time --capacities --work --resume --sshlogin --slurm --merge --program --keys --slicer
stream: --time --unit --zone --tick --origin --down --field --decimals --cut --number --missing --true --false --comma --sort --running --form --separator --name --long
WORDS
}

_aurora_tool()
{
    local word=${COMP_WORDS[COMP_CWORD]} before=${COMP_WORDS[COMP_CWORD - 1]}
    COMPREPLY=()
    case $before in
        --tick) mapfile -t COMPREPLY < <(compgen -W "ns us ms s m h d" -- "$word") ;;
        --unit) mapfile -t COMPREPLY < <(compgen -W "iso s ms us ns" -- "$word") ;;
        --form) mapfile -t COMPREPLY < <(compgen -W "csv tsv jsonl clf" -- "$word") ;;
        *)
            if [[ $word == -* ]]; then
                mapfile -t COMPREPLY < <(compgen -W "$(_aurora_tool_words "$1") --help --version" -- "$word")
            else
                mapfile -t COMPREPLY < <(compgen -f -- "$word" | _aurora_names)
            fi
            ;;
    esac
}

complete -o filenames -F _aurora aurora
complete -o filenames -F _aurora_tool aurora-draw aurora-explain aurora-output aurora-plan aurora-report aurora-shard aurora-stream
