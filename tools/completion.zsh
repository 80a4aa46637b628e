#compdef aurora aurora-draw aurora-explain aurora-output aurora-plan aurora-report aurora-shard aurora-stream
# Completion of aurora's words, and of its tools', for zsh. It is installed as _aurora.

# The options of the tools, as tools/pages --zsh tells them.
_aurora_tool_options()
{
    sed -n "s/^${1#aurora-} //p" <<'WORDS'
draw --network[the network file]:NET:_files
draw *--column[shows another field of an output than its last]:OUTPUT=FIELD: 
draw --seconds[shows ticks as seconds since 1970, in UTC]
explain --program[runs this program]:PROGRAM:_files
explain --messages[runs nothing the messages of an earlier run of these words ..]:FILE:_files
explain --hints[runs nothing of a network that runs it tells what nothing ..]
explain --capacities[as --policy, --seed, --picks, --train and --frames an option ..]:FILE:_files
output --csv[a file of CSV for each output]:FOLDER:_files -/
output --jsonl[a file of lines of JSON for each output]:FOLDER:_files -/
output --sqlite[a table for each output]:DATABASE:_files
output *--output[this output alone]:NAME: 
output *--field[a number field of a smaller unit, in each output that has it ..]:FIELD.int.N: 
output *--field[a number field of ticks as times in UTC, as 2026-03-01T000000Z]:FIELD.time: 
output --tick[what a tick is then s (where none is given), ms, us, ns, or ..]:UNIT:(ns us ms s m h d)
output --origin[which time is tick 0 then, as 2026-03-01T000000Z]:TIME: 
plan *--epoch[shows this epoch alone, but compares all]:E: 
plan --full[TEXT is that of a run without capacities the plans are those ..]
plan --tuple[tells instead what becomes of the tuples of a tick in a ..]:STREAM: :TICK: 
plan --seed[the seed of the run, whose draws these are]:N: 
plan --load[plans nothing it tells which epoch has the greatest load by ..]
report --seconds[shows ticks as seconds since 1970, in UTC]
report --title[heads the page]:TEXT: 
shard --time[cuts by time]
shard --slices[at most so many slices of about as many bytes, unless a run ..]:N: 
shard --bytes[slices of at most so many bytes of all sources together ..]:N: 
shard --delay[how late a tuple may come to a BSort at most so many ticks ..]:TICKS: 
shard --on-time[says that no BSort leaves out a tuple, so that keys are ..]
shard --capacities[the capacities of each part]:FILE:_files
shard --work[where the parts lie `parts` where none is named]:FOLDER:_files -/
shard --resume[runs those parts again that didnt end well, and keeps what did]
shard --sshlogin[the machines that run parts, as ssh takes their names, each ..]:HOSTS: 
shard --slurm[runs nothing writes an array job to FOLDER/job, and shows ..]
shard --merge[puts together parts that have been run]:FOLDER:_files -/
shard --program[the program that runs a part, aurora]:PROGRAM:_files
shard --keys[the program that is asked about keys, aurora_keys]:PROGRAM:_files
shard --slicer[the program that is asked about slices of time, aurora_slices]:PROGRAM:_files
stream --time[the column with the time of a line]:COLUMN: 
stream --unit[what is in it s, ms, us or ns since 1970 or since any other ..]:UNIT:(iso s ms us ns)
stream --zone[the zone of times without an offset, as Europe/Berlin, in ..]:NAME: 
stream --tick[what a tick is s (where none is given), ms, us, ns, or m, h, ..]:UNIT:(ns us ms s m h d)
stream --origin[which time is tick 0, in ISO 8601 or as in the column]:TIME: 
stream --down[times between two ticks go to the earlier one]
stream *--field[takes a column, under a name, as int, bool, text, as int.N a ..]:COLUMN=NAME.KIND: 
stream *--decimals[the numbers of a column that is guessed have N digits behind ..]:COLUMN=N: 
stream --cut[texts over 255 bytes are cut there, and standard error tells ..]
stream --number[the lines numbers, from 1, in a field of their own, which is ..]:FIELD: 
stream *--missing[a word that stands for what is missing, as NA]:WORD: 
stream *--true[a word for true beside true]:WORD: 
stream *--false[a word for false beside false]:WORD: 
stream --comma[numbers have a decimal comma 12,5]
stream --sort[puts the lines in the order of their times, those of one time ..]
stream --running[for a log with one time and lines out of order the tick is ..]:FIELD: 
stream --form[csv, tsv, jsonl (lines of JSON or one array) or clf an ..]:FORM:(csv tsv jsonl clf)
stream --separator[what stands between the fields of CSV]:CHARACTER: 
stream --name[of the source]:NAME: 
stream --long[more than 1,000,000 tuples or 67,108,864 bytes, which one run ..]
WORDS
}

_aurora_program()
{
    local -a run=(
        '--capacities=[the capacity of each epoch]:FILE:_files'
        '--seed=[the number that draws come from]:N: '
        '(--picks)--policy=[in which order boxes run]:POLICY:(rr long seeded)'
        '(--policy)--picks=[a file that says which box runs next]:FILE:_files'
        '--train=[how many tuples a box takes at once]:N: '
        '--frames=[how many frames of memory a run takes]:N: '
    )
    if (( CURRENT == 2 )); then
        local -a commands=('run:runs a network' 'gen:runs a network that a number makes' 'audit:judges a text by its network' 'tap:asks a stream of a network')
        _describe command commands
        return
    fi
    local command=$words[2]
    shift words
    (( CURRENT-- ))
    case $command in
        run) _arguments $run '1:NET:_files -g "*.toml"' ;;
        audit) _arguments '1:NET:_files -g "*.toml"' '2:OUT:_files' ;;
        tap) _arguments '1:NET:_files -g "*.toml"' '2:STREAM: ' '3:TICK: ' '4:HISTORY: ' '5:QUERY:_files -g "*.toml"' ;;
        gen) _arguments '1:NUMBER: ' '2:ROWS: ' ;;
    esac
}

if [[ $service == aurora ]]; then
    _aurora_program
else
    _arguments ${(f)"$(_aurora_tool_options $service)"} '--help[shows its words]' '--version[shows the version]' '*:FILE:_files'
fi
