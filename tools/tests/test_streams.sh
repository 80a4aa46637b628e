#!/usr/bin/env bash
# A standard stream that is closed stays closed for the whole run: no file that the program opens later takes its place.
program=$1
room=$(mktemp -d)
trap 'rm -rf "$room"' EXIT
fail() {
    echo "$1"
    exit 1
}

cd "$room" || exit 1
seq 0 2999 | sed 's/.*/&,&/' >s.csv
cat >net.toml <<'NET'
version = 1
[[source]]
name = "s"
file = "s.csv"
fields = ["v:int"]
[[box]]
name = "f"
kind = "filter"
in = ["s"]
where = ["v < 0"]
[[box]]
name = "u"
kind = "union"
in = ["s", "f.1"]
[[output]]
name = "o"
from = "u"
NET
sed 's/s\.csv/\/dev\/stdin/' net.toml >pipe.toml

# It spills: where no name is left for its file, that is what it says.
mkdir taken
cp net.toml s.csv taken
touch taken/aurora.spill
(cd taken && seq 999 | sed 's/^/aurora.spill./' | xargs touch)
said=$(cd taken && "$program" run --frames 2 net.toml 2>&1 >/dev/null)
[ "$said" = "aurora: spill disk failed" ] || fail "this run doesn't spill, so it shows nothing: $said"

# What else has that name is left as it is, and the next one is taken.
mkdir mine
cp net.toml s.csv mine
echo mine >mine/aurora.spill
(cd mine && "$program" run --frames 2 net.toml >text 2>told) || fail "the run doesn't end well beside what has its file's name"
[ "$(cat mine/aurora.spill)" = mine ] || fail "what had the name of its file is another"
[ "$(find mine -name 'aurora.spill*' | wc -l)" = 1 ] || fail "a file is left beside it"

"$program" run --frames 2 net.toml >text 2>told || fail "the run doesn't end well with its streams open"
[ "$(grep -c ^o, text)" = 3000 ] || fail "the run has other lines"
"$program" run --frames 2 net.toml >&- 2>told
[ $? = 10 ] && [ "$(cat told)" = "aurora: output failed" ] || fail "with standard output closed: $(cat told)"
"$program" run --frames 2 net.toml 2>&- | cmp - text || fail "with standard error closed the lines are others"
"$program" run --frames 2 net.toml <&- | cmp - text || fail "with standard input closed the lines are others"
"$program" run --frames 2 net.toml >&- 2>&- <&-
[ $? = 10 ] || fail "with all three closed the run doesn't end with 10"
[ -z "$(find . -maxdepth 1 -name 'aurora.spill*')" ] || fail "a file is left"
"$program" run pipe.toml <s.csv | cmp - text || fail "a stream through standard input has other lines"
"$program" run pipe.toml <&- >text 2>told && fail "a stream of a standard input that is closed is empty"
[ ! -s text ] || fail "a stream of a standard input that is closed has lines"

[ -x "$AURORA_KEYS" ] || exit 0
"$AURORA_KEYS" net.toml s=v >&- 2>told
[ $? = 10 ] && [ "$(cat told)" = "aurora_keys: output failed" ] || fail "aurora_keys with standard output closed: $(cat told)"
