#!/usr/bin/env bash
# What `make install` puts down runs from there, `make uninstall` takes all of it away, and the package holds the same.
program=$1
cd "$(dirname "${BASH_SOURCE[0]}")/../.." || exit 1
room=$(mktemp -d)
trap 'rm -rf "$room"' EXIT
missing() { echo "skipped: $1 isn't installed"; }

fail() {
    echo "$1"
    exit 1
}

command -v make >/dev/null || { missing make; exit 0; }
(umask 077 && make -s install PROGRAM="$program" PREFIX="$room/my place" >"$room/said") || fail "make install failed"
[ -z "$(find "$room/my place" ! -type l ! -perm -o+r)" ] || fail "others can't read $(find "$room/my place" ! -type l ! -perm -o+r | head -n 1)"
PATH="$room/my place/bin:$PATH"
(cd "$room/my place/share/doc/aurora/examples/desk" && aurora run desk.toml >"$room/text" && aurora-output --csv - --output averages desk.toml "$room/text") |
    diff - <(echo time,symbol,trades,average; grep ^averages examples/desk/expected.txt | cut -d, -f2-) || fail "the installed program or tool doesn't answer"
for tool in plan stream output; do
    "aurora-$tool" --help | grep -q "aurora-$tool" || fail "aurora-$tool isn't installed"
    [[ "$("aurora-$tool" --version)" == "aurora-$tool $(cat VERSION)"* ]] || fail "aurora-$tool doesn't tell the installed version"
done
grep -q '^#compdef aurora ' "$room/my place/share/zsh/site-functions/_aurora" || fail "the completion of zsh isn't installed"
[ -f "$room/my place/share/doc/aurora/examples/first/../../docs/network.schema.json" ] || fail "examples don't find their schema"
[ "$(gzip -dc "$room/my place/share/man/man1/aurora.1.gz" | tail -n +2)" = "$(tail -n +2 docs/aurora.1)" ] || fail "the manual page isn't installed"
gzip -dc "$room/my place/share/man/man1/aurora.1.gz" | head -n 1 | grep -qF "aurora $(cat VERSION)" || fail "the manual page doesn't tell its version"
for tool in plan stream output; do
    gzip -dc "$room/my place/share/man/man1/aurora-$tool.1.gz" | grep -q '^.SH SYNOPSIS' || fail "aurora-$tool has no manual page"
done
mkdir -p "$room/my place/share/doc/aurora/mine"
touch "$room/my place/share/doc/aurora/mine/notes" "$room/my place/lib/aurora/also_mine" "$room/my place/bin/other"
make -s uninstall PREFIX="$room/my place" || fail "make uninstall failed"
[ "$(cd "$room/my place" && find . -type f -o -type l | LC_ALL=C sort | paste -sd ' ')" = "./bin/other ./lib/aurora/also_mine ./share/doc/aurora/mine/notes" ] ||
    fail "make uninstall leaves or takes too much: $(find "$room/my place" -type f -o -type l)"
! make -s uninstall PREFIX="$room/my place" 2>/dev/null || fail "make uninstall says nothing of a folder where nothing was installed"
# What a prefix has in it is no word of make's or of the shell's.
odd="$room/a \"b\" \$(touch $room/ran) \`touch $room/ran\` 'c' %d;e"
make -s install PROGRAM="$program" PREFIX="$odd" >/dev/null || fail "make install failed with odd letters in its prefix"
[ -x "$odd/bin/aurora" ] && [ ! -e "$room/ran" ] || fail "a prefix isn't taken letter by letter"
# An older version's file goes where it isn't made any more.
touch "$odd/bin/aurora-older"
echo bin/aurora-older >>"$odd/lib/aurora/INSTALLED"
PREFIX="$odd" tools/install "$program" 0.1 >/dev/null && [ ! -e "$odd/bin/aurora-older" ] || fail "a file of an older version is left"

command -v dpkg-deb >/dev/null || { missing dpkg-deb; exit 0; }
command -v rt >/dev/null || { missing "the toolchain, whose notices a package has,"; exit 0; }
tools/package "$program" 0.1 amd64 "$room/aurora.deb" >/dev/null || fail "no package was made"
sleep 1
(umask 077 && tools/package "$program" 0.1 amd64 "$room/again.deb" >/dev/null) && cmp "$room/aurora.deb" "$room/again.deb" || fail "two packages of the same files differ"
dpkg-deb -x "$room/aurora.deb" "$room/packaged" || fail "the package can't be opened"
[ "$(dpkg-deb -f "$room/aurora.deb" Version)" = 0.1 ] || fail "the package has another version"
[ ! -e "$room/packaged/usr/lib/aurora/INSTALLED" ] || fail "the package has a list beside that of dpkg"
for word in Format: 'Files: *' 'License: Apache-2.0 or Expat' 'Andrew Gallant' /usr/share/common-licenses/Apache-2.0; do
    grep -qF "$word" "$room/packaged/usr/share/doc/aurora/copyright" || fail "the package's copyright lacks $word"
done
(cd examples/first && "$room/packaged/usr/bin/aurora" run alarm.toml) | diff - examples/first/expected.txt || fail "the packaged program doesn't run"
[ -x "$room/packaged/usr/bin/aurora-plan" ] && [ -f "$room/packaged/usr/share/man/man1/aurora.1.gz" ] || fail "the package isn't whole"
