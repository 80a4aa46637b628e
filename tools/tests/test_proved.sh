#!/usr/bin/env bash
# "Proved" is told by digests of a gate that came to its end: of the program, of the files below crates/, of the toolchain.
cd "$(dirname "${BASH_SOURCE[0]}")/../.." || exit 1
room=$(mktemp -d)
trap 'rm -rf "$room"' EXIT
fail() {
    echo "$1"
    exit 1
}

# A small checkout: the gate is the repository's own, what it runs is made up.
mkdir -p "$room/tree/crates/aurora/src" "$room/bin"
cp -r .ci Makefile README.md CONTRIBUTING.md LICENSE VERSION crates.txt tools docs examples "$room/tree"
cd "$room/tree" || exit 1
echo "fn main() {}" >crates/aurora/src/main.rt
for tool in $(grep -o 'tools/[a-z_]*' .ci/run | sort -u); do
    [ "$tool" = tools/proved ] || printf '#!/bin/sh\n[ "$LATER_STEPS" != fail ]\n' >"$tool"
done
cat >"$room/bin/rt" <<'RT'
#!/usr/bin/env bash
case $1 in
    version) echo "${KIT:-rattle-kit-13b logic dac8208d650f15bf}" ;;
    ci)
        mkdir -p crates/aurora/out crates/aurora_keys/out
        echo "what was proved" | tee crates/aurora/out/aurora >crates/aurora_keys/out/aurora_keys
        [ -z "$CHANGES" ] || echo >>crates/aurora/src/main.rt
        echo "1 passed, 0 failed" ;;
esac
RT
chmod +x "$room/bin/rt"
export PATH=$room/bin:$PATH
proved() { tools/proved "${1:-crates/aurora/out/aurora}" crates/aurora_keys/out/aurora_keys; }
says() { [ "$(proved "${2-}")" = "$1" ] || fail "not said: $1, but: $(proved "${2-}")"; }

says "no gate came to its end here"
[ "$(.ci/run | tail -n 1)" = "1 passed, 0 failed" ] || fail "the gate's last line isn't that of rt ci"
says proved
cp crates/aurora/out/aurora "$room/copy"
says proved "$room/copy"
KIT="rattle-kit-14 logic dac8208d650f15bf" says "the toolchain isn't the one that the gate proved with, rattle-kit-13b logic dac8208d650f15bf"

echo >>crates/aurora/src/main.rt
says "the files below crates/ aren't those that the gate proved"
echo "fn main() {}" >crates/aurora/src/main.rt
mkdir crates/aurora/src/out
touch crates/aurora/src/out/more.rt
says "the files below crates/ aren't those that the gate proved"
rm -r crates/aurora/src/out
says proved

# An unproved program at the proved one's path, younger than every source, is installed as what it is.
if command -v make >/dev/null; then
    words=(PROGRAM=crates/aurora/out/aurora KEYS=crates/aurora_keys/out/aurora_keys PREFIX="$room/place")
    make -s install "${words[@]}" | grep -q ': the proved program$' || fail "the proved program isn't installed as that"
    echo "what nobody proved" >crates/aurora/out/aurora
    make -s install "${words[@]}" | grep -q ": a program that is not proved: this aurora isn't the one that the gate proved$" || fail "an unproved program is installed as proved"
fi
echo "what nobody proved" >crates/aurora/out/aurora
says "this aurora isn't the one that the gate proved"
cp "$room/copy" crates/aurora/out/aurora
echo "what nobody proved" >crates/aurora_keys/out/aurora_keys
says "this aurora_keys isn't the one that the gate proved"

! LATER_STEPS=fail .ci/run >/dev/null || fail "a gate whose later steps fail doesn't fail"
says "no gate came to its end here"
.ci/run >/dev/null
says proved
CHANGES=1 .ci/run | grep -q "changed while the gate ran" || fail "the gate doesn't say that a file changed under it"
says "no gate came to its end here"

[ -z "$(tools/proved --toolchain)" ] || fail "a toolchain of README's is told as another: $(tools/proved --toolchain)"
KIT="rattle-kit-14 logic dac8208d650f15bf" tools/proved --toolchain | grep -q "trusts its logic, and names no try with this kit" || fail "another kit of the logic isn't told"
KIT="rattle-kit-13b logic 0000000000000000" tools/proved --toolchain | grep -q "trusts another logic" || fail "another logic isn't told"
