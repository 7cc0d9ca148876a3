#!/usr/bin/env bash
# release.sh PROGRAM   release/ is whole, and PROGRAM, which the gate built, is the released one byte for byte where both were
# made from the same sources by the same toolchain. In a copy, a released program of which one byte differs is found by its
# checksum, and, with a checksum that fits it, by the comparison; a changed man page and one without a checksum are found too.
# A release is made only where a verdict is kept of each mutant over its sources, or CI tried each.
set -eu -o pipefail
export LC_ALL=C
here=$(cd "$(dirname "$0")/../.." && pwd)
program=$(readlink -f -- "$1")
cd "$here"
tools/release --check "$program"
room=$(mktemp -d)
trap 'rm -rf "$room"' EXIT
mkdir "$room/tree"
cp -R crates.txt HANDLES tools "$room/tree"
tar --exclude=out -cf - crates | tar -xf - -C "$room/tree"
cd "$room/tree"
mkdir -p release
cp "$program" release/cargo-edit
{ tools/sources && tools/sources --crates; } > release/SOURCES
rt version > release/TOOLCHAIN
sums() { (cd release && sha256sum cargo-edit SOURCES TOOLCHAIN > SHA256SUMS); }
says() { # status, text, arguments of tools/release; make: none; tried COMMIT: tools/tried_by_ci
  local status=0 arguments=(--check "$program")
  [ $# = 2 ] || arguments=("${@:3}")
  local tool=tools/release
  case ${arguments[0]-} in
    make) arguments=() ;;
    tried) tool=tools/tried_by_ci arguments=("${arguments[@]:1}") ;;
  esac
  "$tool" "${arguments[@]}" > "$room/out" 2>&1 || status=$?
  [ "$status" = "$1" ] && grep -q -F -- "$2" "$room/out" || { cat "$room/out"; echo "release.sh: not status $1 and: $2"; exit 1; }
}
sums
says 0 'the sources give the released program, byte for byte'
# one byte in the middle
size=$(stat -c %s release/cargo-edit)
printf '\x5a' | dd of=release/cargo-edit bs=1 seek=$((size / 2)) conv=notrunc status=none
! cmp -s "$program" release/cargo-edit || printf '\xa5' | dd of=release/cargo-edit bs=1 seek=$((size / 2)) conv=notrunc status=none
says 1 'a file of release/ is not the one that its checksum is of'
sums
says 1 'the sources do not give the released program'
# by another toolchain, the program may have other bytes
echo 'another kit' > release/TOOLCHAIN
sums
says 0 'made from the sources as they stand by another kit'
# newer sources, and a file that went, are seen
echo '# a line' >> crates.txt
says 0 'the sources are newer than the released program'
cp "$here/crates.txt" .
mv crates/edit_cli/src/plan.rt "$room"
says 0 'the sources are newer than the released program'
mv "$room/plan.rt" crates/edit_cli/src
# pages in Markdown are no sources
rm crates/edit_cli/README.md
says 0 'made from the sources as they stand by another kit'

# a release that would be made from these sources: no verdict is kept of their mutants, and then one of each
mkdir -p build crates/edit_cli/out
cp "$program" crates/edit_cli/out/edit_cli
echo "$(tools/sources) $(sha256sum < "$program")" > build/gate
rm -r release
export XDG_CACHE_HOME=$room/cache
says 1 'run tools/mutants --proved, which tries them' make
says 1 'crates/edit_unify/mutants/add_name-lists_no_crate.edit' make
[ ! -e release ] || { echo "release.sh: a release was made"; exit 1; }
cat > "$room/keep.py" << 'END'
import glob, os, sys
sys.dont_write_bytecode = True
sys.path.insert(0, "tools")
from toolchain import kit_sum, toolchain
from verdicts import Verdicts, usual_folder
kit = toolchain()
verdicts = Verdicts(kit_sum(kit), usual_folder())
for crate in kit.rtlib.crates_below(os.getcwd()):
    state = verdicts.state(crate)
    for file in glob.glob(crate.folder + "/mutants/*.edit"):
        with open(file, encoding="utf-8") as it:
            verdicts.keep(verdicts.name(state, it.read()), "kept by a test")
END
python3 "$room/keep.py"
says 0 'release: cargo-edit' make
says 0 'the sources give the released program, byte for byte'
# with it, the completions, man pages and help that are made of the program
tools/share_files --check release/cargo-edit release/share
page=release/share/man/man1/cargo-upgrade.1
cp "$page" "$room/page"
echo more >> "$page"
says 1 'a file of release/ is not the one that its checksum is of'
tools/release --share
cmp "$room/page" "$page"
touch release/share/man/man1/other.1
says 1 'a file of release/ has no checksum'
tools/release --share
[ ! -e release/share/man/man1/other.1 ] || { echo "release.sh: a page of no command stays"; exit 1; }
says 0 'the sources give the released program, byte for byte'
tools/sources --crates | diff - <(tail -n +2 release/SOURCES)
[ "$(head -n 1 release/SOURCES)" = "$(tools/sources)" ]
tools/mutants --third --kept > "$room/out"
grep -q '^chosen: .* a third, as no crate changed since the release$' "$room/out" || { cat "$room/out"; exit 1; }
# an edit that changed was not tried
echo 'differs: an input' >> crates/edit_unify/mutants/add_name-lists_no_crate.edit
echo "$(tools/sources) $(sha256sum < "$program")" > build/gate
says 1 'crates/edit_unify/mutants/add_name-lists_no_crate.edit' make
says 1 ' kept, 1 not' make

# or CI tried the mutants, over a commit that landed: all of them, but for crates as in the release that this commit had, of
# whose mutants verdicts have to be kept
git -c init.defaultBranch=main init -q .
printf 'out\n/build\n' > .gitignore
land() { git add -A && git -c user.name=tester -c user.email=tester@localhost commit -q -m "$1"; }
tools/sources > release/SOURCES
land 'with an older release'
echo 'landed HEAD' >> build/gate
says 0 'by the gate of HEAD or on this machine' make
says 0 'the sources give the released program, byte for byte'
land 'with the release of its sources'
says 1 'as in the release that HEAD had, and of these no verdict is kept' make
says 1 'crates/edit_unify/mutants/add_name-lists_no_crate.edit' make
says 0 'by the gate of HEAD~1 or on this machine' tried HEAD~1
python3 "$room/keep.py"
says 0 'by the gate of HEAD or on this machine' make
echo '# a line' >> crates.txt
{ echo "$(tools/sources) $(sha256sum < "$program")" && echo 'landed HEAD~1'; } > build/gate
says 1 'are not those of HEAD~1' make
says 1 'there is no commit elsewhere' tried elsewhere
