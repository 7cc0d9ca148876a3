#!/usr/bin/env bash
# prove_one.sh   tools/prove_one proves a function over the sources of the libraries below, or over built ones, and not one whose body
# is wrong.
set -eu -o pipefail
copy=$(mktemp -d)
trap 'rm -rf "$copy"' EXIT
cp -r crates.txt HANDLES tools "$copy"
mkdir "$copy/crates"
for crate in edit_base edit_store edit_terminal; do
  mkdir "$copy/crates/$crate"
  cp -r "crates/$crate/src" "crates/$crate/specs" "crates/$crate/proofs" "$copy/crates/$crate"
done
cd "$copy"
git init -q
sed -i -E '/^(edit_base|edit_store|edit_terminal):/!d' crates.txt
tools/prove_one edit_store memory_store::MemoryStore::new > said
grep '^fn edit_store::memory_store::MemoryStore::new: proved$' said
tools/prove_one --built edit_terminal characters::is_within > said
sed -i 's/    first <= code && code <= last/    first <= code/' crates/edit_terminal/src/characters.rt
! tools/prove_one edit_terminal characters::is_within > said
tail -n 1 said | grep '^only=1 proved=0$'
! tools/prove_one --built edit_terminal characters::is_within > said
grep '^fn edit_terminal::characters::is_within: no proof' said
