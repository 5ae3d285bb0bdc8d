#!/usr/bin/env bash
# Counts the crates, mutants, tests, examples and documents of the tree. ./check compares the counts with
# gate/wanted.tsv, so that none is lost unseen. With --write the script writes the counts there. Review them then.
set -uo pipefail
. "$(dirname "$(readlink -f -- "$0")")/help.sh"
cd "$(dirname "$(readlink -f -- "$0")")/.." || exit
crates=$(grep -c '^[a-z].*:' crates.txt)
mutants=$(find crates/*/must-fail -name '*.edit' | wc -l)
tests=$(grep -r '^#\[test\]' crates/*/src --include='*.rt' | wc -l)
examples=$(find examples/*/ -type f ! -name '*.*' | wc -l)
documents=$(git ls-files '*.md' | wc -l)
counted="tree: $crates crates, $mutants mutants, $tests tests, $examples examples, $documents documents"
[[ ${1-} != --write ]] || sed -i "s/tree: .*/$counted/" gate/wanted.tsv
echo "$counted"
