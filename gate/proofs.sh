#!/usr/bin/env bash
# Runs `rt ci`, which has to prove each crate and to reject each mutant of the tree. `rt ci` names a mutant whose old
# text is gone, and still ends with 0. Here such a mutant is an error.
#
# `rt ci` assumes that a proof takes more memory than it does, and proves one crate after the other where little memory
# is free. There RT_JOBS says how many crates are proved at once: 3 GB are enough for each.
set -uo pipefail
. "$(dirname "$(readlink -f -- "$0")")/help.sh"
cd "$(dirname "$(readlink -f -- "$0")")/.." || exit
said=$(mktemp)
trap 'rm -f "$said"' EXIT
processors=$(nproc) free=$(awk '/^MemAvailable/ { print int($2 / 1000000) }' /proc/meminfo)
if ((free < 4 * processors)); then
    export RT_JOBS=$((free / 3 < 1 ? 1 : free / 3 < processors ? free / 3 : processors))
fi
echo "proofs: ${RT_JOBS:-as many as rt chooses} at once, on $processors processors with $free GB of free memory"
read -r _ crates _ mutants _ < <(gate/tree.sh)
rt ci 2>&1 | tee "$said" && ! grep 'BAD EDIT' "$said" >&2 && [[ -o pipefail ]] &&
    grep -qx "$((crates + mutants)) passed, 0 failed" "$said" && echo "proofs: each crate and each mutant passed"
