#!/usr/bin/env bash
# Runs the built program as a user does: each exit status, both outputs, each size, and arguments that are hard to read.
# The reading of lines and words is proved, so here are only a few of each, which show that the program reads them so.
set -uo pipefail
. "$(dirname "$(readlink -f -- "$0")")/help.sh"
cd "$(dirname "$(readlink -f -- "$0")")/.." || exit
program=crates/arcbench/out/arcbench folder=$(mktemp -d) passed=0 failed=0
trap 'rm -rf "$folder"' EXIT
# holds WHAT COMMAND.. : counts it.
holds() { "${@:2}" && ((++passed)) || { ((++failed)) && echo "arcbench: $1" >&2; }; }

# printed STATUS OUTPUT ERRORS ARGUMENTS.. : whether the program ends so on what comes from standard input.
printed() {
    "$program" "${@:4}" >"$folder/output" 2>"$folder/errors"
    [[ $? = "$1" ]] && cmp -s "$folder/output" <(printf "$2") && cmp -s "$folder/errors" <(printf "$3")
}
want() { holds "${*@Q}: another status, or other texts" printed "$@"; }

wrong='fault: arguments\n' steps='unique 0 0\ndrop 0 0\nlower 0\n'
want 1 '' "$wrong" core 0 < <(printf "$steps")
holds "a failed write to standard error" bash -c '"$0" core 0 2>/dev/full; (($? == 1))' "$program"
want 3 '' 'fault: input\n' core 1 </
full() { printf "$steps" | "$program" core 1 2>"$folder/errors" >/dev/full; [[ $? = 4 && ! -s $folder/errors ]]; }
holds "a full output" full
little_memory() {
    yes | head -c4M | sh -c 'ulimit -v 5000; exec "$0" core 1' "$program" >"$folder/output" 2>"$folder/errors"
    [[ $? = 5 && $(<"$folder/errors") = 'fault: memory' && ! -s $folder/output ]]
}
holds "little memory" little_memory
holds "megabytes" printed 2 "$(yes $'pending\nquit' | head -300000)\nfault: line 300001\n" '' core 1 \
    < <(yes $'clone 0 0\nquit 0' | head -300000; echo load)
# A machine, a script, and what it prints up to its first line that is none.
while IFS='|' read -r kind script output; do
    [[ $output = *fault* ]] && status=2 || status=0
    want $status "$output" '' $kind 1 < <(printf "$script")
done <<'END'
core||
core|unique 0 0|is true\n
core|unique 0 0\nunique 0\n|is true\nfault: line 2\n
core|unique 0 0\n\n|is true\nfault: line 2\n
core|\n|fault: line 1\n
core|unique 0 0\r\n|fault: line 1\n
core|load 0 4294967295\nload 0 4294967296\n|barred\nfault: line 2\n
core|load 0 0\nunique  0 0\n|value 5\nfault: line 2\n
core|lend 0 0\nload 0 0\n|fault: line 1\n
core|\0|fault: line 1\n
core|\xff|fault: line 1\n
core|Load 0 0\n|fault: line 1\n
table|new 0 05\n|fault: line 1\n
END
# A word that is not UTF-8, or too long to be right, is a wrong one at each place, and ends no list.
for right in 'core 2 3 7' 'table 3 7'; do
    right=($right)
    for ((place = 0; place < ${#right[@]} - 1; place++)); do
        for word in '' $'\xff' 1$'\xff' core$'\xc3' "$(printf '1%.0s' {1..1000})" 1$'\n' tables x ' ' +1 -1 01 0x1; do
            want 1 '' "$wrong" "${right[@]:0:place}" "$word" </
            want 1 '' "$wrong" "${right[@]:0:place}" "$word" "${right[@]:place+1:${#right[@]}-place-2}" </
        done
    done
done
for words in '' 1 core 'core 0' 'core 0 1' 'core 1 0' 'core 1 1 1' table 'table 1 1'; do
    want 1 '' "$wrong" $words </
done
# Each size: its last owner or slot is there, and the next one is not.
sized() {
    printed 0 "$2" '' core "$1" < <(printf 'lend 0 0 %d\n' $(($1 - 1)) "$1") &&
        printed 0 'empty\nno slot\n' '' table "$1" < <(printf 'get %d\n' $(($1 - 1)) "$1")
}
holds "a size of 1" sized 1 'barred\nbarred\n'
for size in {2..1000}; do holds "a size of $size" sized $size 'done\nbarred\n'; done
for size in {1001..1100}; do for kind in core table; do want 1 '' "$wrong" $kind $size </; done; done
want 0 'no slot\n' '' table 0 < <(printf 'get 0\n')
# limited LIMIT CLONES ANSWER : whether the last of so many clones is read, and one more is answered so.
limited() {
    { yes $'clone 0 0\nraise 0' | head -$((2 * $2)); printf 'load 0 %s\nclone 0 0\n' "$2"; } |
        "$program" core 1 "$1" 2>&1 | tail -2 | cmp -s - <(printf 'value 5\n%s\n' "$3")
}
for limit in {1..300} 1000 1024 65536 123456; do holds "a limit of $limit" limited $limit $((limit - 1)) full; done
for limit in 1234567 98765432 123456789 4294967295; do holds "a limit of $limit" limited $limit 9999 pending; done
echo "program: $passed runs as told, $failed not"
((failed == 0))
