#!/usr/bin/env bash
# Counts the instructions and the allocations of the built program, and fails if they grow with the size of a script's
# machine. A step costs the same with 10 handles of 2 owners and with 100,000 handles of 1000 owners. A new handle
# costs the same on average in 50,000 and in 100,000 of them. To lend a handle costs at most the logarithm of the
# number of its borrowers. A command costs the same on 10 slots and on 1000.
set -u
. "$(dirname "$(readlink -f -- "$0")")/help.sh"
cd "$(dirname "$(readlink -f -- "$0")")/.." || exit
program=crates/arcbench/out/arcbench

# The instructions of a run on what comes from standard input, and its requests for memory.
instructions() {
    valgrind --tool=callgrind --callgrind-out-file=/dev/null "$program" "$@" 2>&1 >/dev/null |
        sed -n 's/.*Collected : \([0-9]*\).*/\1/p'
}
requests() {
    valgrind "$program" "$@" 2>&1 >/dev/null | sed -n 's/.*total heap usage: \([0-9,]*\) allocs.*/\1/p' | tr -d ,
}

# repeat TIMES LINES.. : the lines, so many times.
repeat() {
    local times=$1
    shift
    yes "$(printf '%s\n' "$@")" | head -n $((times * $#))
}

# beyond WORDS SETUP ROUNDS.. : the instructions that the rounds add to those of the setup, with these arguments.
beyond() {
    echo $(($({ echo "$2"; repeat "${@:3}"; } | instructions $1) - $(echo "$2" | instructions $1)))
}

births() { repeat "$1" 'clone 0 0' 'raise 0'; }
lendings() { for ((owner = 2; owner < $1 + 2; owner++)); do echo "lend 0 0 $owner"; done; }
filled() { for ((slot = 0; slot < $1; slot++)); do echo "new $slot 5"; done; }

# What changes nothing in the end, on handles, owners and slots that are there in each script.
steps=('load 0 0' 'unique 0 0' 'static 0 1' 'clone 0 0' 'quit 0' 'lend 0 0 1' 'load 1 0' 'return 1 0' 'give 0 1 1'
    'give 1 1 0' 'getmut 0 0' 'raise 0' 'load 0 999999999')
commands=('clone 0 1' 'getmut 0 6' 'makemut 0 7' 'same 0 1' 'ptreq 0 1' 'own 1' 'raw 1' 'get 0')

passed=0 failed=0
# at_most PERCENT WHAT SMALL LARGE : the large count is at most so many percent of the small one.
at_most() {
    echo "cost: $2: $3 and $4"
    (($3 > 0 && $4 * 100 <= $3 * $1)) && ((++passed)) || { ((++failed)) && echo "cost: $2: more than $1 percent" >&2; }
}

at_most 110 "instructions of 1000 rounds of steps with 10 handles of 2 owners, and with 100,000 of 1000" \
    "$(beyond 'core 2' "$(births 10)" 1000 "${steps[@]}")" "$(beyond 'core 1000' "$(births 100000)" 1000 "${steps[@]}")"
at_most 220 "instructions of 50,000 and of 100,000 births" \
    "$(births 50000 | instructions core 1)" "$(births 100000 | instructions core 1)"
at_most 300 "requests for memory of 1000 and of 100,000 births" \
    "$(births 1000 | requests core 1)" "$(births 100000 | requests core 1)"
lend=(2000 'lend 0 0 1' 'return 1 0')
at_most 400 "instructions of 2000 lendings beside 9 and beside 900 borrowers" \
    "$(beyond 'core 1000' "$(lendings 9)" "${lend[@]}")" "$(beyond 'core 1000' "$(lendings 900)" "${lend[@]}")"
at_most 110 "instructions of 500 rounds of commands on 10 and on 1000 slots" \
    "$(beyond 'table 10' "$(filled 10)" 500 "${commands[@]}")" \
    "$(beyond 'table 1000' "$(filled 1000)" 500 "${commands[@]}")"
echo "cost: $passed as wanted, $failed not"
((failed == 0))
