#!/usr/bin/env bash
# Makes each single allocation fail in turn. Each test of `refusals`, `arcbench` on two scripts, and
# `collection_scripts` on six scripts runs with its first allocation refused, then with its second, until no allocation
# of a run is refused. The outcome of a run is what it prints and how many blocks it leaks. The outcomes of all runs
# have to be exactly those of crates/test_refusals/outcomes.txt, so an allocation too many or too few is seen. With
# --write the script writes that file. Review it then.
set -u
. "$(dirname "$(readlink -f -- "$0")")/help.sh"
cd "$(dirname "$(readlink -f -- "$0")")/.." || exit
outcomes=crates/test_refusals/outcomes.txt
folder=$(mktemp -d)
trap 'rm -rf "$folder"' EXIT

cc -O2 -shared -fPIC -o "$folder/refuse_request.so" gate/refuse_request.c || exit 1

# The lines of a file as one.
joined() { paste -s -d '~' | sed 's, *~ *, / ,g'; }

# outcomes_of NAME INPUT COMMAND.. : prints the outcome of each run. No run makes a thousand requests.
outcomes_of() {
    local name=$1 input=$2 request memory errors output status
    shift 2
    for ((request = 1; request <= 1000; request++)); do
        timeout 60 env "REFUSED_REQUEST=$request" "LD_PRELOAD=$folder/refuse_request.so" "$@" \
            >"$folder/output" 2>"$folder/errors" <"$input"
        status=$?
        memory=$(sed -n 's/^memory: //p' "$folder/errors")
        errors=$(sed '/^memory: /d' "$folder/errors" | joined)
        ((status == 0)) || errors+="; status $status"
        output=$(sed '/^$/d; /^test result: ok$/d' "$folder/output" | joined)
        echo "$name: $memory: $output${errors:+; errors: $errors}" | sed 's/: ;/:/; s/: *$//'
        [[ $memory = refused* ]] || return
    done
    echo "$name: the requests did not end"
}

# outcomes_of_tests CRATE : those of its tests in `refusals`.
outcomes_of_tests() {
    local name tests program=crates/$1/out/$1_tests
    tests=$("$program" --list | sed -n 's/^\(refusals::.*\): test$/\1/p')
    for name in $tests; do outcomes_of "$name" /dev/null "$program" "$name"; done
}

printf '%s\n' 'lend 0 0 1' 'clone 1 0' 'raise 1' 'raise 1' 'quit 1' >"$folder/steps"
printf '%s\n' 'new 0 5' 'clone 0 1' 'makemut 0 9' 'own 1' 'get 0' 'get 1' >"$folder/commands"
{
    outcomes_of_tests test_refusals
    outcomes_of_tests test_uses
    outcomes_of 'arcbench core' "$folder/steps" crates/arcbench/out/arcbench core 2
    outcomes_of 'arcbench table' "$folder/commands" crates/arcbench/out/arcbench table 2
    gate/versions.py --refused
} >"$folder/runs"
LC_ALL=C sort "$folder/runs" | uniq -c >"$folder/came"
awk '/^#/ { next } /^ +[0-9]+ times$/ { times = $1; next } { tell(); outcome = $0; times = 1 } END { tell() }
    function tell() { if (times) printf "%7d %s\n", times, outcome }' "$outcomes" |
    LC_ALL=C sort -k 2 >"$folder/expected"

diff "$folder/expected" "$folder/came" >"$folder/differ"
# A builder requests its block, and room for its items if it does not know their number.
awk '/ refusals::builders::.*: refused/ && $1 > (/ of 0 items|: no block/ ? 1 : 2)' "$folder/came" >"$folder/more"
sed -n 's/^< */did not come: /p; s/^> */not expected: /p' "$folder/differ" >&2
sed 's/^ */too many requests: /' "$folder/more" >&2
refused=$(grep -c ': refused, ' "$folder/runs")
echo "refused memory: $refused runs were refused a request, and came to $(wc -l <"$folder/came") outcomes"
if [[ ${1-} = --write ]]; then
    grep '^#' "$outcomes" >"$folder/written"
    awk '{ times = $1; sub(/^ *[0-9]+ /, ""); print } times > 1 { print "    " times " times" }' "$folder/came" \
        >>"$folder/written"
    cp "$folder/written" "$outcomes" && : >"$folder/differ"
fi
((refused > 0)) && [[ ! -s $folder/differ && ! -s $folder/more ]] && echo "refused memory: each run as wanted"
