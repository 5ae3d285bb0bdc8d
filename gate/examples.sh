#!/usr/bin/env bash
# Runs each script of examples/, NAME in the folder of its machine, with the arguments of NAME.args. The output has to
# be NAME.stdout. Exactly the blocks that the script makes static may leak. valgrind must see no read of freed memory.
# A .stdout or .args file without a script is an error too.
set -u
. "$(dirname "$(readlink -f -- "$0")")/help.sh"
cd "$(dirname "$(readlink -f -- "$0")")/../examples" || exit
program=../crates/arcbench/out/arcbench
folder=$(mktemp -d)
trap 'rm -rf "$folder"' EXIT
cc -O2 -shared -fPIC -o "$folder/memory.so" ../gate/refuse_request.c || exit 1
passed=0 failed=0
wrong() {
    echo "$script $*" >&2
    ((++failed))
    false
}
compared() { cmp -s "$folder/output" "$script.stdout" || wrong "prints something else"; }
for script in core/* table/*; do
    case $script in
    *.stdout | *.args)
        [[ -f ${script%.*} ]] || wrong "has no script"
        continue
        ;;
    esac
    mapfile -t words < <(echo "${script%/*}" && cat "$script.args")
    # No example marks a block of a table twice, and a core has no blocks.
    marked=0
    [[ $script = table/* ]] && marked=$(grep -c '^mark ' "$script")
    LD_PRELOAD=$folder/memory.so "$program" "${words[@]}" <"$script" >"$folder/output" 2>"$folder/memory"
    compared && ((++passed))
    [[ $(<"$folder/memory") = "memory: granted, $marked kept" ]] ||
        wrong "marks $marked blocks: $(<"$folder/memory")" && ((++passed))
    valgrind -q --error-exitcode=99 "$program" "${words[@]}" <"$script" >"$folder/output" ||
        wrong "reads freed memory" && ((++passed))
done
echo else >"$folder/output"
(compared 2>/dev/null) && wrong "is not compared" || ((++passed))
echo "examples: $passed times as wanted, $failed not"
((failed == 0))
