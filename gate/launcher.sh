#!/usr/bin/env bash
# Tests the launcher on a program of three small crates: first with the real toolchain, from nothing, and then with a
# stand-in for `rt`. The stand-in's program prints its sources without comments and the number of lines of crates.txt.
# With arguments it prints these and its input too.
set -u
. "$(dirname "$(readlink -f -- "$0")")/help.sh"
root=$(mktemp -d)
trap 'rm -rf "$root"' EXIT
export top="$root/a b" meanwhile= copied=0
mkdir "$top" && cd "$(dirname "$(readlink -f -- "$0")")/.." || exit
cp arcbench "$top/small" && cp copy_crates LICENSE "$top" && cd "$top" || exit
ln -s small near && ln -s near link
mkdir -p .git commands copies crates/{low,side,small,other}/src
echo 'Handles allowed: none.' >HANDLES
printf '%s\n' 'small: side low  # the program' 'low may_wait=0:' 'side:' 'other: low' >crates.txt
printf '%s\n' '#![tactic(auto)]' 'pub fn number() -> u32 {' '    7' '}' | tee crates/{low,side}/src/lib.rt >/dev/null
printf '%s\n' '#![tactic(auto)]' 'fn main(rt: HostRuntime) -> std::io::Result<()> {' \
    '    println!(rt; "{}{}", low::number(), side::number())' '}' >crates/small/src/main.rt

# The stand-in reads all its input. In a copy, where the launcher proves ahead, it only records that it has begun, and
# runs for `copied` seconds. `side` waits for that record. A log is written after a source has changed.
cat >commands/rt <<'END_OF_RT'
#!/bin/sh
cat >/dev/null
case $PWD in */copies/*) touch "$top/begun" && exec sleep "$copied" ;; esac
eval "$meanwhile"
sleep .02
echo built
grep -rq wrong src && exit 1
mkdir -p out
[ "$1" = lib ] && exec timeout 60 sh -c 'until [ ${PWD##*/} = low ] || [ -e "$top/begun" ]; do sleep .1; done'
{
    echo echo $(grep -hv '^//' ../low/*/* src/*; wc -l <../../crates.txt)
    echo '[ $# = 0 ] && exit; echo $# "$@"; cat; echo told >&2; exit 7'
} >out/small
chmod +x out/small
exit 3
END_OF_RT
chmod +x commands/rt

passed=0 failed=0
all=$'[1/3] low\n[2/3] side\n[3/3] small' why="cannot be proved and built: $PWD/crates/small/out/log says why"
# want WHAT STATUS OUTPUT ERRORS COMMAND.. : runs it. Errors are compared without their seconds.
want() {
    "${@:5}" <<<input >output 2>errors
    [[ $? = "$2" && $(<output) = "$3" && $(sed -E 's/: [0-9]+ s$//' errors) = "$4" ]] && ((++passed)) && return
    ((++failed)) && echo "launcher: $1: another status than $2, or other texts:" >&2 && cat output errors >&2
}
# after CHANGE OUTPUT : the program is built anew, and prints this.
after() { eval "$1" && want "$1" 0 "$2" "$all" ./small; }
# refused CHANGE REASON [ERRORS] : after the change the build fails for this reason, after these lines.
refused() { eval "$1" && want "$1" 125 '' "${3-}small: $2" ./small; }

by_the_toolchain() {
    after 'rm -rf crates/*/out' 77
    want "current" 0 77 '' ./small
    after 'sed -i s/7/8/ crates/low/src/lib.rt; touch -d yesterday crates/low/src/lib.rt' 87
    want "current, by a link from elsewhere" 0 87 '' sh -c 'cd / && PATH=/usr/bin:/bin "$0"' "$PWD/link"
    want "current, from the folder above" 0 87 '' sh -c 'cd .. && CDPATH=$PWD "$0/small"' "${PWD##*/}"
    refused 'echo two >crates/small/src/main.rt; PATH=/usr/bin:/bin' "the toolchain's command rt is not there"
}

what_changes() {
    mkdir crates/low/{specs,proofs}
    after 'echo one >crates/low/src/lib.rt' 'one two 4'
    after 'echo spec >crates/low/specs/new' 'spec one two 4'
    after 'echo proof >crates/low/proofs/new' 'proof spec one two 4'
    after 'echo other >crates/low/specs/new' 'proof other one two 4'
    after 'rm crates/low/proofs/new' 'other one two 4'
    after 'echo ten >crates/low/src/lib.rt; touch -d yesterday crates/low/src/lib.rt' 'other ten two 4'
    after 'mv crates/low/src/lib.rt crates/low/src/new.rt' 'other ten two 4'
    after 'mv crates/low/src/new.rt crates/low/src/lib.rt; echo one >crates/low/src/lib.rt' 'other one two 4'
    after 'rm -r crates/low/specs' 'one two 4'
    meanwhile='touch ../low/src/lib.rt' after 'touch crates/low/src/lib.rt' 'one two 4'
    after ': a source changed while it was built' 'one two 4'
    want "a change elsewhere" 0 'one two 4' '' sh -c 'echo >crates/other/src/lib.rt; ./small'
    refused 'mv crates/low gone' "low $why"
    after 'mv gone crates/low' 'one two 4'
}

# on_a_terminal : how often the line of `low` was shown before the last time, in a build that is slow there.
on_a_terminal() {
    touch crates.txt
    meanwhile='[ ${PWD##*/} != low ] || sleep 3' timeout 60 python3 -c 'import pty; pty.spawn("./small")' </dev/null |
        grep -c $'^\[1/3\] low: [0-9]* s\r\[1/3\] low: [0-9]* s\r$'
}

# hinted : what a terminal shows of a program that rejects its words.
hinted() {
    local status='import os, pty; os._exit(os.waitstatus_to_exitcode(pty.spawn(["./small", "x"])))'
    timeout 60 python3 -c "$status" </dev/null | tr -d '\r'
    return "${PIPESTATUS[0]}"
}

what_is_printed() {
    want "two at once" 0 'one two 5' "$all" sh -c 'echo x: >>crates.txt; ./small >/dev/null & ./small && wait $!'
    # The first takes a second to list the sources. Meanwhile the other begins a build.
    printf '%s\n' '#!/bin/sh' '/usr/bin/find "$@" && sleep "${listing:-0}"' >commands/find && chmod +x commands/find
    want "a build while another lists the sources" 0 'one two 5' '' sh -c 'echo //y >>crates/low/src/lib.rt
        listing=1 ./small & sleep .3; meanwhile="sleep 1" ./small >/dev/null 2>&1; wait $!'
    rm commands/find
    want "what the program gets and gives" 7 $'one two 5\n2 a  b c\ninput' told ./small 'a  b' c
    want "a terminal" 0 1 '' on_a_terminal
    sed -i '1i //! Prints words: `small WORD..`.' crates/small/src/main.rt
    want "no word" 1 '' 'Prints words: `small WORD..`.' ./small
    echo '    ./small a b    # prints: 2 a b' >README.md
    local help=$'Prints words: `small WORD..`.\nFor example: ./small a b    # prints: 2 a b'
    for word in -h --help; do want "help: $word" 0 "$help" '' ./small $word; done
    want "an empty word, with which it is built" 7 $'one two 5\n1 \ninput' "$all"$'\ntold' ./small ''
    want "two words" 7 $'one two 5\n2 -h x\ninput' told ./small -h x
    printf '#!/bin/sh\necho rejected >&2; exit 1\n' >crates/small/out/small
    want "rejected words" 1 '' rejected ./small x
    want "rejected words, on a terminal" 1 $'rejected\nsmall: ./small --help prints the words that it takes' '' hinted
}

what_cannot_be_built() {
    sed -i 1d crates/small/src/main.rt
    refused 'echo wrong >crates/side/src/lib.rt' "side $why" $'[1/3] low\n'
    copied=60 want "a failed build ends what is proved ahead" 125 '' $'[1/3] low\n'"small: side $why" timeout 20 ./small
    refused 'echo wrong >crates/low/src/lib.rt' "low $why"
    meanwhile='sleep 9' want "an interrupted build" 125 '' '' timeout --preserve-status -s INT 2 ./small
    refused "printf '#!/bin/sh\nexit 1' >copy_crates" "cannot copy crates to $PWD/copies"
    refused 'rm -r crates/small/out && touch crates/small/out' "cannot write to $PWD/crates/small/out"
    want "no copy is left" 0 '' '' rmdir copies
}

by_the_toolchain
export PATH=$PWD/commands:$PATH TMPDIR=$PWD/copies
what_changes
what_is_printed
what_cannot_be_built
echo "launcher: $passed runs as told, $failed not"
((failed == 0))
