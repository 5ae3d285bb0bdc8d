#!/usr/bin/env bash
# Copies crates into other repositories by copy_crates, and checks that it copies them unchanged, replaces an older
# copy completely, and keeps the user's own files. In a copy the first example prints, unproved, what README says.
# There the checker rejects each place that lends, moves or sends a handle or a list of a `Cell`, which threads may not
# share. In a third repository it still rejects the code that docs/LIMITS.md quotes.
set -uo pipefail
. "$(dirname "$(readlink -f -- "$0")")/help.sh"
cd "$(dirname "$(readlink -f -- "$0")")/.." || exit
root=$PWD tree=$(mktemp -d) passed=0 failed=0
trap 'rm -rf "$tree"' EXIT
home=$tree/home wanted=$tree/wanted new=$tree/new old=$tree/old
# holds WHAT COMMAND.. : counts it.
holds() { "${@:2}" && ((++passed)) || { ((++failed)) && echo "elsewhere: another than wanted: $1" >&2; }; }
same() { diff <(echo "$1") <(echo "$2") >&2; }
crates_of() { (cd "$1/crates" && echo */ | tr -d /); }

# How the crates of a copy differ from what is wanted, but for whole crates that are not there.
differences() { diff -r "$wanted/crates" "$1/crates" | grep -vx "Only in $wanted/crates: \w*" | LC_ALL=C sort; }

into_a_new_repository() {
    local said names
    mkdir -p "$home" "$wanted" "$new/.git"
    tar -c --exclude=out crates crates.txt copy_crates LICENSE HANDLES | tar -x -C "$home"
    tar -c --exclude={out,must-fail} crates | tar -x -C "$wanted"
    mkdir "$home/crates/uses/out" && touch "$home/crates/uses/out/built" && cp -r "$home" "$tree/before"
    said=$("$home/copy_crates" "$new" first_example uses) && names=$(crates_of "$new")
    holds "what it says that it copied" same "$(tr ' ' '\n' <<<"${said##*: }" | sort | xargs)" "$names"
    holds "what it copied" same "$(differences "$new")" "Only in $new/crates: LICENSE"
    holds "lines of crates.txt" same "$(<"$new/crates.txt")" "$(grep -E "^(${names// /|})\b" "$home/crates.txt")"
    holds "LICENSE" cmp "$home/LICENSE" "$new/crates/LICENSE"
    holds "HANDLES" cmp "$home/HANDLES" "$new/HANDLES"
    "$home/copy_crates" "$tree/low" maps >/dev/null
    holds "what is below" same "$(crates_of "$tree/low")" "counting_word handles maps sequence"
    "$home/copy_crates" "$tree/first" >/dev/null
    holds "a copy of servo_arc, if none is named" test -e "$tree/first/crates/servo_arc/src/lib.rt"
}

over_an_older_copy() {
    local lines=$new/crates.txt
    lines=$'# own\n\nuses_own: uses\n'$(grep -v '^first_example' "$lines" && grep '^first_example' "$lines")
    cp -r "$new" "$old" && echo own | tee "$old/HANDLES" >"$old/crates/LICENSE"
    mkdir -p "$old"/crates/{own,uses/out} && touch "$old"/crates/uses/{own,out/own,{src,specs,proofs}/gone}
    sed -i -e '1i # own\n\nuses_own: uses' -e 's/^uses.*/uses: gone/' -e '/^first_example/d' "$old/crates.txt"
    "$home/copy_crates" "$old" first_example uses >/dev/null
    holds "lines of an older crates.txt" same "$(<"$old/crates.txt")" "$lines"
    holds "what is left of an older copy" same "$(differences "$old")" "$(printf 'Only in %s\n' \
        "$old/crates/uses: out" "$old/crates/uses: own" "$old/crates: LICENSE" "$old/crates: own")"
    holds "what was built of an older copy" same "$(ls "$old/crates/uses/out")" own
    holds "one's own LICENSE and HANDLES" same "$(cat "$old/HANDLES" "$old/crates/LICENSE")" $'own\nown'
}

# refused ERRORS WORDS.. : the copy fails with these errors, a pattern, and copies and deletes nothing.
refused() {
    (cd "$home" && ./copy_crates "${@:2}" 2>"$tree/errors")
    [[ $? = 1 && $(<"$tree/errors") = $1 && ! -e $tree/none ]] && diff -r "$tree/before" "$home" >&2
}

what_is_refused() {
    ln -s "$home" "$tree/link"
    holds "no folder" refused 'copy_crates FOLDER *'
    holds "--help" same "$("$home/copy_crates" --help | sed -n '$s/:.* servo_arc .*/:/p')" "The crates are:"
    holds "a word with a dash for the folder" refused 'copy_crates FOLDER *' --other
    holds "a word with a dash for a crate" refused 'copy_crates FOLDER *' "$tree/none" uses -x
    holds "crates that are not here" refused 'no crate no, other; there are: * servo_arc *' "$tree/none" no uses other
    holds "a copy onto itself" refused '.: the crates there are *: uses servo_arc *' . uses
    holds "a copy onto itself by a link" refused '*: the crates there are *: uses servo_arc *' "$tree/link" uses
}

in_the_copy() {
    local told printed
    told=$(sed -n 's/.*first_example && rt try)* *# prints `\([^`]*\)`.*/\1/p' README.md)
    printed=$(cd "$new/crates/first_example" && rt try 2>&1 | head -1)
    holds "what the first example prints" same "$printed" "${told:-what README says}"
    holds "the toolchain that README names, by $(rt version)" grep -qF "\`$(rt version)\`" README.md
    cd "$new" && sed -i -E '/^pub fn \w+_elsewhere/s/\bu32\b/std::cell::Cell<u32>/g' crates/uses/src/crossing.rt
    cells=$(timeout 600 rt all check --jobs 1 2>&1 | grep -c 'the trait bound `UnsafeCell<u32>: Sync` is not satisfied')
}

# The checker rejects each block of code of docs/LIMITS.md with the message that is quoted below the block.
in_a_third_repository() {
    local n refused words=(
        '^type .*is another type that refers back to itself, which a way back cannot pass yet'
        '^type .*leads back through a type parameter whose bound has ghost members'
        '^fn .*what it sends to a thread rests on a bound that is assumed of this thread alone'
        '^src/.*this is a bug in rattle'
    )
    mkdir -p "$tree"/third/{.git,crates/block{1,2,3,4}/src} && cd "$tree/third" && cp "$new/HANDLES" .
    printf 'block%s:\n' 1 2 3 4 >crates.txt
    for n in 1 2 3 4; do
        awk -v n=$n '/^```rust$/ {++block; on = 1; next} /^```$/ {on = 0} on && block == n' \
            "$root/docs/LIMITS.md" | sed '1i #![tactic(auto)]' >crates/block$n/src/lib.rt
        refused=$(cd crates/block$n && rt check --jobs 1 2>&1 | grep -c "${words[n - 1]}")
        holds "the place where block $n of the code is refused" same "$refused" 1
    done
}

into_a_new_repository
over_an_older_copy
what_is_refused
in_the_copy
in_a_third_repository
echo "elsewhere: $passed as wanted, $failed not, a cell refused at $cells places"
((failed == 0))
