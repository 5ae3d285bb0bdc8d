#!/bin/sh
# judge.sh SOURCE [OPTION..]
#
#     bench/judge.sh ~/servo_arc/lib.rs --most 61
#
# Builds and measures each workload and a script with each pointer, and maps and sequences beside those in Rust. Each
# workload gets a verdict by goals.tsv. The figures are written to measured.tsv, maps.tsv and sequences.tsv. SOURCE is
# the source file of the crate that was ported. The options are those of compare.py. BENCH_OUT is the folder for what is
# built, bench/out if it is not set.
#
# The status is 1 if a goal was missed, 0 if all were met, and 2 or 3 as compare.py says.
set -eu
case "$*" in -h | --help) sed -n '2,/^set/ { /^set/d; s/^# \{0,1\}//p; }' "$0" && exit ;; esac
if [ ! -f "${1-}" ]; then
    echo "usage: judge.sh SOURCE [OPTION..]; --help says more" >&2
    exit 2
fi
here=$(cd "$(dirname "$0")" && pwd)
out=${BENCH_OUT:-$here/out}
source=$1
shift
mkdir -p "$out"
"$here/build_peers.sh" "$out" "$source"
(cd "$here/../crates/arcspeed" && rt run -- new-drop 0) >/dev/null
ln -sf "$here/../crates/arcspeed/out/arcspeed" "$out/arcspeed"
kit=$(dirname "$(rt doc)")
echo '.section .text, "axR"; .skip 16' | cc -x assembler -c - -o "$out/skip.o"
"$kit/bin/rattle-link" --target x86_64-unknown-linux-gnu --toolchain "$kit/toolchain" -o "$out/arcspeed.moved" \
    "$out/skip.o" "$here/../crates/arcspeed/out/arcspeed.o" "$kit/c/libos_c.a" "$kit/c/liblibc_c.a"
"$here/../arcbench" table 1 </dev/null
"$here/make_script.py" 1000000 >"$out/table.txt"
arcbench=$here/../crates/arcbench/out/arcbench
status=0
"$here/compare.py" "$out/bench" "$out/arcspeed" --goals "$here/goals.tsv" \
    --table "$here/measured.tsv" \
    --script table 1000 "$out/table.txt" "$out/script" "$arcbench" "$@" || status=$?
for kind in maps sequences; do
    "$here/collections.py" "$kind" "$out/collections" "$out/arcspeed" --table "$here/$kind.tsv" || status=$?
done
exit "$status"
