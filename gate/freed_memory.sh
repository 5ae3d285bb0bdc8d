#!/usr/bin/env bash
# Allocates and frees 32 GiB or more, one page at a time, in an address space of 1 GB. A page that is not reused after
# it was freed makes an allocation fail.
set -uo pipefail
. "$(dirname "$(readlink -f -- "$0")")/help.sh"
cd "$(dirname "$(readlink -f -- "$0")")/.." || exit
ulimit -v 1000000
count=0
# freed WORKLOAD TIMES : whether each of that many allocations succeeded.
freed() {
    [[ $(crates/arcspeed/out/arcspeed "$1" "$2") = "$2" ]] && ((++count)) && return
    echo "freed memory: $1: an allocation failed" >&2
}
freed freed-blocks 8388608
freed freed-unwritten 8388608
freed freed-slices 4194304
echo "freed memory: $count of 3 workloads had each page that they asked for"
[[ $count = 3 && $(ulimit -v) = 1000000 ]]
