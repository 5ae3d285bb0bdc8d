#!/bin/sh
# build_peers.sh OUT SOURCE
#
#     bench/build_peers.sh /tmp/peers ~/servo_arc/lib.rs
#
# Builds the programs that the port is measured beside, with rustc alone: OUT/bench, OUT/bench.moved, OUT/script and
# OUT/collections. SOURCE is the source file of the crate that was ported, its lib.rs under any name. OUT/collections
# has the collections of im-rc if Debian's librust-im-rc-dev is installed. Only OUT is written to.
set -eu
case "$*" in -h | --help) sed -n '2,/^set/ { /^set/d; s/^# \{0,1\}//p; }' "$0" && exit ;; esac
if [ $# -ne 2 ]; then
    echo "usage: build_peers.sh OUT SOURCE; --help says more" >&2
    exit 2
fi
here=$(cd "$(dirname "$0")" && pwd)
mkdir -p "$1"
out=$(cd "$1" && pwd)
source=$2
shift 2

edition=2021
compile() {
    rustc -C opt-level=3 -C codegen-units=1 --edition "$edition" --cap-lints allow -L "$out" "$@"
}

library() {
    name=$1
    file=$2
    shift 2
    compile --crate-type rlib --crate-name "$name" -o "$out/lib$name.rlib" "$@" "$file"
}

library stable_deref_trait "$here/stable_deref_trait.rs"
library servo_arc "$source" --extern "stable_deref_trait=$out/libstable_deref_trait.rlib"
program() {
    name=$1
    made=$2
    shift 2
    compile --crate-name "$name" -o "$out/$made" --extern "servo_arc=$out/libservo_arc.rlib" "$@" "$here/$name.rs"
}

program bench bench
program bench bench.moved --cfg moved
program script script

debian=/usr/share/cargo/registry
if ls -d "$debian"/im-rc-* >/dev/null 2>&1; then
    edition=2018
    OUT_DIR=$out TYPENUM_BUILD_CONSTS=$out/consts.rs TYPENUM_BUILD_OP=$out/op.rs
    export OUT_DIR TYPENUM_BUILD_CONSTS TYPENUM_BUILD_OP
    compile -o "$out/typenum_build" "$debian"/typenum-*/build/main.rs
    "$out/typenum_build" >/dev/null
    for crate in typenum bitmaps rand_core rand_xoshiro sized-chunks im-rc; do
        name=$(echo "$crate" | tr - _)
        library "$name" "$debian/$crate"-*/src/lib.rs --cfg threadsafe "$@"
        set -- "$@" --extern "$name"
    done
    set -- "$@" --cfg im
    edition=2021
fi
program collections collections "$@"
