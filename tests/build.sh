#!/bin/sh
# Builds the test programs into tests/build (or $BUILD). Plain rustc, no
# registry: the queues in docs/src are compiled unchanged, with what they
# import from elsewhere written in tests/oracle.
set -eu
tests=$(cd "$(dirname "$0")" && pwd)
sources=$tests/../docs/src
build=${BUILD:-$tests/build}

if ! command -v rustc >/dev/null 2>&1; then
    { apt-get update && apt-get install -y rustc; } >&2
fi
mkdir -p "$build"

# The queues as a crate: four files as they are, loom_exports.rs as given.
queues() { # name, then the files that make up loom_exports.rs
    name=$1
    shift
    mkdir -p "$build/$name"
    for file in lib.rs lifo.rs fifo.rs config.rs; do
        cp "$sources/$file" "$build/$name/$file"
    done
    cat "$@" > "$build/$name/loom_exports.rs"
}

compile() {
    rustc --edition 2021 -O -L "$build" "$@"
}

# What was built last from the same sources and compiler is still good.
stamp=$(cat "$sources"/*.rs "$tests"/*.rs "$tests"/*/*.rs "$0" | cksum; rustc -vV)
if [ "$(cat "$build/stamp" 2>/dev/null)" = "$stamp" ]; then
    exit 0
fi
rm -f "$build/stamp"

compile --crate-type rlib --crate-name crossbeam_utils -o "$build/libcrossbeam_utils.rlib" "$tests/oracle/crossbeam_utils.rs"
compile --crate-type rlib --crate-name turns -o "$build/libturns.rlib" "$tests/oracle/turns.rs"

# In turns: atomics that wait, overflow and all assertions trapped.
queues turning "$tests/oracle/loom_turns.rs"
compile --cap-lints allow -C overflow-checks=on -C debug-assertions=on --crate-type rlib --crate-name st3 \
    --extern crossbeam_utils="$build/libcrossbeam_utils.rlib" --extern turns="$build/libturns.rlib" \
    -o "$build/turning/libst3.rlib" "$build/turning/lib.rs"
compile --extern st3="$build/turning/libst3.rlib" --extern turns="$build/libturns.rlib" \
    -o "$build/oracle" "$tests/oracle/oracle.rs"

# As it is: the standard library's atomics.
queues standing "$sources/loom_exports.rs" "$tests/oracle/loom_missing.rs"
compile --cap-lints allow -C overflow-checks=on -C debug-assertions=on --crate-type rlib --crate-name st3 \
    --extern crossbeam_utils="$build/libcrossbeam_utils.rlib" \
    -o "$build/standing/libst3.rlib" "$build/standing/lib.rs"
compile --extern st3="$build/standing/libst3.rlib" -o "$build/whole" "$tests/oracle/whole.rs"
compile --extern st3="$build/standing/libst3.rlib" -o "$build/differences" "$tests/oracle/differences.rs"

compile -o "$build/plain" "$tests/plain/schedule.rs"
compile -o "$build/generate" "$tests/generate.rs"
compile -o "$build/compare" "$tests/compare.rs"
compile -o "$build/vectors" "$tests/vectors.rs"
printf '%s\n' "$stamp" > "$build/stamp"
