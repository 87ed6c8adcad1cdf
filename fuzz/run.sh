#!/bin/sh
# fuzz/run.sh LIB.a [--seed S] [--count N] [--from CASE] [--replay FILE] [--say]
# Compares the library with a second checker on random cases, about 30 seconds by default. Ends with how often each answer
# came, and status 0 only without a difference; one that is found is made small and written to fuzz/found/, from where
# --replay runs it again. If the library crashes: start again --from the case of the last progress line, with --say.
set -eu
lib=${1:?usage: fuzz/run.sh LIB.a [--seed S] [--count N]}
shift
here=$(cd "$(dirname "$0")" && pwd)
MICE_LIB=$(cd "$(dirname "$lib")" && pwd)/$(basename "$lib")
export MICE_LIB
CARGO_TARGET_DIR=$here/../target/cargo
export CARGO_TARGET_DIR
cargo build --quiet --offline --release --manifest-path "$here/Cargo.toml"
exec "$CARGO_TARGET_DIR/release/mice_fuzz" --found "$here/found" --count 300000 "$@"
