#!/bin/sh
# bench/run.sh [LIB.a]: measures the library (built by host/library.sh if none is given) beside the Rust checker of fuzz/
# and plain.c, and writes the tables of docs/SPEED.md and the picture docs/speed.svg. About a minute and a half of processor time.
set -eu
here=$(cd "$(dirname "$0")" && pwd)
root=$here/..
if [ $# -eq 0 ]; then
    "$root/host/library.sh"
    set -- "$root/target/staticlib/libmice.a"
fi
MICE_LIB=$(cd "$(dirname "$1")" && pwd)/$(basename "$1")
mkdir -p "$root/target/bench"
PLAIN_OBJECT=$(cd "$root/target/bench" && pwd)/plain.o
CARGO_TARGET_DIR=$root/target/cargo
export MICE_LIB PLAIN_OBJECT CARGO_TARGET_DIR
${CC:-gcc} -std=gnu11 -O2 -Wall -Wextra -Werror -c "$here/plain.c" -o "$PLAIN_OBJECT"
cargo build --quiet --offline --release --manifest-path "$here/Cargo.toml"
"$CARGO_TARGET_DIR/release/mice_bench" > "$root/target/bench/measured.tsv"
python3 "$here/report.py" "$root/target/bench/measured.tsv" "$root/docs"
