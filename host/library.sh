#!/bin/sh
# host/library.sh: proves and builds the library, the crate mice_c, as target/staticlib/libmice.a.
set -eu
root=$(cd "$(dirname "$0")/.." && pwd)
(cd "$root/crates/mice_c" && rt lib)
mkdir -p "$root/target/staticlib"
cp "$root/crates/mice_c/out/libmice_c.a" "$root/target/staticlib/libmice.a"
