#!/bin/sh
# host/program.sh NAME: proves and builds the program of the crate NAME, as target/bin/NAME.
set -eu
name=${1:?usage: host/program.sh NAME}
root=$(cd "$(dirname "$0")/.." && pwd)
# it runs once, where no file is that it reads
(cd "$root/crates/$name" && rt run > /dev/null)
mkdir -p "$root/target/bin"
cp "$root/crates/$name/out/$name" "$root/target/bin/$name"
