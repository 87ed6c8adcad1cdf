#!/bin/sh
# host/build.sh NAME: builds the command host/NAME.c over the proved library, and the library before it, where they are missing
# or older than their sources. Prints where the command is.
set -eu
name=${1:?usage: host/build.sh NAME}
root=$(cd "$(dirname "$0")/.." && pwd)
library=$root/target/staticlib/libmice.a
command=$root/target/host/$name
if [ ! -f "$library" ]; then
    echo "building the library: its crates are proved first, which takes some minutes" >&2
    "$root/host/library.sh" >&2
fi
if [ ! -x "$command" ] || [ "$library" -nt "$command" ] || [ "$root/host/$name.c" -nt "$command" ]; then
    mkdir -p "$root/target/host"
    ${CC:-cc} -O2 -I"$root/include" "$root/host/$name.c" "$library" -o "$command"
fi
echo "$command"
