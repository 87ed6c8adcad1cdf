#!/bin/sh
# host/stack.sh LIB.a: prints how many bytes of stack each of several calls used, and the most.
set -eu
lib=${1:?usage: host/stack.sh LIB.a}
here=$(cd "$(dirname "$0")" && pwd)
out=$here/../target/host
mkdir -p "$out"
${CC:-gcc} -std=gnu11 -Wall -Wextra -Werror -O2 -I"$here/../include" "$here/stack.c" "$lib" -lpthread -lm -o "$out/stack"
"$out/stack"
