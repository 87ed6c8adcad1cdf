#!/bin/sh
# fuzz/test.sh LIB.a: tests the fuzz run itself. The second checker and the generator against what they promise, then the
# library with one rare fault after another (broken.c), each of which has to be found. The last line is 'fuzz: ok'.
set -eu
lib=${1:?usage: fuzz/test.sh LIB.a}
here=$(cd "$(dirname "$0")" && pwd)
out=$here/../target/fuzz
mkdir -p "$out"
CARGO_TARGET_DIR=$here/../target/cargo cargo test --quiet --offline --release --lib --manifest-path "$here/Cargo.toml" > "$out/test" 2>&1 ||
    { cat "$out/test"; exit 1; }
echo "the second checker and the generator: ok"

# objcopy may complain of what it can't read in members that don't matter here, so what it says is kept aside
objcopy --redefine-sym mice_check=sound_check --redefine-sym mice_read=sound_read "$lib" "$out/libbroken.a" 2> "$out/objcopy"
${CC:-gcc} -O2 -Wall -Wextra -Wno-cast-qual -I"$here/../include" -c "$here/broken.c" -o "$out/broken.o"
ar q "$out/libbroken.a" "$out/broken.o" 2> "$out/ar"
for fault in 1 2 3 4 5 6 7 8 9 11 12 13 14 15; do
    status=0
    MICE_FAULT=$fault "$here/run.sh" "$out/libbroken.a" --count 60000 --found "$out/found" > "$out/said" 2>&1 || status=$?
    found=$(sed -n 's/^; seed [0-9]*, \(case [0-9]*\).*/\1/p' "$out/said" | head -n 1)
    if [ "$status" -ne 1 ] || [ -z "$found" ]; then
        echo "FAILED: fault $fault was not found (status $status)"
        exit 1
    fi
    echo "fault $fault: found in $found, made small: $(grep -E '^(trace|text)' "$out/said" | head -n 1 | cut -c 1-100)"
done
MICE_FAULT=0 "$here/run.sh" "$out/libbroken.a" --count 5000 --found "$out/found" > "$out/said" 2>&1 ||
    { echo "FAILED: a difference without a fault"; tail -n 5 "$out/said"; exit 1; }
echo "fuzz: ok"
