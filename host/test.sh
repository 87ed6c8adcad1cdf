#!/bin/sh
# host/test.sh LIB.a: builds and runs the host's tests over the library: plainly, under valgrind, under the sanitizers, as C++,
# and the commands on every example. The last line is 'host: ok'.
#   STACK_KIB=256   stack of the thread that checks traces of full size
set -eu
lib=${1:?usage: host/test.sh LIB.a}
here=$(cd "$(dirname "$0")" && pwd)
out=$here/../target/host
mkdir -p "$out"

build() {       # NAME SOURCE FLAG..
    name=$1 source=$2
    shift 2
    ${CC:-gcc} -std=c11 -Wall -Wextra -Wpedantic -Werror -DSTACK_KIB="${STACK_KIB:-256}" -I"$here/../include" "$@" "$here/$source" \
        "$lib" -lpthread -lm -o "$out/$name"
}
for test in test_host test_release; do
    build ${test}_plain $test.c -O2
    build ${test}_debug $test.c -O1 -g
    build ${test}_sanitized $test.c -O1 -g -fsanitize=address,undefined -fno-sanitize-recover=all
done
for cmd in micecheck micerelease; do
    build $cmd $cmd.c -O2
    build ${cmd}_sanitized $cmd.c -O1 -g -fsanitize=address,undefined -fno-sanitize-recover=all
done

run() {         # NAME COMMAND..: shows its last line, or where it failed how it began
    name=$1
    shift
    "$@" > "$out/log" 2>&1 || { echo "FAILED $name:"; head -n 40 "$out/log"; exit 1; }
    echo "$name $(tail -n 1 "$out/log")"
}
for test in test_host test_release; do
    run "plain:     " "$out/${test}_plain"
    run "sanitizers:" "$out/${test}_sanitized"
    run "valgrind:  " valgrind --quiet --error-exitcode=9 --leak-check=full --max-stackframe=8388608 "$out/${test}_debug"
done

# The header serves C++ too.
printf '#include "mice.h"\nint main() { return mice_check(nullptr, 0, nullptr, 0, nullptr, 0, nullptr, 0) != MICE_COUNT_PLACES; }\n' \
    > "$out/plus.cc"
g++ -std=c++17 -Wall -Wextra -Wpedantic -Werror -I"$here/../include" "$out/plus.cc" "$lib" -lpthread -lm -o "$out/plus"
"$out/plus"
echo "C++:        the header compiles and links"

# The check's command: what it prints and its exit status, on every example and on wrong uses.
fail() { echo "FAILED $cmd: $*"; exit 1; }
wrong() {       # a wrong use: status 2, nothing on standard output, something on standard error
    status=0 uses=$((uses + 1))
    "$out/$cmd" "$@" > "$out/printed" 2> "$out/said" || status=$?
    [ "$status" -eq 2 ] && [ ! -s "$out/printed" ] && [ -s "$out/said" ] || fail "wrong use $*: status $status"
}
full() {        # the output can't be written
    [ -w /dev/full ] || return 0
    status=0 uses=$((uses + 1))
    "$out/$cmd" "$@" > /dev/full 2> "$out/said" || status=$?
    [ "$status" -eq 2 ] || fail "a full device gives status $status"
}
for cmd in micecheck micecheck_sanitized; do
    tried=0 uses=0
    for folder in "$here"/../examples/*/ "$here"/../examples/release/*/; do
        [ -f "$folder/formula.cnf" ] || continue
        status=0
        "$out/$cmd" "$folder/formula.cnf" "$folder/trace.bin" > "$out/printed" || status=$?
        cmp -s "$out/printed" "$folder/expected.txt" || fail "$folder prints something else"
        case $(tail -n 1 "$folder/expected.txt") in accepted*) want=0 ;; *) want=1 ;; esac
        [ "$status" -eq $want ] || fail "$folder has status $status"
        tried=$((tried + 1))
    done
    refusal() {     # STATUS LINE FORMULA TRACE: that is all it prints
        status=0 uses=$((uses + 1))
        "$out/$cmd" "$3" "$4" > "$out/printed" || status=$?
        [ "$status" -eq "$1" ] && [ "$(cat "$out/printed")" = "$2" ] || fail "status $status, prints $(cat "$out/printed"), not $1, $2"
    }
    printf 'p cnf 0 0\n' > "$out/empty.cnf"
    head -c 65535 /dev/zero > "$out/long.bin"
    head -c 65534 /dev/zero > "$out/limit.bin"
    printf '\007\000\007\000\007' > "$out/odd.bin"
    head -c 65536 /dev/zero > "$out/long.cnf"
    : > "$out/nothing"
    refusal 1 'refused 12 at 32767' "$out/empty.cnf" "$out/long.bin"
    refusal 1 'refused 12 at 0' "$out/empty.cnf" "$out/limit.bin"
    refusal 1 'refused 12 at 2' "$out/empty.cnf" "$out/odd.bin"
    refusal 1 'refused 12 at 0' "$out/empty.cnf" "$out/nothing"
    refusal 1 'refused 1 at 65535' "$out/long.cnf" "$out/nothing"
    refusal 1 'refused 2 at 0' "$out/nothing" "$out/absent"
    wrong
    wrong "$out/empty.cnf"
    wrong "$out/empty.cnf" "$out/nothing" "$out/nothing"
    wrong "$out/absent" "$out/nothing"
    wrong "$out/empty.cnf" "$out/absent"
    wrong "$out" "$out/nothing"
    full "$out/nothing" "$out/nothing"
done
echo "micecheck:  $tried examples and $uses other uses"

# The release's command, in a folder with packs: the example's, one of 3^40 settings, one whose text is refused. The proved
# program, where it is built, prints the same report of the answers that the command leaves.
packs=$out/packs
rm -rf "$packs"
mkdir -p "$packs/large" "$packs/nothing" "$packs/traceless"
cp -r "$here"/../examples/release/*/ "$packs"
{ echo 'p cnf 80 40'; seq 80 | paste - - | sed 's/$/ 0/'; } > "$packs/large/formula.cnf"
"$here/../tools/micesolve" "$packs/large/formula.cnf" "$packs/large/trace.bin" > "$out/log"
: > "$packs/nothing/formula.cnf"
cp "$packs/english/formula.cnf" "$packs/traceless"
program=$here/../target/bin/micerelease
for cmd in micerelease micerelease_sanitized; do
    uses=0 programs=0
    reports() {     # STATUS LINES LAST FOLDER..: so many lines, these at the end; the program prints the report's too
        want=$1 lines=$2 last=$3 status=0 uses=$((uses + 1))
        shift 3
        (cd "$packs" && "$out/$cmd" --answers answers.bin "$@") > "$out/printed" || status=$?
        [ "$status" -eq "$want" ] || fail "status $status of $*"
        [ "$(wc -l < "$out/printed")" -eq "$lines" ] || fail "$* prints $(wc -l < "$out/printed") lines"
        [ "$(tail -n "$(echo "$last" | wc -l)" "$out/printed")" = "$last" ] || fail "$* prints $(cat "$out/printed")"
        [ -x "$program" ] || return 0
        programs=$((programs + 1))
        (cd "$packs" && "$program") > "$out/by_program"
        [ "$(tail -n "$(wc -l < "$out/by_program")" "$out/printed")" = "$(cat "$out/by_program")" ] || fail "the program differs on $*"
    }
    reports 1 8 "$(cat "$here/../examples/release/expected.txt")" english german finnish
    reports 0 7 'sum 27' english german
    reports 1 6 'nothing refused 2 at 0
accepted 0
refused 1
smallest 0 at 0
largest 0 at 0
sum 0' nothing
    reports 0 8 'accepted 3
refused 0
smallest 9 at 1
largest 9 at 1
sum 27' english english english
    reports 1 8 'largest 12157665459056928801 at 3
sum 12157665459056928810' nothing english large
    reports 1 3 'refused 34 at 0' large large
    thousand=$(yes english | head -n 1000)
    reports 0 1005 'sum 9000' $thousand
    reports 1 1002 'refused 33 at 0' $thousand german
    wrong
    wrong --answers
    wrong --answers "$out/log"
    wrong --other "$packs/english"
    wrong "$packs/absent"
    wrong "$packs/traceless"
    wrong "$(head -c 5000 /dev/zero | tr '\0' a)"
    full "$packs/english"
    status=0 uses=$((uses + 1))
    "$out/$cmd" --answers "$packs" "$packs/english" > "$out/printed" 2> "$out/said" || status=$?
    [ "$status" -eq 2 ] || fail "answers that can't be written give status $status"
done
if [ -x "$program" ]; then      # files that are no answers, and the largest that is
    cmd=$program
    one=$((8 * $(sed -n 's/.*MICE_ANSWER = \([0-9]*\),.*/\1/p' "$here/../include/mice.h")))
    for size in 0 7 8 $((one - 1)) $((one + 1)) $((1000 * one - 1)) $((1000 * one + 1)) $((1001 * one)) 999999; do
        head -c $size /dev/zero > "$packs/answers.bin"
        [ "$(cd "$packs" && "$program")" = 'refused 33 at 0' ] || fail "a file of $size bytes"
    done
    head -c $((1000 * one)) /dev/zero > "$packs/answers.bin"
    [ "$(cd "$packs" && "$program" | head -n 1)" = 'accepted 1000' ] || fail "a file of 1,000 answers"
    rm "$packs/answers.bin"
    [ "$(cd "$packs" && "$program")" = 'refused 33 at 0' ] || fail "an absent file"
fi
echo "micerelease: $uses uses, $programs of them as the proved program"
echo "host: ok"
