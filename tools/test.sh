#!/bin/sh
# tools/test.sh [MICECHECK]: tests micetrace, micesolve and micecases; the last line is 'tools: ok'.
# With the command that host/test.sh builds (target/host/micecheck) the checker has to agree with what the tools say.
exec python3 "$(dirname "$0")/test.py" "$@"
