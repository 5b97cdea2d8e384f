#!/usr/bin/env bash
# usage: tests/quick.sh [CRATE..]        (default: every crate, and then the tools and the program)
#
# All tests that need no proof, in some minutes: each crate's tests, compiled with the kit's checks and run (tools/gate/make.py tests),
# and the tools' and the program's tests, its statuses and the documents' names on a program that isn't proved (tools/try). The last
# line counts what passed and failed.
set -u
cd "$(dirname "$0")/.." || exit 1
exec < /dev/null
log=$(mktemp)
trap 'rm -f "$log"' EXIT
passed=0
failed=0

# Runs a command whose last line is 'N passed, M failed', and adds to both; a command that says less has failed once.
count() {
  "$@" | tee "$log"
  if [[ $(tail -n 1 "$log") =~ ^([0-9]+)\ passed,\ ([0-9]+)\ failed$ ]]; then
    passed=$((passed + BASH_REMATCH[1]))
    failed=$((failed + BASH_REMATCH[2]))
  else
    echo "no count came from: $*"
    failed=$((failed + 1))
  fi
}

count python3 tools/gate/make.py tests "$@"
if [ $# = 0 ]; then
  EVPND=$(tools/try --fast --build evpnd) || exit 1
  export EVPND
  count python3 tests/run.py
  count python3 tests/statuses.py
  count bash tests/docs_names.sh
fi
echo "$passed passed, $failed failed"
[ "$failed" = 0 ]
