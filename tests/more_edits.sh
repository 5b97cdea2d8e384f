#!/usr/bin/env bash
# usage: tests/more_edits.sh [--applies | --at-once] [CRATE..]        (default: every crate)
#
# Tries the second shelf of wrong bodies, crates/CRATE/more-edits/all.edits. The checker has to refuse each of them, as it has to
# refuse those in must-fail/. The gate tries only must-fail/: an edit costs it 15 to 25 seconds, so that folder has the wrong
# bodies that one would fear most and the most telling of each main call. Here stands one for nearly each other public function.
#
# First it looks whether each edit of both shelves can be applied: each `old:` text has to stand exactly once in its file, as
# the pairs before it left that file. That takes no second; --applies does no more. Then it tries the second shelf in a copy
# of the working tree, crate by crate, by `rt must-fail`, which prints the verdicts of a crate once it is done with it.
#
# --at-once tries in one check as many edits as change different functions, and so takes some three seconds an edit. A
# function is proved from what those that it calls promise and not from their bodies, so the others don't disturb it. An edit
# that isn't refused in this way has to be tried separately: see tests/more_edits.py.
#
# A crate below that has no library in out/ is proved first. The status is 1 where an edit can't be applied or isn't refused.
set -eu
cd "$(dirname "$0")/.."

mode=
case ${1-} in
  --applies | --at-once)
    mode=$1
    shift
    ;;
esac
if [ "$#" = 0 ]; then
  set -- $(ls crates)
fi

python3 tests/more_edits.py applies "$@"
if [ "$mode" = --applies ]; then exit 0; fi

copy=$(mktemp -d)
trap 'rm -rf "$copy"' EXIT
git ls-files -z --cached --others --exclude-standard | xargs -0 cp --parents -t "$copy"
for stamp in crates/*/out/rlib/stamp; do
  if [ -e "$stamp" ]; then cp -a --parents "${stamp%/stamp}" "$copy"; fi
done
cd "$copy"
if [ "$mode" = --at-once ]; then
  python3 tests/more_edits.py at-once "$@"
  exit
fi

status=0
python3 tests/more_edits.py unfold "$@"
for crate in "$@"; do
  if [ -d "crates/$crate/must-fail" ]; then
    rt must-fail "$crate" || status=1
  fi
done
exit "$status"
