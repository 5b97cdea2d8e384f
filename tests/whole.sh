#!/usr/bin/env bash
# The kit's own gate: each crate proved from nothing, its tests proved too, each edit over a folder of its own. It prints what
# `bash .ci/run` says, and of the tests that they are safe; it takes near three times as long. Run it before a release.
#
# It judges a clone of the last commit: `rt ci` stops at the crates.txt files that tools/gate/make.py writes into .gate.
set -eu
cd "$(dirname "$0")/.."
work=$(mktemp -d)
trap 'rm -rf "$work"' EXIT
git clone -q . "$work/whole"
cd "$work/whole"
rt ci < /dev/null
