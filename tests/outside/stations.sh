#!/usr/bin/env bash
# usage: tests/outside/stations.sh
#
# 2,000 random runs of three to eight edges test the laws of one station (stations.rt.txt), while other stations
# come and go. `rt try` compiles them in a copy of the repository, with checks and without proofs: some ten minutes, so the gate
# doesn't.
set -eu
cd "$(dirname "$0")/../.."
work=$(mktemp -d)
trap 'rm -rf "$work"' EXIT

cp crates.txt HANDLES "$work/"
for crate in crates/*/; do
  mkdir -p "$work/$crate"
  for part in src specs proofs; do
    if [ -d "$crate$part" ]; then cp -R "$crate$part" "$work/$crate"; fi
  done
done
git init -q "$work"
cp tests/outside/stations.rt.txt "$work/crates/ev_fabric/src/tests/stations.rt"
printf '\nmod stations;\n' >> "$work/crates/ev_fabric/src/tests.rt"
cd "$work/crates/ev_fabric"
rt try --test --seconds 1800
