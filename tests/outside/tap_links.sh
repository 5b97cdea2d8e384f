#!/usr/bin/env bash
# usage: tests/outside/tap_links.sh      (as root, with /dev/net/tun, iproute2 and strace)
#
# Tests the links of ev_links over a real tap device: tap_links.py, with a program that echoes frames (tap_links.rt.txt).
# `rt run` proves the two crates and the program in a copy, and builds the program: some six minutes (2026-11-30, load 10 of 4).
set -eu
cd "$(dirname "$0")/../.."
work=$(mktemp -d)
trap 'rm -rf "$work"' EXIT

cp HANDLES "$work/"
for crate in ether_wire ev_links; do
  grep "^$crate:" crates.txt >> "$work/crates.txt"
  mkdir -p "$work/crates/$crate"
  for part in src specs proofs; do
    if [ -d "crates/$crate/$part" ]; then cp -R "crates/$crate/$part" "$work/crates/$crate"; fi
  done
done
echo "tap_links: ev_links ether_wire" >> "$work/crates.txt"
mkdir -p "$work/crates/tap_links/src"
cp tests/outside/tap_links.rt.txt "$work/crates/tap_links/src/main.rt"
git init -q "$work"
(cd "$work/crates/tap_links" && rt run < /dev/null > "$work/log" 2>&1 9< /dev/null) || { tail -20 "$work/log"; exit 1; }
python3 tests/outside/tap_links.py "$work/crates/tap_links/out/tap_links"
