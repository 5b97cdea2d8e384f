#!/usr/bin/env bash
# usage: tests/outside/streams.sh [STREAMS] [SEED]          (default: 100,000 streams, seed 1)
#
# Compares what `evpnd report` prints, notes and answers with a second model of it (tests/tools/report_model.py), for random
# streams of records of all versions, with refusals, faults and cuts. The gate does the same for 400 streams. It wants the
# program built, as `rt run` in crates/evpnd leaves it, or named by EVPND; 100,000 streams take some ten minutes.
set -eu
cd "$(dirname "$0")/.."
STREAMS=${1-100000} SEED=${2-1} exec python3 run.py test_streams
