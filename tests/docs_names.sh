#!/usr/bin/env bash
# Finds names in the documents that the code doesn't have, files that aren't there, relative links that lead nowhere, and what
# is too long. It takes a second. The last line is 'N passed, M failed', of the documents; the status is 1 where one failed.
set -eu
cd "$(dirname "$0")/.."
exec python3 tests/docs_names.py
