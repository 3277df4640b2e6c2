#!/bin/sh
# The Python example beside the proved programs, which have to write the same, byte by byte. Run: sh tests/python.sh
set -u
cd "$(dirname "$0")/.." || exit 2
fail() {
    echo "python: $1"
    exit 1
}
if ! command -v python3 >/dev/null 2>&1; then
    echo "python: left out: no python3 here to try the Python example with"
    exit 0
fi
python3 tests/python/compare.py || fail "examples/strip.py and the programs are not shown to agree"
