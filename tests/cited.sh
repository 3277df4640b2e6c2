#!/bin/sh
# What the pages cite exists: names, edits, files. Run: sh tests/cited.sh
cd "$(dirname "$0")/.." || exit 2
command -v python3 >/dev/null 2>&1 || {
    echo "cited: left out, no python3"
    exit 0
}
python3 tests/cited.py || {
    echo "cited: the pages cite what does not exist"
    exit 1
}
