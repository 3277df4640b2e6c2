#!/bin/sh
# A minute of comparison with the Rust, where its sources and rustc are at hand. Run: sh tests/oracle.sh
set -u
cd "$(dirname "$0")/.." || exit 2
if ! command -v rustc >/dev/null 2>&1; then
    echo "oracle: left out: no rustc here"
    exit 0
fi
if [ ! -f "${BITTER:-../shared/docs/src}/src/lib.rs" ]; then
    echo "oracle: left out: no sources of the Rust here (../shared/docs/src, or the folder that BITTER names)"
    exit 0
fi
oracle/run 1
