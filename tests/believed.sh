#!/bin/sh
# What a reader has to believe, the types of the code among it, is no more than at landing 20: 1,165 lines. Run: sh tests/believed.sh
cd "$(dirname "$0")/.." || exit 2
command -v python3 >/dev/null 2>&1 || {
    echo "believed: left out, no python3"
    exit 0
}
said=$(python3 tests/believed.py --most 1165) || {
    echo "believed: more than 1,165 lines"
    exit 1
}
echo "believed:$(echo "$said" | tail -n 2 | head -n 1)"
