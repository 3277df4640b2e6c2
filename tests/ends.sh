#!/bin/sh
# The stored script of ends (docs/REPLAY.md), cursors that stop early: every answer of the program refusals has to be the model's, by calls
# as they are and the other way, with the line T. And the model has to write script and answers as they are stored. Run, once refusals is
# built: sh tests/ends.sh
set -u
cd "$(dirname "$0")/.." || exit 2
script=ends
. tests/outputs

# what the program answers to $work/in has to be the stored answers
same() { # HOW
    [ "$(wc -c <"$work/in")" -le 262144 ] || fail "the script is too long $1"
    tests/program refusals <"$work/in" >"$work/out" || fail "refusals ended badly $1"
    cmp "$work/out" tests/ends/answers || fail "refusals answers something else $1"
    count=$((count + $(wc -l <"$work/out")))
}
cp tests/ends/script "$work/in" || exit 2
same 'with calls as they are'
{ echo T; cat tests/ends/script; } >"$work/in"
same 'with T before all'

if command -v python3 >/dev/null 2>&1; then
    python3 oracle/model.py ends >"$work/out" || fail 'the model makes no script'
    cmp "$work/out" tests/ends/script || fail 'the model makes another script than tests/ends/script'
    python3 oracle/model.py answer <"$work/out" >"$work/want" || fail 'the model does not answer'
    cmp "$work/want" tests/ends/answers || fail 'the model answers something else than tests/ends/answers'
else
    echo "ends: left out: no python3 here to make the script and its answers anew with"
fi
echo "ends: $count answers are as expected where cursors stop early"
