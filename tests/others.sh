#!/bin/sh
# The stored scripts once more with the line T (docs/REPLAY.md): the calls go by typed values, borrowed cursors and the remainder record,
# and every answer has to be the expected one, the Rust's or the model's. Run, once both programs are built: sh tests/others.sh
set -u
cd "$(dirname "$0")/.." || exit 2
script=others
. tests/outputs

# what a program answers to $work/in has to be its stored output
same() { # PROGRAM HOW
    [ "$(wc -c <"$work/in")" -le 262144 ] || fail "the script of $1 is too long $2"
    tests/program "$1" <"$work/in" >"$work/out" || fail "$1 ended badly $2"
    cmp "$work/out" "crates/$1/stdout" || fail "$1 answers something else $2"
    count=$((count + $(wc -l <"$work/out")))
}
for name in replay refusals; do
    { echo T; cat "crates/$name/stdin"; } >"$work/in"
    same "$name" 'with T before all'
done
# one line the other way, the next as it is: each way goes on from where the other stopped
awk '{ print NR % 2 ? "T" : "U"; print }' crates/replay/stdin >"$work/in"
same replay 'with T and U by turns'
echo "others: $count answers are as expected where calls go another way"
