#!/bin/sh
# The C host: the test program and the example, run through the proved library, with what they print compared; and the header alone.
# Run: sh tests/chost.sh
set -u
cd "$(dirname "$0")/.." || exit 2
fail() {
    echo "tests/chost.sh: $1"
    exit 1
}
room=$(mktemp -d) || fail "no temporary folder can be made"
trap 'rm -rf "$room"' EXIT

tests/cprogram host tests/chost/main.c >"$room/out" || {
    cat "$room/out"
    fail "the test program failed"
}
[ "$(tail -n 1 "$room/out")" = 'chost: ok' ] || fail "tests/chost/main.c did not end with 'chost: ok'"

tests/cprogram host examples/read_record.c >"$room/out" || {
    cat "$room/out"
    fail "the example failed"
}
cat >"$room/must" <<'END'
star 5
date 246052364817
limit 0
magnitude -1440
error 12
filter 3
5,2460523.64817,0,-1.440,0.012,3
END
cmp -s "$room/out" "$room/must" || fail "examples/read_record.c prints something else than it should"

# the header alone, in C and in C++, where its functions have to be known as C's
clang=$(tests/toolchain)/bin/clang || exit 1
for language in 'c -std=c99' 'c -std=c17' 'c++ -std=c++98' 'c++ -std=c++20'; do
    "$clang" --target=x86_64-unknown-linux-gnu -ffreestanding -nostdinc -Iinclude -Wall -Wextra -Werror -pedantic -fsyntax-only -x $language - <<'END' ||
#include "ruttedwhite.h"
#ifdef __cplusplus
extern "C" uint32_t strip_refusal(uint32_t, uint64_t, uint32_t, const uint8_t *, size_t);
extern "C" uint64_t strip_value(uint32_t, uint64_t, uint32_t, const uint8_t *, size_t);
#endif
END
        fail "include/ruttedwhite.h is refused by clang -x $language"
done
echo "chost: the C host's answers are as they should be"
