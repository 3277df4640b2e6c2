#!/bin/sh
# Refusal 1 in the calls of reader, writer, layout, plan, strip, vetting, rows, line and listing, from C: slices of 16,777,216 and 16,777,217 bytes. Run: sh tests/limits.sh
set -u
cd "$(dirname "$0")/.." || exit 2
tests/cprogram past_the_limit tests/limits/main.c
