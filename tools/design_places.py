#!/usr/bin/env python3
"""The places that docs/DESIGN-PASS.md counts, by point: design_places.py [COMMIT] prints how many lines of the sources match, -v which."""
import re
import subprocess
import sys

LIST = "-v" in sys.argv
REV = ([a for a in sys.argv[1:] if a != "-v"] or ["HEAD"])[0]


def git(*words):
    return subprocess.run(["git", *words], capture_output=True, text=True, check=True).stdout


NAMES = git("ls-tree", "-r", "--name-only", REV, "crates").split("\n")
SRC = {n: git("show", f"{REV}:{n}") for n in NAMES if re.fullmatch(r"crates/\w+/src/.*\.rt", n)}
PROOFS = {n: git("show", f"{REV}:{n}") for n in NAMES if re.fullmatch(r"crates/\w+/proofs/.*\.antt", n)}

# point, what it is, where, what a place looks like
PLACES = [
    ("1a", "answers with a refusal number, or a case of one", SRC, r"^ +(pub )?refusal: u32,|^ +Refused\(u32"),
    ("1b", "functions that answer a refusal as a number", SRC, r"^ *(pub )?(extern \"C\" )?fn \w*refusal\w*\([^)]*\) -> (u32|Found)|^ *(pub )?fn (because|consume|refill_lookahead|lower_end|check|write_row)\([^)]*\) -> (u32|Found)"),
    ("1c", "lines that name a refusal's number", SRC, r"refusals::(?!LONGEST)[A-Z]"),
    ("1d", "flags and sentinels with a value beside", SRC, r"^ +pub (good|failed|tail_good): bool|^fn not_narrow|^pub const MOST: u64|^pub fn first_bad\(.*-> usize|^ +pub step: u8|^fn rule_broken\(.*-> u32"),
    ("1e", "numbers for kinds", SRC, r"^ *(pub )?fn \w+\([^)]*kind: u8|^fn kind_number|-> u32$.*rule"),
    ("2a", "types that differ in one type", SRC, r"^pub struct (Read(Bool|[UIF]\d+)|Counted|Tested|Ahead|Peeked|Moved|Wrote|Unaligned|Extended|Compiled|Packed|Listed|Answered|LineWrote|RowRead|LineRead|RecordRead)\b|^pub enum (Single|Double)\b"),
    ("2b", "functions that differ in a type, a size or a constant", SRC, r"^ *pub fn (read|write)_(bit|[uif](8|16|32|64))\(|^pub fn (single|double)_(of_bits)\(|^pub fn bits_of_(single|double)\(|^pub fn same_(single|double)\(|^fn (put_header|put_bad_tail|because)\(|^fn write_answer"),
    ("3", "loops that count by hand", SRC, r"^ *while "),
    ("4a", "types that derive no more than Clone and Copy", SRC, r"^#\[derive\(Clone, Copy\)\]$"),
    ("4b", "equality, order and conversion by hand", SRC, r"^ *(pub )?fn (same_\w+|kind_number|is_digit|between|magnitude_number|wide|byte_at|swap8|join8|signed_of_bits|bits_of_signed|size_of|ten_to|limit_of|letter_of|no_record)\("),
    ("5", "functions of six parameters or more", SRC, None),
    ("6", "functions of an output with a place beside", SRC, r"^ *(pub )?fn \w+\([^)]*(out|layout|numbers): &mut \[\w+\], at: usize"),
    ("7", "matches on a kind or a step", SRC, r"^ *match (kind|value|found|t\.step)\b"),
    ("8", "numbered copies of a lemma", PROOFS, r"^[a-z][\w-]*_\d+ ?:|^[a-z][\w-]*_\d+ :$|^[a-z][\w-]*_\d+$"),
]


def parameters(text):
    for m in re.finditer(r"^ *(?:pub )?(?:extern \"C\" )?fn (\w+)(?:<[^>]*>)?\(((?:[^()]|\([^()]*\))*)\)", text, re.M):
        words = [p for p in re.split(r",(?![^<\[]*[>\]])", m[2]) if p.strip()]
        yield text.count("\n", 0, m.start()) + 1, m[1], len(words)


for point, what, where, look in PLACES:
    found = []
    for name, text in sorted(where.items()):
        if look is None:
            found += [(name, line, f"{fn}: {n}") for line, fn, n in parameters(text) if n >= 6]
        else:
            found += [(name, k, t.strip()) for k, t in enumerate(text.split("\n"), 1) if re.search(look, t)]
    print(f"{point}\t{len(found)}\t{what}")
    if LIST:
        for name, k, t in found:
            print(f"\t{name}:{k}: {t[:90]}")
