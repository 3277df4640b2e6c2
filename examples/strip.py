#!/usr/bin/env python3
"""The strip format without the library: a strip as text or as FITS rows, and back, and whether it keeps the rules for filing, by the words
of docs/FORMAT.md alone.

    python3 examples/strip.py list < examples/night.strip
    python3 examples/strip.py pack < examples/night.txt > night.strip
    python3 examples/strip.py rows < examples/night.strip > night.rows
    python3 examples/strip.py packrows < night.rows > night.strip
    python3 examples/strip.py check < examples/night.strip

It writes what the programs striplist, strippack, striprows, rowspack and stripcheck write, byte by byte. The status is 1 where a message
stands there (`bad tail`, `bad line N`, `bad row N`, `record N rule R`, `too long`), else 0. Bits are kept as text of 0 and 1, to be easy to
follow rather than fast. Every number is a whole number of units: a float would spoil the last digits of a date.
"""
import re
import struct
import sys

MOST_BYTES = 65536
HEADER = "star,date,limit,mag,err,filter"

# No field holds a whole part of eight digits.
WHOLE = "(0|[1-9][0-9]{0,6})"
# The fields in their order: name, bits, decimals of a unit, and the number as text, its groups being the sign and the digits.
FIELDS = (
    ("star", 20, 0, WHOLE),
    ("date", 38, 5, WHOLE + r"\.([0-9]{5,12})"),
    ("limit", 1, 0, WHOLE),
    ("magnitude", 16, 3, "(-?)" + WHOLE + r"\.([0-9]{3})"),
    ("error", 10, 3, WHOLE + r"\.([0-9]{3})"),
    ("filter", 4, 0, WHOLE),
)
RECORD_BITS = sum(width for _, width, _, _ in FIELDS)


def least(name, width):
    """the least number that the field holds; it holds 2^width numbers from there on"""
    return -(2 ** (width - 1)) if name == "magnitude" else 0


def records_of(strip):
    """the units of a strip's records, six a record, and whether the tail is good"""
    bits = "".join(format(byte, "08b") for byte in strip)
    records, place = [], 0
    while len(bits) - place >= RECORD_BITS:
        records.append([])
        for name, width, _, _ in FIELDS:
            units = int(bits[place : place + width], 2)
            if units >= least(name, width) + 2**width:  # a number below 0, in two's complement
                units -= 2**width
            records[-1].append(units)
            place += width
    return records, len(bits) - place < 8 and "1" not in bits[place:]


def bits_of(record):
    """the 89 bits of a record's units; None where a number does not fit its field"""
    bits = ""
    for units, (name, width, _, _) in zip(record, FIELDS):
        if not 0 <= units - least(name, width) < 2**width:
            return None
        bits += format(units % 2**width, "0%db" % width)
    return bits


def strip_of(bits):
    """the bytes of bits, with zeros up to a byte"""
    bits += "0" * (-len(bits) % 8)
    return bytes(int(bits[k : k + 8], 2) for k in range(0, len(bits), 8))


# ---- a strip as text


def spelled(units, decimals):
    """a number of units with its decimals; the minus is set apart, since // of a number below 0 would round it down"""
    minus, size = ("-", -units) if units < 0 else ("", units)
    if decimals == 0:
        return str(size)
    return "%s%d.%0*d" % (minus, size // 10**decimals, decimals, size % 10**decimals)


def list_strip(strip):
    """what striplist writes, and whether there is no message in it"""
    if len(strip) > MOST_BYTES:
        return b"too long\n", False
    records, good = records_of(strip)
    lines = [HEADER]
    for record in records:
        lines.append(",".join(spelled(units, decimals) for units, (_, _, decimals, _) in zip(record, FIELDS)))
    if not good:
        lines.append("bad tail")
    return "".join(line + "\n" for line in lines).encode(), good


# ---- a text as a strip


def nearest(number, unit):
    """how many units there are in a number, to the nearest, halves upward"""
    return (2 * number + unit) // (2 * unit)


def bits_of_line(line):
    """a record's 89 bits, from its line without the newline; None where the line breaks the rules"""
    words = line.split(",")
    if len(words) != len(FIELDS):
        return None
    record = []
    for word, (_, _, decimals, shape) in zip(words, FIELDS):
        found = re.fullmatch(shape, word)
        if not found:
            return None
        more = len(word.partition(".")[2]) - decimals  # decimals behind a unit's: only a date may have some
        record.append(nearest(int("".join(found.groups())), 10**more))
        if record[-1] == 0 and word.startswith("-"):
            return None
    return bits_of(record)


def pack_text(text):
    """what strippack writes, and whether it is a strip, not a message"""
    if len(text) > MOST_BYTES:
        return b"too long\n", False
    # one character a byte, whatever the byte; behind the last newline there has to be nothing
    lines = text.decode("latin-1").split("\n")
    unended = lines.pop()
    bits = ""
    for number, line in enumerate(lines, 1):
        more = bits_of_line(line) if number > 1 else "" if line == HEADER else None
        if more is None:
            return b"bad line %d\n" % number, False
        bits += more
    if unended or not lines:
        return b"bad line %d\n" % (len(lines) + 1), False
    return strip_of(bits), True


# ---- a strip as FITS rows, and back: columns J, K, L, I, I, B, big endian

ROW = struct.Struct(">iqchhB")


def rows_of(strip):
    """what striprows writes, and whether it is rows, not a message"""
    if len(strip) > MOST_BYTES:
        return b"too long\n", False
    records, good = records_of(strip)
    if not good:
        return b"bad tail\n", False
    return b"".join(ROW.pack(*record[:2], b"T" if record[2] else b"F", *record[3:]) for record in records), True


def pack_rows(rows):
    """what rowspack writes, and whether it is a strip, not a message"""
    if len(rows) > MOST_BYTES:
        return b"too long\n", False
    whole = len(rows) // ROW.size
    bits = ""
    for number, columns in enumerate(ROW.iter_unpack(rows[: whole * ROW.size]), 1):
        limit = {b"T": 1, b"F": 0}.get(columns[2], -1)  # -1 fits nowhere
        more = bits_of([*columns[:2], limit, *columns[3:]])
        if more is None:
            return b"bad row %d\n" % number, False
        bits += more
    if len(rows) % ROW.size:
        return b"bad tail\n", False
    return strip_of(bits), True


# ---- the rules for filing


def check_strip(strip):
    """what stripcheck writes, and whether it is `ok`"""
    if len(strip) > MOST_BYTES:
        return b"too long\n", False
    records, good = records_of(strip)
    above = 0  # no date is below 0: the first record keeps rule 1
    for number, (_, date, limit, _, error, filter) in enumerate(records, 1):
        kept = [date >= above, filter <= 9, error > 0 or limit == 1]
        if not all(kept):
            return b"record %d rule %d\n" % (number, kept.index(False) + 1), False
        above = date
    return (b"ok\n" if good else b"bad tail\n"), good


def main(words):
    jobs = {"list": list_strip, "pack": pack_text, "rows": rows_of, "packrows": pack_rows, "check": check_strip}
    if len(words) != 1 or words[0] not in jobs:
        print(__doc__, file=sys.stderr)
        return 2
    # one byte more than allowed is enough to tell that there are too many
    out, good = jobs[words[0]](sys.stdin.buffer.read(MOST_BYTES + 1))
    sys.stdout.buffer.write(out)
    return 0 if good else 1


if __name__ == "__main__":
    sys.exit(main(sys.argv[1:]))
