"""Compares examples/strip.py with the proved programs: on every file of examples/, and on good, damaged, short and overlong strips, texts
and rows; strippack's dates with Python's decimal numbers; and stripcheck with texts whose lines keep the rules for filing.

The cases are the same in every run: their random numbers have a fixed seed. Run by tests/python.sh."""
import collections
import decimal
import os
import random
import struct
import subprocess
import sys

sys.dont_write_bytecode = True
ROOT = os.path.dirname(os.path.dirname(os.path.dirname(os.path.abspath(__file__))))
sys.path.insert(0, os.path.join(ROOT, "examples"))
import strip as example

HEADER = b"star,date,limit,mag,err,filter\n"
WORKED = b"5,2460523.64817,0,-1.440,0.012,3\n"
WIDTHS = (20, 38, 1, 16, 10, 4)
PROGRAM = {"list": "striplist", "pack": "strippack", "rows": "striprows", "packrows": "rowspack", "check": "stripcheck"}
FUNCTION = {"list": example.list_strip, "pack": example.pack_text, "rows": example.rows_of, "packrows": example.pack_rows}
FUNCTION["check"] = example.check_strip
# what a run has to have met at least this often, so that no kind of case gets lost unnoticed
LEAST = {"list done": 40, "list bad tail": 100, "list too long": 3, "pack done": 20, "pack bad line": 300, "pack too long": 3}
LEAST.update({"rows done": 40, "rows bad tail": 100, "rows too long": 3})
LEAST.update({"packrows done": 40, "packrows bad row": 100, "packrows bad tail": 20, "packrows too long": 3})
LEAST.update({"check ok": 100, "check bad tail": 100, "check too long": 4})
LEAST.update({"check record N rule 1": 100, "check record N rule 2": 100, "check record N rule 3": 100})
rng = random.Random(89)


# ---- strips


def strip_of(bits):
    """bytes of a text of 0 and 1, with zeros up to a byte"""
    bits += "0" * (-len(bits) % 8)
    return bytes(int(bits[k : k + 8], 2) for k in range(0, len(bits), 8))


def random_bits(n):
    return "".join(rng.choice("01") for _ in range(n))


def extreme(width):
    """the least and the largest pattern, those around the sign's change, or any"""
    top = 1 << width - 1
    return format(rng.choice((0, 1, top - 1, top, 2 * top - 1, rng.randrange(2 * top))) % (2 * top), "0%db" % width)


def strips():
    yield "each bit of a record alone", strip_of("".join(format(1 << k, "089b") for k in range(89)))
    yield "extreme records", strip_of("".join(extreme(width) for _ in range(400) for width in WIDTHS))
    for n in range(40):
        good = strip_of(random_bits(89 * n))
        yield "%d records" % n, good
        yield "%d records and a zero byte" % n, good + b"\0"
        yield "%d records and a byte" % n, good + bytes([rng.randrange(256)])
        if n > 0:
            yield "%d records without the last byte" % n, good[:-1]
            yield "%d records with a bit changed" % n, flipped(good, rng.randrange(8 * len(good)))
            yield "%d records with a late bit changed" % n, flipped(good, 8 * len(good) - 1 - rng.randrange(8))
    for n in range(30):
        yield "%d zero bytes" % n, bytes(n)
        yield "%d bytes" % n, bytes(rng.choices(range(256), k=n))
    for n in (65525, 65527, 65528, 65536):
        yield "%d zero bytes" % n, bytes(n)
    for n in (65535, 65536, 65537, 65538, 200000):
        yield "%d bytes" % n, bytes(rng.choices(range(256), k=n))


def flipped(data, k):
    return data[: k // 8] + bytes([data[k // 8] ^ 128 >> k % 8]) + data[k // 8 + 1 :]


# ---- strips for filing


def filed(n):
    """n records that keep the rules, often just so: equal dates, filter 9, error 0 with limit 1, error 1 with limit 0"""
    records, date = [], rng.choice((0, 1, 246052364817, rng.randrange(1 << 38)))
    for _ in range(n):
        limit = rng.randrange(2)
        error = rng.choice((1 - limit, 1, 1023, rng.randrange(1, 1024)))
        filter = rng.choice((0, 9, rng.randrange(10)))
        records.append([int(extreme(20), 2), date, limit, int(extreme(16), 2), error, filter])
        date = min(date + rng.choice((0, 0, 1, rng.randrange(1 << 32))), (1 << 38) - 1)
    return records


def spoil(records, k, rule):
    """makes record k, from 0, break a rule; the first date has none above it and stays"""
    record = records[k]
    if rule == 1 and k > 0 and records[k - 1][1] > 0:
        record[1] = rng.choice((0, records[k - 1][1] - 1, rng.randrange(records[k - 1][1])))
    if rule == 2:
        record[5] = rng.randrange(10, 16)
    if rule == 3:
        record[2] = record[4] = 0


def joined(records):
    return strip_of("".join(format(number, "0%db" % width) for record in records for number, width in zip(record, WIDTHS)))


def strips_for_filing():
    """strips that keep the rules, and with one to three faults, at the first record, the last or any; tails good and bad"""
    for n in range(1, 61):
        for faults in ((), (1,), (2,), (3,), (1, 2), (3, 1), (2, 3), (1, 2, 3)):
            records = filed(n)
            for rule in faults:
                spoil(records, rng.choice((0, n - 1, rng.randrange(n))), rule)
            name, strip = "%d records, spoiled by %s" % (n, faults), joined(records)
            yield name, strip
            if n % 4 == 0 or not faults:
                yield name + ", and a zero byte", strip + b"\0"
                yield name + ", a late bit changed", flipped(strip, 8 * len(strip) - 1 - rng.randrange(8))
    for n in (10, 100, 1000, 5890):
        records = filed(n)
        yield "%d records" % n, joined(records)
        for rule in (3, 2, 1):  # the last record breaks rule 3, then 2 and 3, then all
            spoil(records, n - 1, rule)
            yield "%d records, the last breaks rule %d" % (n, rule), joined(records)
    for full in joined(filed(5890)), joined(records):
        yield "5,890 records and zeros up to 65,536 bytes", full.ljust(65536, b"\0")
        yield "5,890 records and zeros up to 65,537 bytes", full.ljust(65537, b"\0")


# ---- texts


def spelled(units, places):
    digits = str(abs(units)).rjust(places + 1, "0")
    return ("-" if units < 0 else "") + digits[:-places] + "." + digits[-places:]


def line_of(record, more=""):
    """a record's line, with more decimals of the date; its magnitude counts from the least one"""
    star, date, limit, magnitude, error, filter = record
    words = (star, spelled(date, 5) + more, limit, spelled(magnitude - 32768, 3), spelled(error, 3), filter)
    return (",".join(map(str, words)) + "\n").encode()


def good_line():
    """a line of the grammar, its numbers often at their edges and its date with up to seven decimals more than five"""
    record = [int(extreme(width), 2) for width in WIDTHS]
    more = "".join(rng.choice("0123456789") for _ in range(rng.randrange(8)))
    if record[1] == (1 << 38) - 1 and more[:1] >= "5":
        more = "4" + more[1:]  # a half would take it past the largest date
    return line_of(record, more)


def long_dates(n):
    """dates of six to twelve decimals: any, or from the sixth on about a half; days and first decimals any, or such that a carry runs"""
    for _ in range(n):
        first = rng.choice(("%05d" % rng.randrange(100000), "99999", "09999", "64819"))
        more = rng.randrange(1, 8)
        rest = rng.choice(("%07d" % rng.randrange(10**7), "4999999", "5000000", "5000001", "4999998", "9999999", "0000000"))
        yield "%d.%s%s" % (rng.choice((0, 9, 2460523, 2460999, rng.randrange(2748779))), first, rest[:more])


DATES = list(long_dates(1200))
DATED = HEADER + b"".join(b"0,%s,0,0.000,0.000,0\n" % date.encode() for date in DATES)


def damaged(text):
    """one to three bytes left out, put in or changed"""
    for _ in range(rng.choice((1, 1, 2, 3))):
        k = rng.randrange(len(HEADER), len(text)) if rng.random() < 0.9 else rng.randrange(len(text))
        byte = bytes([rng.choice(b"0123456789.,-+ \n\r\tex") if rng.random() < 0.9 else rng.randrange(256)])
        text = text[:k] + rng.choice((b"", byte, byte + text[k : k + 1])) + text[k + 1 :]
    return text


def edges():
    """the worked line with one number replaced, on each side of each rule for it"""
    numbers = WORKED[:-1].split(b",")
    wholes = b"0 1 2 9 15 16 00 01 1048575 1048576 10485750 -1 -0 +1 1. 1.0 1e3 0x1 4294967296 18446744073709551616".split()
    decimals = b"0 0. .0 0.00 0.000 -0.000 -0.001 0.0000 00.000 1.023 1.024 32.767 32.768 -32.768 -32.769 -.500 0,500 1_0.000 1.-00".split()
    dates = b"0.0000 0.00000 0.000000000000 0.0000000000000 2748779.06943 2748779.069439999999 2748779.06944 -0.00001 99999999.00000".split()
    dates += b"0.000004 0.0000049999 0.000005 0.999994999999 0.999995 2460523.999996 2748779.069434999999 2748779.069435 2748779.0694350".split()
    for i in range(6):
        for word in wholes + decimals + dates + [b"", b" 1", b"1 ", b"9" * 5000, b"1" * 5000 + b".000", "٣".encode()]:
            yield "number %d is %r" % (i + 1, word[:24]), HEADER + b",".join(numbers[:i] + [word] + numbers[i + 1 :]) + b"\n"


def texts():
    whole = HEADER + WORKED
    for n in range(len(whole) + 1):
        yield "the first %d bytes of a text" % n, whole[:n]
    yield from edges()
    yield "dates of six to twelve decimals", DATED
    for n in range(25):
        good = HEADER + b"".join(good_line() for _ in range(n))
        yield "%d lines" % n, good
    for n in range(150):
        yield "damaged text %d" % n, damaged(HEADER + b"".join(good_line() for _ in range(1 + n % 12)))
    # 31 bytes of header, 2,518 lines of 26 bytes and one of 37: 65,536
    full = HEADER + b"0,0.00000,0,0.000,0.000,0\n" * 2518 + b"1048575,0.0000000000,0,0.000,0.000,0\n"
    yield "65,536 bytes of good text", full
    yield "65,536 bytes, the last line bad", full[:-1] + b","
    yield "65,537 bytes", full + b"\n"
    yield "65,536 bytes and a line", full + WORKED
    yield "200,000 newlines", b"\n" * 200000


# ---- rows


def good_row():
    """a row that is a record, its numbers often at their edges"""
    star, date, limit, magnitude, error, filter = (int(extreme(width), 2) for width in WIDTHS)
    return struct.pack(">iqchhB", star, date, b"FT"[limit : limit + 1], magnitude - 32768, error, filter)


def rows():
    """bytes of a row changed, one by one and at random; cut rows; bad rows before cut ones"""
    row = struct.pack(">iqchhB", 5, 246052364817, b"F", -1440, 12, 3)
    for k in range(18):
        for byte in (0, 1, 15, 16, 63, 64, 70, 84, 102, 116, 127, 128, 255):
            yield "byte %d is %d" % (k, byte), row[:k] + bytes([byte]) + row[k + 1 :]
    for n in range(37):
        yield "the first %d bytes of two rows" % n, (row + row)[:n]
    for n in range(40):
        good = b"".join(good_row() for _ in range(n))
        yield "%d rows" % n, good
        yield "%d rows and a byte" % n, good + bytes([rng.randrange(256)])
        if n > 0:
            k = rng.randrange(len(good))
            yield "%d rows, a byte changed" % n, good[:k] + bytes([rng.randrange(256)]) + good[k + 1 :]
            yield "%d rows, a bit changed, the last cut" % n, flipped(good, rng.randrange(8 * len(good)))[:-1]
    full = row * 3640
    yield "3,640 rows", full
    yield "65,536 bytes", full + row[:16]
    yield "65,537 bytes", full + row[:17]
    yield "3,641 rows", full + row
    yield "200,000 bytes", bytes(200000)
    yield "row 3,640 bad, and a cut row", full[:-1] + b"\x10" + row[:16]


# ---- the comparison


def fail(line):
    print("python: " + line)
    sys.exit(1)


def shown(data):
    return repr(data if len(data) <= 400 else data[:200] + b" .. " + data[-200:])


def same(job, name, data, ours, theirs):
    if ours != theirs:
        print("input (%d bytes):    %s" % (len(data), shown(data)))
        print("the program writes:  %s" % shown(ours))
        print("the example writes:  %s" % shown(theirs))
        fail("examples/strip.py %s differs: %s" % (job, name))


def kind(job, out, good):
    if good:
        return job + (" ok" if job == "check" else " done")
    if out.startswith(b"record "):
        return "check record N rule " + out.split()[3].decode()
    return job + " " + next(word for word in ("bad tail", "bad line", "bad row", "too long") if word.encode() in out[-16:])


def by_function(job, name, data, words, met):
    """the program's own output beside that of the example's function"""
    run = subprocess.run(words, input=data, capture_output=True)
    if run.returncode != 0 or run.stderr:
        fail("%s ended badly: %s" % (PROGRAM[job], name))
    out, good = FUNCTION[job](data)
    same(job, name, data, run.stdout, out)
    met[kind(job, out, good)] += 1


def by_command(job, name, data):
    """./strip beside the example as a command: what they write, and their status"""
    ours = subprocess.run(["./strip", job], input=data, capture_output=True)
    theirs = subprocess.run([sys.executable, "examples/strip.py", job], input=data, capture_output=True)
    message = ours.stderr if job != "list" else b""
    same(job, name, data, ours.stdout + message, theirs.stdout)
    if (ours.returncode, b"") != (theirs.returncode, theirs.stderr):
        fail("examples/strip.py %s ends with status %d, ./strip with %d: %s" % (job, theirs.returncode, ours.returncode, name))


def by_decimal(words):
    """the dates that strippack makes beside those of Python's decimal numbers, rounded half up"""
    strip = subprocess.run(words, input=DATED, capture_output=True).stdout
    dates = [record[1] for record in example.records_of(strip)[0]]
    if len(dates) != len(DATES):
        fail("strippack made %d records of %d dates" % (len(dates), len(DATES)))
    for word, date in zip(DATES, dates):
        want = decimal.Decimal(word).quantize(decimal.Decimal("0.00001"), decimal.ROUND_HALF_UP).scaleb(5)
        if date != want:
            fail("%s is packed as %d, by decimal it is %d" % (word, date, want))


def by_text(packing, checking):
    """stripcheck on what strippack makes of lines that keep the rules for filing: it has to say `ok`"""
    cases = [[line_of(record) for record in filed(n)] for n in range(40)]
    cases.append([b"0,%s,0,0.000,0.001,9\n" % date.encode() for date in sorted(DATES, key=decimal.Decimal)])
    for lines in cases:
        strip = subprocess.run(packing, input=HEADER + b"".join(lines), capture_output=True).stdout
        out = subprocess.run(checking, input=strip, capture_output=True).stdout
        if len(strip) != (89 * len(lines) + 7) // 8 or out != b"ok\n":
            fail("%d lines that keep the rules are packed to %d bytes, of which stripcheck says %r" % (len(lines), len(strip), out))


def main():
    os.chdir(ROOT)
    met = collections.Counter()
    cases = {"list": list(strips()), "pack": list(texts()), "rows": list(strips()), "packrows": list(rows())}
    cases["check"] = list(strips()) + list(strips_for_filing())
    for name in sorted(os.listdir("examples")):
        with open(os.path.join("examples", name), "rb") as file:
            data = file.read()
        for job in cases:
            cases[job].append((name, data))
    words = {}
    for job, program in PROGRAM.items():
        run = subprocess.run(["tests/program", "--words", program], stdout=subprocess.PIPE, text=True)
        if run.returncode != 0:
            fail("%s can't be run" % program)
        words[job] = run.stdout.splitlines()
        for name, data in cases[job]:
            by_function(job, name, data, words[job], met)
    by_decimal(words["pack"])
    by_text(words["pack"], words["check"])
    for job, name, data in (
        ("list", "the night", open("examples/night.strip", "rb").read()),
        ("pack", "the night", open("examples/night.txt", "rb").read()),
        ("list", "a lone zero byte", b"\0"),
        ("pack", "an empty text", b""),
        ("list", "65,537 bytes", bytes(65537)),
        ("pack", "65,537 bytes", bytes(65537)),
        ("rows", "the night", open("examples/night.strip", "rb").read()),
        ("rows", "a lone zero byte", b"\0"),
        ("packrows", "a cut row", b"\0"),
        ("packrows", "rows of zeros", bytes(36)),
        ("check", "the night", open("examples/night.strip", "rb").read()),
        ("check", "a record of zeros", bytes(12)),
        ("check", "a lone zero byte", b"\0"),
        ("check", "65,537 bytes", bytes(65537)),
    ):
        by_command(job, name, data)
    for what, least in LEAST.items():
        if met[what] < least:
            fail("only %d cases of '%s', at least %d are wanted" % (met[what], what, least))
    print("python: %d cases are the same (%s)" % (sum(met.values()), ", ".join("%s %d" % pair for pair in sorted(met.items()))))


main()
