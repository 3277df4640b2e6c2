"""The estimates of a FITS file as text, read by the words of the FITS Standard 4.0 alone: python3 tests/fits/plain.py FILE

Cards are taken by their fixed format, and have to say what docs/FORMAT.md says. Where they don't, it says so and ends with status 1."""
import struct
import sys

sys.dont_write_bytecode = True
import lines

BLOCK = 2880
CARD = 80
# keywords and values in their order; a string has a quote in front, NAXIS2 goes with the file
PRIMARY = [pair.split("=") for pair in "SIMPLE=T BITPIX=8 NAXIS=0 EXTEND=T".split()]
TABLE = [
    pair.split("=")
    for pair in """
    XTENSION='BINTABLE BITPIX=8 NAXIS=2 NAXIS1=18 NAXIS2=any PCOUNT=0 GCOUNT=1 TFIELDS=6
    TTYPE1='star TFORM1='1J
    TTYPE2='date TFORM2='1K TUNIT2='d TSCAL2=1.0E-05 TZERO2=0.0 TDISP2='F13.5
    TTYPE3='limit TFORM3='1L
    TTYPE4='mag TFORM4='1I TUNIT4='mag TSCAL4=0.001 TZERO4=0.0 TDISP4='F7.3
    TTYPE5='err TFORM5='1I TUNIT5='mag TSCAL5=0.001 TZERO5=0.0 TDISP5='F5.3
    TTYPE6='filter TFORM6='1B
    EXTNAME='ESTIMATES""".split()
]
ROW = struct.Struct(">iqchhB")


def must(good, line):
    if not good:
        sys.exit("plain: " + line)


def parsed(card):
    """a card's keyword and value; a string keeps its first quote"""
    must(len(card) == CARD and all(" " <= c <= "~" for c in card), "a card is cut, or not of ASCII: %r" % card)
    keyword = card[:8].rstrip(" ")
    must(" " not in keyword and card[8:10] == "= ", "a card has no keyword and '= ': %r" % card)
    if card[10] == "'":
        quote = card.find("'", 11)
        must(quote >= 19, "a string has fewer than 8 characters: %r" % card)
        value, rest = card[10:quote].rstrip(" "), card[quote + 1 :]
    else:
        value, rest = card[10:30].lstrip(" "), card[30:]
        must(value != "" and " " not in value, "a value does not end in column 30: %r" % card)
    must(rest.strip(" ") == "" or rest.lstrip(" ").startswith("/ ") and rest[0] == " ", "something else than a comment: %r" % card)
    return keyword, value


def header(data, start, wanted):
    """the values of the cards from start on, and where the header's last block ends"""
    found = []
    place = start
    while data[place : place + CARD] != b"END".ljust(CARD):
        found.append(parsed(data[place : place + CARD].decode("latin-1")))
        place += CARD
    must([keyword for keyword, _ in found] == [keyword for keyword, _ in wanted], "the keywords are %s" % found)
    for (keyword, value), (_, right) in zip(found, wanted):
        must(right == "any" or value == right, "%s is %s, not %s" % (keyword, value, right))
    end = place + CARD
    stop = end + -end % BLOCK
    must(data[end:stop] == b" " * (stop - end), "a header is not filled up with blanks")
    return dict(found), stop


def main(path):
    with open(path, "rb") as file:
        data = file.read()
    must(len(data) % BLOCK == 0, "%d bytes are no multiple of %d" % (len(data), BLOCK))
    _, start = header(data, 0, PRIMARY)
    values, start = header(data, start, TABLE)
    stop = start + ROW.size * int(values["NAXIS2"])
    must(len(data) == stop + -stop % BLOCK, "NAXIS2 is %s, and %d bytes follow the header" % (values["NAXIS2"], len(data) - start))
    must(not any(data[stop:]), "the table is not filled up with zeros")
    print(lines.HEADER)
    for star, date, limit, mag, err, filter in ROW.iter_unpack(data[start:stop]):
        must(limit in (b"T", b"F"), "a limit is %r" % limit)
        print(lines.from_units(star, date, limit == b"T", mag, err, filter))


main(sys.argv[1])
