"""A record's numbers as a line of text, as striplist writes it. A number that should be whole and isn't is an error."""
from operator import index

HEADER = "star,date,limit,mag,err,filter"


def decimal(units, places):
    size = "%0*d" % (places + 1, abs(units))
    return ("-" if units < 0 else "") + size[:-places] + "." + size[-places:]


def from_units(star, date, limit, mag, err, filter):
    """the line of a row's own whole numbers; limit is a truth value"""
    words = (index(star), decimal(index(date), 5), int(limit), decimal(index(mag), 3), decimal(index(err), 3), index(filter))
    return ",".join(map(str, words))


def from_scaled(star, date, limit, mag, err, filter):
    """the line of days and magnitudes as floats, rounded to the column's unit"""
    return "%d,%.5f,%d,%.3f,%.3f,%d" % (index(star), date, bool(limit), mag, err, index(filter))
