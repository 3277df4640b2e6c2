"""The estimates of a FITS file as text, read by astropy: python3 tests/fits/with_astropy.py units|scaled FILE"""
import sys

sys.dont_write_bytecode = True
import lines
import numpy
from astropy.io import fits

what, path = sys.argv[1:]
with fits.open(path) as file:
    table = file["ESTIMATES"].data
    if what == "units":  # the rows as they lie in the file, their limit a letter
        rows = [lines.from_units(*row[:2], {84: True, 70: False}[int(row[2])], *row[3:]) for row in table.view(numpy.ndarray).tolist()]
    else:
        rows = [lines.from_scaled(*row) for row in zip(*(table[name] for name in lines.HEADER.split(",")))]
print("\n".join([lines.HEADER] + rows))
