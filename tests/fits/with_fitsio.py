"""The estimates of a FITS file as text, read by fitsio and its CFITSIO: python3 tests/fits/with_fitsio.py units|scaled FILE

fitsio itself takes a scaled column of whole numbers for one of floats and shows nonsense, so CFITSIO is asked, by what stands behind the
file's name, for the table without its scales, or for columns of floats that it has worked out."""
import sys

sys.dont_write_bytecode = True
import fitsio
import lines

what, path = sys.argv[1:]
if what == "units":
    names, line = lines.HEADER.split(","), lines.from_units
    path += "[ESTIMATES][col #TSCAL2=1.0;#TSCAL4=1.0;#TSCAL5=1.0]"
else:
    names, line = ["star", "days", "limit", "magnitude", "error", "filter"], lines.from_scaled
    path += "[ESTIMATES][col star;limit;filter;days(1D)=date;magnitude(1D)=mag;error(1D)=err]"
with fitsio.FITS(path) as file:
    table = file["ESTIMATES"]
    rows = [line(*row) for row in zip(*(table[name].read() for name in names))] if table.get_nrows() > 0 else []
print("\n".join([lines.HEADER] + rows))
