#!/bin/sh
# ./strip fits: the night's file has to be examples/night.fits, and files of other strips the same but for rows and their count. Readers of
# FITS, where they are at hand, have to find no fault with the files and to read the estimates' numbers. Run, once striprows and strippack
# are built: sh tests/fits.sh
set -u
LC_ALL=C
PYTHONDONTWRITEBYTECODE=1
export LC_ALL PYTHONDONTWRITEBYTECODE
cd "$(dirname "$0")/.." || exit 2
script=fits
. tests/outputs
size() { # FILE
    wc -c <"$1" | tr -d ' '
}

# ---- the file, byte by byte
# the first use may prove and build, and tell of it
./strip fits <examples/night.strip >"$work/night.fits" 2>"$work/said" || fail './strip fits of the night ended badly'
cmp -s "$work/night.fits" examples/night.fits || fail './strip fits writes another file than examples/night.fits'
# two headers of 2,880 bytes, then the rows, then zeros up to 2,880
[ "$(size examples/night.fits)" = 8640 ] || fail 'examples/night.fits has no three blocks of 2,880 bytes'
tests/program striprows <examples/night.strip >"$work/rows" || fail 'striprows ended badly'
{ cat "$work/rows"; head -c 2016 /dev/zero; } >"$work/want" # 48 rows have 864 bytes
tail -c 2880 examples/night.fits | cmp -s - "$work/want" || fail 'the table of examples/night.fits is not the rows and zeros'

# what ./strip fits writes on $work/in has to be the night's headers with another count of rows, and $work/rows with zeros behind it
file() { # NAME COUNT ZEROS
    naxis2=$(printf 'NAXIS2  = %20d' "$2")
    {
        head -c 5760 examples/night.fits | sed "s/NAXIS2  =                   48/$naxis2/" | head -c 5760
        cat "$work/rows"
        head -c "$3" /dev/zero
    } >"$work/want"
    ./strip fits <"$work/in" >"$work/out" 2>"$work/said" || fail "./strip fits ended badly: $1"
    [ ! -s "$work/said" ] || fail "./strip fits told something on standard error: $1"
    cmp -s "$work/out" "$work/want" || fail "./strip fits wrote something else than it should: $1"
    count=$((count + 1))
}
zeros() { # COUNT STRIPBYTES: a strip of so many records of zeros, and its rows
    head -c "$2" /dev/zero >"$work/in"
    awk -v n="$1" 'BEGIN { while (n-- > 0) printf "000000000000F00000" }' | tr 0 '\000' >"$work/rows"
}
printf '\000\000\136\122\167\110\204\137\114\000\141\200' >"$work/in"
printf '\000\000\000\005\000\000\000\071\111\335\042\021F\372\140\000\014\003' >"$work/rows"
file 'the worked record' 1 2862
zeros 0 0
file 'an empty strip: no table' 0 0
zeros 159 1769
file '159 records, 18 bytes short of a block' 159 18
zeros 160 1780
file '160 records, a whole block' 160 0
zeros 161 1792
file '161 records, a block and a row' 161 2862
zeros 5890 65527
file 'the longest strip' 5890 540 # 106,020 bytes

refused() { # NAME MESSAGE: on $work/in
    ./strip fits <"$work/in" >"$work/out" 2>"$work/said"
    [ $? = 1 ] || fail "./strip fits ended with another status than 1: $1"
    [ ! -s "$work/out" ] || fail "./strip fits wrote something: $1"
    [ "$(cat "$work/said")" = "$2" ] || fail "./strip fits told something else than '$2': $1"
    count=$((count + 1))
}
printf '\000' >"$work/in"
refused 'a lone zero byte' 'bad tail'
{ cat examples/night.strip; printf '\000'; } >"$work/in"
refused 'the night and a byte' 'bad tail'
head -c 65537 /dev/zero >"$work/in"
refused '65,537 bytes' 'too long'

# ---- readers: each reads the night, numbers at their edges, and a table without rows, and has to give their texts
cat >"$work/edges.txt" <<'END'
star,date,limit,mag,err,filter
0,0.00000,0,0.000,0.000,0
1048575,2748779.06943,1,32.767,1.023,15
1,0.00001,0,-32.768,0.001,1
5,2460523.64817,0,-1.440,0.012,3
524288,2460523.62822,1,-0.001,0.512,8
END
head -n 1 "$work/edges.txt" >"$work/none.txt"
for name in edges none; do
    ./strip pack <"$work/$name.txt" 2>"$work/said" >"$work/$name.strip" && ./strip fits <"$work/$name.strip" >"$work/$name.fits" ||
        fail "./strip pack and fits of $name.txt ended badly"
done
cp examples/night.fits examples/night.txt "$work" || exit 2
readers=
# a reader is a command that prints the text of the FITS file that is its last word
reads() { # NAME COMMAND..
    reader=$1
    shift
    for name in night edges none; do
        "$@" "$work/$name.fits" >"$work/out" 2>"$work/said" || {
            tail -n 3 "$work/said"
            fail "$reader can't read $name.fits"
        }
        cmp -s "$work/out" "$work/$name.txt" || {
            diff "$work/$name.txt" "$work/out" | head -n 5
            fail "$reader reads other numbers from $name.fits"
        }
    done
    readers="$readers; $reader"
}
left_out() { # WHAT
    echo "fits: left out: no $1 here to read the files with"
}
python_with() { # MODULE: prints a Python that has it; it may be the system's, behind another
    for python in python3 /usr/bin/python3; do
        "$python" -c "import $1" >/dev/null 2>&1 && echo "$python" && return
    done
    return 1
}

if python=$(python_with struct); then
    reads 'plain Python' "$python" tests/fits/plain.py
else
    left_out python3
fi
# fitsio alone misreads scaled columns (tests/fits/with_fitsio.py says how): what is tried is the CFITSIO below it
for module in astropy fitsio; do
    if python=$(python_with $module); then
        case $module in
        fitsio) name_of='CFITSIO (asked through fitsio)' ;;
        *) name_of=$module ;;
        esac
        reads "$name_of, whole numbers" "$python" tests/fits/with_$module.py units
        reads "$name_of, scaled" "$python" tests/fits/with_$module.py scaled
    else
        left_out "Python with $module"
    fi
done
if command -v stilts >/dev/null 2>&1; then
    with_stilts() { # FILE
        stilts tpipe in="$1#1" ifmt=fits ofmt=csv >"$work/csv" || return
        sed 's/,false,/,0,/; s/,true,/,1,/' "$work/csv" |
            awk -F , 'NR == 1 { print; next } { printf "%d,%.5f,%s,%.3f,%.3f,%d\n", $1, $2, $3, $4, $5, $6 }'
    }
    reads 'stilts, scaled' with_stilts
else
    left_out stilts
fi
if command -v fitsverify >/dev/null 2>&1; then
    for name in night edges none; do
        fitsverify "$work/$name.fits" >"$work/out" 2>&1 || {
            grep -E '^\*\*\* ' "$work/out"
            fail "fitsverify finds faults with $name.fits"
        }
        grep -qF 'Verification found 0 warning(s) and 0 error(s).' "$work/out" || fail "fitsverify does not say that $name.fits is good"
    done
    readers="$readers; fitsverify"
else
    left_out fitsverify
fi
echo "fits: $count outputs are as they should be${readers:+, and read well by: ${readers#; }}"
