#!/bin/sh
# striprows and rowspack, and ./strip rows and packrows over them, on both sides of every rule for rows: whole outputs are compared with
# what docs/FORMAT.md gives, worked out by hand. Run, once both are built: sh tests/rows.sh
set -u
LC_ALL=C
export LC_ALL
cd "$(dirname "$0")/.." || exit 2
script=rows
. tests/outputs
rows() { # NAME STRIP(printf) ROWS(printf)
    printf "$2" >"$work/in"
    printf "$3" >"$work/want"
    same striprows "$1"
}
pack() { # NAME ROWS(printf) STRIP(printf)
    printf "$2" >"$work/in"
    printf "$3" >"$work/want"
    same rowspack "$1"
}
both() { # NAME STRIP(printf) ROWS(printf)
    rows "$1" "$2" "$3"
    pack "$1" "$3" "$2"
}
many() { # COUNT BYTES(printf)
    i=0
    while [ $i -lt "$1" ]; do
        printf "$2"
        i=$((i + 1))
    done
}

# the worked record: star 5, date 246052364817 (hex 39 49 DD 22 11), limit 0, magnitude -1440 (FA 60), error 12, filter 3
record='\000\000\136\122\167\110\204\137\114\000\141\200'
star='\000\000\000\005'
date='\000\000\000\071\111\335\042\021'
rest='\372\140\000\014\003' # magnitude, error, filter
row="${star}${date}F$rest"
both 'nothing' '' ''
both 'the worked record' "$record" "$row"
both 'the worked record as a limit' '\000\000\136\122\167\110\204\177\114\000\141\200' "${star}${date}T$rest"
# the second record's bits lie one to the right of the twelfth byte's last seven: 80, then 00 2F 29 3B A4 42 2F A6 00 30 C0
two='\000\000\136\122\167\110\204\137\114\000\141\200\000\057\051\073\244\102\057\246\000\060\300'
both 'the worked record twice' "$two" "$row$row"

# each column alone, the others 0: its largest number and its least but 0, which lie at the first and last of its bits
s0='\000\000\000\000'
d0='\000\000\000\000\000\000\000\000'
m0='\000\000'
zero="${s0}${d0}F${m0}${m0}\000"
ones='\000\017\377\377\000\000\000\077\377\377\377\377T\377\377\003\377\017'
both 'a record of zeros' '\000\000\000\000\000\000\000\000\000\000\000\000' "$zero"
both 'a record of ones' '\377\377\377\377\377\377\377\377\377\377\377\200' "$ones"
largest='\000\017\377\377\000\000\000\077\377\377\377\377T\177\377\003\377\017'
both 'the largest of each' '\377\377\377\377\377\377\377\357\377\377\377\200' "$largest"
both 'star 2^20 - 1' '\377\377\360\000\000\000\000\000\000\000\000\000' "\000\017\377\377${d0}F${m0}${m0}\000"
both 'star 1' '\000\000\020\000\000\000\000\000\000\000\000\000' "\000\000\000\001${d0}F${m0}${m0}\000"
both 'star 2^19' '\200\000\000\000\000\000\000\000\000\000\000\000' "\000\010\000\000${d0}F${m0}${m0}\000"
both 'date 2^38 - 1' '\000\000\017\377\377\377\377\300\000\000\000\000' "${s0}\000\000\000\077\377\377\377\377F${m0}${m0}\000"
both 'date 1' '\000\000\000\000\000\000\000\100\000\000\000\000' "${s0}\000\000\000\000\000\000\000\001F${m0}${m0}\000"
both 'date 2^37' '\000\000\010\000\000\000\000\000\000\000\000\000' "${s0}\000\000\000\040\000\000\000\000F${m0}${m0}\000"
both 'limit 1' '\000\000\000\000\000\000\000\040\000\000\000\000' "${s0}${d0}T${m0}${m0}\000"
both 'magnitude 32767' '\000\000\000\000\000\000\000\017\377\340\000\000' "${s0}${d0}F\177\377${m0}\000"
both 'magnitude -32768' '\000\000\000\000\000\000\000\020\000\000\000\000' "${s0}${d0}F\200\000${m0}\000"
both 'magnitude -1' '\000\000\000\000\000\000\000\037\377\340\000\000' "${s0}${d0}F\377\377${m0}\000"
both 'magnitude 1' '\000\000\000\000\000\000\000\000\000\040\000\000' "${s0}${d0}F\000\001${m0}\000"
both 'error 1023' '\000\000\000\000\000\000\000\000\000\037\370\000' "${s0}${d0}F${m0}\003\377\000"
both 'error 1' '\000\000\000\000\000\000\000\000\000\000\010\000' "${s0}${d0}F${m0}\000\001\000"
both 'error 512' '\000\000\000\000\000\000\000\000\000\020\000\000' "${s0}${d0}F${m0}\002\000\000"
both 'filter 15' '\000\000\000\000\000\000\000\000\000\000\007\200' "${s0}${d0}F${m0}${m0}\017"
both 'filter 1' '\000\000\000\000\000\000\000\000\000\000\000\200' "${s0}${d0}F${m0}${m0}\001"
both 'filter 8' '\000\000\000\000\000\000\000\000\000\000\004\000' "${s0}${d0}F${m0}${m0}\010"

# rows that are no record
bad() { # NAME ROW(printf)
    pack "$1" "$2" 'bad row 1\n'
}
bad 'star 2^20' "\000\020\000\000${date}F$rest"
bad 'star 2^24' "\001\000\000\000${date}F$rest"
bad 'star 2^31 - 1' "\177\377\377\377${date}F$rest"
bad 'star -1' "\377\377\377\377${date}F$rest"
bad 'star -2^31' "\200\000\000\000${date}F$rest"
bad 'date 2^38' "${star}\000\000\000\100\000\000\000\000F$rest"
bad 'date 2^39' "${star}\000\000\000\200\000\000\000\000F$rest"
bad 'date 2^40' "${star}\000\000\001\000\000\000\000\000F$rest"
bad 'date 2^63 - 1' "${star}\177\377\377\377\377\377\377\377F$rest"
bad 'date -1' "${star}\377\377\377\377\377\377\377\377F$rest"
bad 'date -2^63' "${star}\200\000\000\000\000\000\000\000F$rest"
bad 'error 1024' "${star}${date}F\372\140\004\000\003"
bad 'error 32767' "${star}${date}F\372\140\177\377\003"
bad 'error -1' "${star}${date}F\372\140\377\377\003"
bad 'error -32768' "${star}${date}F\372\140\200\000\003"
bad 'filter 16' "${star}${date}F\372\140\000\014\020"
bad 'filter 128' "${star}${date}F\372\140\000\014\200"
bad 'filter 255' "${star}${date}F\372\140\000\014\377"
# bytes 0, 1, '0', '1', '?', S, E and 255, then those with one bit other than T (U V P \ D t) and than F (G D B N V f)
for letter in 000 001 060 061 077 123 105 377 125 126 120 134 104 164 024 324 107 102 116 146 006 306; do
    bad "the limit's byte is $letter (octal)" "${star}${date}\\${letter}$rest"
done
bad 'a row from its second byte on' "\000\000\005${date}F${rest}\000"

# which row is named, and what goes before what
wrong="${star}${date}f$rest"
pack 'a bad second row' "$row$wrong" 'bad row 2\n'
pack 'two bad rows: the first is named' "$row$wrong$row$wrong" 'bad row 2\n'
pack 'a row bad in two columns' "\377\377\377\377${date}F\372\140\000\014\377" 'bad row 1\n'
pack 'a bad row before a cut one' "$wrong\000" 'bad row 1\n'
pack 'a bad second row before a cut third' "$row$wrong$star" 'bad row 2\n'
pack 'one byte' '\000' 'bad tail\n'
pack 'one byte, a newline' '\n' 'bad tail\n'
pack '17 bytes' "${star}${date}F\372\140\000\014" 'bad tail\n'
pack '17 bytes, their limit bad: a cut row is no bad one' "${star}${date}f\372\140\000\014" 'bad tail\n'
pack '19 bytes' "$row\000" 'bad tail\n'
pack '35 bytes' "$row${star}${date}F\372\140\000\014" 'bad tail\n'
for n in 9 10 99 100 999 1000 3640; do
    { many $((n - 1)) "$zero"; printf "$wrong"; } >"$work/in"
    echo "bad row $n" >"$work/want"
    same rowspack "row $n bad"
done

# bad tails of strips: only the message is written, no row
rows 'a lone zero byte: eight bits are left' '\000' 'bad tail\n'
rows 'eleven bytes: 88 bits are left' '\000\000\000\000\000\000\000\000\000\000\000' 'bad tail\n'
rows 'a bit set in the tail of seven' '\000\000\136\122\167\110\204\137\114\000\141\201' 'bad tail\n'
rows 'the highest bit of the tail set' '\000\000\136\122\167\110\204\137\114\000\141\300' 'bad tail\n'
rows 'one byte more: 15 bits are left' "$record\000" 'bad tail\n'
rows 'a record without its last byte' '\000\000\136\122\167\110\204\137\114\000\141' 'bad tail\n'
# 78 bytes are seven records and one bit
head -c 78 /dev/zero >"$work/in"
many 7 "$zero" >"$work/want"
same striprows 'a tail of one bit'
{ head -c 77 /dev/zero; printf '\001'; } >"$work/in"
echo 'bad tail' >"$work/want"
same striprows 'a tail of one bit that is set'
# eight records are 712 bits, 89 bytes: no tail at all
repeated() { # NAME RECORDS BYTES BYTE(octal) ROW(printf): both ways
    head -c "$3" /dev/zero | tr '\000' "\\$4" >"$work/in"
    many "$2" "$5" >"$work/want"
    same striprows "$1"
    mv "$work/in" "$work/strip" && mv "$work/want" "$work/in" && mv "$work/strip" "$work/want" || exit 2
    same rowspack "$1"
}
repeated 'eight records of zeros, no tail' 8 89 000 "$zero"
repeated 'eight records of ones, no tail' 8 89 377 "$ones"
head -c 90 /dev/zero >"$work/in"
echo 'bad tail' >"$work/want"
same striprows 'eight records and a zero byte'

# long ones: 3,640 rows have 65,520 bytes and their strip 40,495, without a tail
repeated '3,640 rows of zeros' 3640 40495 000 "$zero"
repeated '3,640 rows of ones' 3640 40495 377 "$ones"
cp "$work/in" "$work/rows" && head -c 16 /dev/zero >>"$work/in"
echo 'bad tail' >"$work/want"
same rowspack '65,536 bytes: 3,640 rows and 16 bytes'
printf '\000' >>"$work/in"
echo 'too long' >"$work/want"
same rowspack '65,537 bytes'
printf '\000' >>"$work/in"
same rowspack '65,538 bytes, 3,641 rows, the last one bad'
{ cat "$work/rows"; printf "$zero"; } >"$work/in"
same rowspack '3,641 good rows'
head -c 65537 /dev/zero >"$work/in"
same rowspack '65,537 bytes, the first row bad'
head -c 300000 /dev/zero >"$work/in"
same rowspack '300,000 bytes'
same striprows '300,000 bytes'
head -c 65537 /dev/zero >"$work/in"
same striprows '65,537 bytes'
# 65,536 bytes are 5,890 records and 78 bits; 65,528 have 14 bits left, 65,527 have 6
echo 'bad tail' >"$work/want"
head -c 65536 /dev/zero >"$work/in"
same striprows '65,536 bytes'
head -c 65528 /dev/zero >"$work/in"
same striprows '65,528 bytes'
head -c 65527 /dev/zero >"$work/in"
many 5890 "$zero" >"$work/want"
same striprows '65,527 bytes, a tail of six zeros'
head -c 65504 /dev/zero | tr '\000' '\377' >"$work/in"
many 5888 "$ones" >"$work/want"
same striprows '5,888 records of ones, no tail'

# the night: its rows are those of its text, whose numbers awk puts as bytes
awk -F , 'function put(n, bytes) { if (bytes > 1) put(int(n / 256), bytes - 1); printf "\\%03o", n % 256 }
    NR > 1 { gsub(/[.]/, ""); put($1, 4); put($2, 8); printf "%s", $3 ? "T" : "F"; put($4, 2); put($5, 2); put($6, 1) }' \
    examples/night.txt >"$work/octal"
printf "$(cat "$work/octal")" >"$work/want"
[ "$(wc -c <"$work/want" | tr -d ' ')" = 864 ] || fail 'the night has no 48 rows'
cp examples/night.strip "$work/in"
same striprows 'the night'
cp "$work/want" "$work/in" && cp examples/night.strip "$work/want"
same rowspack 'the night'

# ./strip: what it writes, its messages and statuses
says() { # NAME WORD STATUS MESSAGE(printf): on $work/in, with $work/want as all of the output
    ./strip "$2" <"$work/in" >"$work/out" 2>"$work/said"
    status=$?
    [ $status = "$3" ] || fail "./strip $2 ended with status $status: $1"
    cmp -s "$work/out" "$work/want" || fail "./strip $2 wrote something else than it should: $1"
    printf "$4" | cmp -s - "$work/said" || fail "./strip $2 told something else than it should: $1"
    count=$((count + 1))
}
# these may prove and build first, and tell of it
cp examples/night.strip "$work/in"
./strip rows <"$work/in" >"$work/out" 2>"$work/said" || fail './strip rows of the night ended badly'
./strip packrows <"$work/out" >"$work/strip" 2>"$work/said" || fail './strip packrows of the night ended badly'
cmp -s "$work/strip" examples/night.strip || fail './strip rows and packrows do not give examples/night.strip again'
printf "$(cat "$work/octal")" >"$work/want"
says 'the night' rows 0 ''
good() { # NAME WORD INPUT(printf) OUTPUT(printf)
    printf "$3" >"$work/in"
    printf "$4" >"$work/want"
    says "$1" "$2" 0 ''
}
good 'an empty strip' rows '' ''
good 'no rows' packrows '' ''
good 'a record' rows "$record" "$row"
good 'a row' packrows "$row" "$record"
good 'a row whose strip of 12 bytes ends with byte 0' packrows "$zero" '\000\000\000\000\000\000\000\000\000\000\000\000'
good 'two rows' packrows "$row$row" "$two"
: >"$work/want"
printf '\000' >"$work/in"
says 'a bad tail' rows 1 'bad tail\n'
says 'a cut row' packrows 1 'bad tail\n'
printf "$record\000" >"$work/in"
says 'a bad tail behind a record' rows 1 'bad tail\n'
head -c 65537 /dev/zero >"$work/in"
says '65,537 bytes' rows 1 'too long\n'
says '65,537 bytes' packrows 1 'too long\n'
# messages of 10 to 13 bytes; that of 12 has a strip's length
for n in 1 9 10 99 100 999 1000 3640; do
    { many $((n - 1)) "$zero"; printf "$wrong"; } >"$work/in"
    says "row $n bad" packrows 1 "bad row $n\n"
done
for word in rows packrows; do
    ./strip $word <. >"$work/out" 2>"$work/said" && fail "./strip $word of a folder ended well"
    [ ! -s "$work/out" ] || fail "./strip $word of a folder wrote something"
done
echo "rows: $count outputs are as they should be"
