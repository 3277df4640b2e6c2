#!/bin/sh
# striplist, strippack and stripcheck, and ./strip over them, on good, damaged, short and overlong inputs: whole outputs are compared with
# what the rules of docs/FORMAT.md give, worked out by hand. Run, once all three are built: sh tests/programs.sh
set -u
cd "$(dirname "$0")/.." || exit 2
script=programs
. tests/outputs
header='star,date,limit,mag,err,filter'
record='\000\000\136\122\167\110\204\137\114\000\141\200'
line='5,2460523.64817,0,-1.440,0.012,3'

list() { # NAME BYTES(printf) TEXT(printf)
    printf "$2" >"$work/in"
    printf "$3" >"$work/want"
    same striplist "$1"
}
list 'an empty strip' '' "$header\n"
list 'the worked record' "$record" "$header\n$line\n"
list 'a lone zero byte: eight bits are left' '\000' "$header\nbad tail\n"
list 'eleven bytes: 88 bits are left' '\000\000\000\000\000\000\000\000\000\000\000' "$header\nbad tail\n"
list 'a bit set in the tail of seven' '\000\000\136\122\167\110\204\137\114\000\141\201' "$header\n${line}\nbad tail\n"
list 'the highest bit of the tail set' '\000\000\136\122\167\110\204\137\114\000\141\300' "$header\n${line}\nbad tail\n"
list 'one byte more: 15 bits are left' "$record\000" "$header\n$line\nbad tail\n"
list 'a record of zeros' '\000\000\000\000\000\000\000\000\000\000\000\000' "$header\n0,0.00000,0,0.000,0.000,0\n"
list 'a record of ones' '\377\377\377\377\377\377\377\377\377\377\377\200' "$header\n1048575,2748779.06943,1,-0.001,1.023,15\n"
# eight records of zeros are 712 bits, 89 bytes: no tail at all
head -c 89 /dev/zero >"$work/in"
{ echo "$header"; i=0; while [ $i -lt 8 ]; do echo 0,0.00000,0,0.000,0.000,0; i=$((i + 1)); done; } >"$work/want"
same striplist 'eight records, no tail'
# 65,536 bytes of zeros: 5890 records and 78 bits
head -c 65536 /dev/zero >"$work/in"
{ echo "$header"; awk 'BEGIN { for (i = 0; i < 5890; i++) print "0,0.00000,0,0.000,0.000,0"; print "bad tail" }'; } >"$work/want"
same striplist '65,536 bytes'
# 65,528 bytes are 5,890 records and 14 bits; 65,527 have 6 bits left: a good tail
head -c 65527 /dev/zero >"$work/in"
{ echo "$header"; awk 'BEGIN { for (i = 0; i < 5890; i++) print "0,0.00000,0,0.000,0.000,0" }'; } >"$work/want"
same striplist '65,527 bytes, a tail of six zeros'
echo 'too long' >"$work/want"
head -c 65537 /dev/zero >"$work/in"
same striplist '65,537 bytes'
head -c 300000 /dev/zero >"$work/in"
same striplist '300,000 bytes'

pack() { # NAME TEXT(printf) BYTES(printf)
    printf "$2" >"$work/in"
    printf "$3" >"$work/want"
    same strippack "$1"
}
good() { # NAME LINE: the worked record's strip
    pack "$1" "$header\n$2\n" "$record"
}
bad() { # NAME LINE
    pack "$1" "$header\n$2\n" 'bad line 2\n'
}
pack 'an empty text' '' 'bad line 1\n'
pack 'the header alone' "$header\n" ''
pack 'the header without its newline' "$header" 'bad line 1\n'
pack 'another last byte of the header' 'star,date,limit,mag,err,filteR\n' 'bad line 1\n'
pack 'a carriage return in the header' "$header\r\n" 'bad line 1\n'
pack 'a space behind the header' "$header \n" 'bad line 1\n'
pack 'an empty line' "$header\n\n" 'bad line 2\n'
pack 'an empty line at the end' "$header\n$line\n\n" 'bad line 3\n'
pack 'no newline at the end' "$header\n$line" 'bad line 2\n'
pack 'a bad third line after a good one' "$header\n$line\n$line,\n" 'bad line 3\n'
pack 'two bad lines: the first is named' "$header\nx\ny\n" 'bad line 2\n'
pack 'binary rubbish' '\000\001\377' 'bad line 1\n'
good 'the worked line' "$line"
good 'six decimals, rounded downward' '5,2460523.648174,0,-1.440,0.012,3'
good 'twelve decimals, rounded upward' '5,2460523.648165000000,0,-1.440,0.012,3'
bad 'thirteen decimals' '5,2460523.6481700000000,0,-1.440,0.012,3'
bad 'four decimals' '5,2460523.6481,0,-1.440,0.012,3'
bad 'no decimals' '5,2460523,0,-1.440,0.012,3'
bad 'a needless zero in front of the star' '05,2460523.64817,0,-1.440,0.012,3'
bad 'two zeros' '00,2460523.64817,0,-1.440,0.012,3'
bad 'a needless zero in front of the days' '5,02460523.64817,0,-1.440,0.012,3'
bad 'a needless zero in front of the magnitude' '5,2460523.64817,0,-01.440,0.012,3'
bad 'a needless zero in front of the error' '5,2460523.64817,0,-1.440,00.012,3'
bad 'no whole part' '5,2460523.64817,0,-.440,0.012,3'
bad 'two decimals of the magnitude' '5,2460523.64817,0,-1.44,0.012,3'
bad 'four decimals of the magnitude' '5,2460523.64817,0,-1.4400,0.012,3'
bad 'four decimals of the error' '5,2460523.64817,0,-1.440,0.0120,3'
bad 'a minus on zero' '5,2460523.64817,0,-0.000,0.012,3'
bad 'a plus' '5,2460523.64817,0,+1.440,0.012,3'
bad 'a minus on the error' '5,2460523.64817,0,-1.440,-0.012,3'
bad 'a minus on the star' '-5,2460523.64817,0,-1.440,0.012,3'
bad 'a space' '5, 2460523.64817,0,-1.440,0.012,3'
bad 'five numbers' '5,2460523.64817,0,-1.440,0.012'
bad 'seven numbers' '5,2460523.64817,0,-1.440,0.012,3,1'
bad 'a carriage return' "$line\r"
bad 'a star too large' '1048576,2460523.64817,0,-1.440,0.012,3'
bad 'a date too large' '5,2748779.06944,0,-1.440,0.012,3'
bad 'a limit too large' '5,2460523.64817,2,-1.440,0.012,3'
bad 'a magnitude too large' '5,2460523.64817,0,32.768,0.012,3'
bad 'a magnitude too small' '5,2460523.64817,0,-32.769,0.012,3'
bad 'an error too large' '5,2460523.64817,0,-1.440,1.024,3'
bad 'a filter too large' '5,2460523.64817,0,-1.440,0.012,16'
bad 'a star of forty digits' '1000000000000000000000000000000000000005,2460523.64817,0,-1.440,0.012,3'
bad 'a star that would wrap at 64 bits' '18446744073709551621,2460523.64817,0,-1.440,0.012,3'
pack 'the largest of each' "$header\n1048575,2748779.06943,1,32.767,1.023,15\n" '\377\377\377\377\377\377\377\357\377\377\377\200'
pack 'the least magnitude' "$header\n0,0.00000,0,-32.768,0.000,0\n" '\000\000\000\000\000\000\000\020\000\000\000\000'
# the date is the nearest unit, halves upward: of a record of zeros but for its date, bits 20 to 57 hold the units
rounds() { # DATE UNITS
    printf '%s\n0,%s,0,0.000,0.000,0\n' "$header" "$1" >"$work/in"
    {
        printf '\000\000'
        for byte in $(($2 >> 34)) $(($2 >> 26 & 255)) $(($2 >> 18 & 255)) $(($2 >> 10 & 255)) $(($2 >> 2 & 255)) $(($2 << 6 & 255)); do
            printf "\\$(printf %03o "$byte")"
        done
        printf '\000\000\000\000'
    } >"$work/want"
    same strippack "the date $1"
}
# the sixth decimal is 4 or 5, then 9s or 0s, from six decimals to twelve
nines='' zeros=''
while [ ${#nines} -lt 7 ]; do
    rounds "2460523.648174$nines" 246052364817
    rounds "2460523.648175$zeros" 246052364818
    rounds "2460523.999995$zeros" 246052400000
    bad "the bound, $((6 + ${#zeros})) decimals" "5,2748779.069435$zeros,0,-1.440,0.012,3"
    nines=9$nines zeros=0$zeros
done
rounds 0.000004999999 0
rounds 0.000005 1
rounds 0.000000000001 0
rounds 0.648176 64818
rounds 2460523.64816500 246052364817
# a carry through decimals, and into the whole part
rounds 2460523.6481999999 246052364820
rounds 2460523.64199999995 246052364200
rounds 0.999994999999 99999
rounds 0.999995 100000
rounds 9.999999999999 1000000
rounds 2460523.999994 246052399999
rounds 2460523.999996 246052400000
rounds 2460999.9999951 246100000000
# the bound: the largest date, and what comes to 2^38 units
rounds 2748779.06943 274877906943
rounds 2748779.069434 274877906943
rounds 2748779.069434999999 274877906943
rounds 2748779.069425 274877906943
bad 'a date that only rounding makes too large' '5,2748779.069439,0,-1.440,0.012,3'
bad 'a date that wraps at 64 bits' '5,184467440737095.516160,0,-1.440,0.012,3'
bad 'a date whose digits wrap at 64 bits' '5,18446744.073709551616,0,-1.440,0.012,3'
bad 'a date of forty digits before the point' '5,1000000000000000000000000000000000000000.000005,0,-1.440,0.012,3'
# 65,536 bytes of text: the header and 2,519 lines of 26 bytes are 65,525; one line of 37 more bytes would be 65,562
{ echo "$header"; awk 'BEGIN { for (i = 0; i < 2518; i++) print "0,0.00000,0,0.000,0.000,0"; print "0,0.00000,0,0.000,0.000,0" }'; } >"$work/in"
[ "$(wc -c <"$work/in")" -le 65536 ] || fail 'the long text is too long'
head -c 28024 /dev/zero >"$work/want" # 2,519 records are 224,191 bits
same strippack '2,519 lines'
{ cat "$work/in"; printf 'xxxxxxxxxxx'; } >"$work/more"
head -c 65536 "$work/more" >"$work/in"
echo 'bad line 2521' >"$work/want"
same strippack '65,536 bytes, the last line bad'
printf 'x' >>"$work/in"
echo 'too long' >"$work/want"
same strippack '65,537 bytes'

# the longest lines have 41 bytes: 1,597 of them pass, 1,598 do not
longest='1048575,2748779.06943,1,-32.768,1.023,15'
lines() { # COUNT
    echo "$header"
    awk -v n="$1" -v l="$longest" 'BEGIN { for (i = 0; i < n; i++) print l }'
}
lines 1598 >"$work/in"
[ "$(wc -c <"$work/in" | tr -d ' ')" = 65549 ] || fail 'the longest line has another length'
echo 'too long' >"$work/want"
same strippack '1,598 of the longest lines'
lines 1597 >"$work/text"
tests/program strippack <"$work/text" >"$work/in" || fail 'strippack ended badly: 1,597 of the longest lines'
[ "$(wc -c <"$work/in" | tr -d ' ')" = 17767 ] || fail 'strippack wrote no strip of 1,597 records'
cp "$work/text" "$work/want" && same striplist '1,597 of the longest lines'
# a long night in pieces, as docs/FORMAT.md says: 63 nights of 48 records are 3,024 records
i=0
while [ $i -lt 63 ]; do
    cat examples/night.strip
    i=$((i + 1))
done >"$work/long"
tests/program striplist <"$work/long" >"$work/in" || fail 'striplist ended badly: 3,024 records'
echo 'too long' >"$work/want"
same strippack 'the text of 3,024 records'
(cd "$work" && split -b 17711 long piece.) || fail 'split'
for piece in "$work"/piece.*; do
    tests/program striplist <"$piece" >"$work/text" && tests/program strippack <"$work/text" || fail "a piece of a long night: $piece"
done >"$work/out"
cmp -s "$work/out" "$work/long" || fail 'a long night in pieces is not that night again'
count=$((count + 1))

# ---- stripcheck
check() { # NAME BYTES(printf) VERDICT
    printf "$2" >"$work/in"
    echo "$3" >"$work/want"
    same stripcheck "$1"
}
check 'an empty strip' '' ok
check 'the worked record' "$record" ok
zeros='\000\000\000\000\000\000\000\000\000\000\000'
ones='\377\377\377\377\377\377\377\377\377\377\377'
check 'a record of zeros' "$zeros\000" 'record 1 rule 3'
check 'a record of ones' "$ones\200" 'record 1 rule 2'
check 'a lone zero byte: eight bits are left' '\000' 'bad tail'
check 'eleven bytes: 88 bits are left' "$zeros" 'bad tail'
check 'a bit set in the tail of seven' '\000\000\136\122\167\110\204\137\114\000\141\201' 'bad tail'
check 'the highest bit of the tail set' '\000\000\136\122\167\110\204\137\114\000\141\300' 'bad tail'
check 'one byte more: 15 bits are left' "$record\000" 'bad tail'
check 'a fault, then one byte more' "$zeros\000\000" 'record 1 rule 3'
check 'a fault, then bits set in the tail' "$ones\377" 'record 1 rule 2'

# the strip of records, a line DATE,LIMIT,ERROR,FILTER each; stars and magnitudes, which no rule is about, have this bit throughout
strip() { # BIT
    printf "$(awk -F , -v bit="$1" '
        function put(n, width) {
            if (width > 1) put(int(n / 2), width - 1)
            byte = 2 * byte + n % 2
            if (++bits % 8 == 0) { printf "\\%03o", byte; byte = 0 }
        }
        { put(bit * 1048575, 20); put($1, 38); put($2, 1); put(bit * 65535, 16); put($3, 10); put($4, 4) }
        END { while (bits % 8) put(0, 1) }')"
}
echo 246052364817,0,12,3 | strip 0 >"$work/in"
printf '\000\000\016\122\167\110\204\100\000\000\141\200' | cmp -s - "$work/in" || fail 'the worked record is put together wrongly'
echo 274877906943,1,1023,15 | strip 1 >"$work/in"
printf "$ones\200" | cmp -s - "$work/in" || fail 'the record of ones is put together wrongly'
records() { # NAME VERDICT RECORD ..
    name=$1
    echo "$2" >"$work/want"
    shift 2
    for bit in 0 1; do
        printf '%s\n' "$@" | strip $bit >"$work/in"
        same stripcheck "$name, the other bits $bit"
    done
}
good=246052364817,0,12,3
later=246052364818,0,12,3
records 'a good record' ok $good
records 'five good records' ok $good $good $later $later 246052400000,1,0,9

# rule 1: the first record has no date above it, so the second is the first that can break it
early=246052364816,0,12,3
records 'equal dates' ok $good $good $good
records 'a date a unit later' ok $good $later
records 'date 0 first' ok 0,0,12,3 $good
records 'date 0 twice' ok 0,0,12,3 0,0,12,3
records 'the largest date first' ok 274877906943,0,12,3
records 'the largest date twice' ok 274877906943,0,12,3 274877906943,0,12,3
records 'date 0, then the largest' ok 0,0,12,3 274877906943,0,12,3
records 'a date a unit before the one above it' 'record 2 rule 1' $good $early
records 'the largest date, then 0' 'record 2 rule 1' 274877906943,0,12,3 0,0,12,3
records 'rule 1 at the second of five' 'record 2 rule 1' $good $early $good $good $later
records 'rule 1 at the third of five' 'record 3 rule 1' $good $good $early $good $later
records 'rule 1 at the last of five' 'record 5 rule 1' $good $good $good $later $good
records 'two dates that fall' 'record 2 rule 1' $later $good $early
records 'a date before the one above it, but not before the first' 'record 3 rule 1' $early $later $good
for k in 1 8 16 31 32 37; do
    power=$((1 << k))
    records "date 2^$k - 1, then 2^$k" ok $((power - 1)),0,12,3 $power,0,12,3
    records "date 2^$k, then 2^$k - 1" 'record 2 rule 1' $power,0,12,3 $((power - 1)),0,12,3
done

# rule 2
for filter in 0 1 2 3 4 5 6 7 8 9; do
    records "filter $filter" ok 246052364817,0,12,$filter
done
for filter in 10 11 12 13 14 15; do
    records "filter $filter" 'record 1 rule 2' 246052364817,0,12,$filter
done
wrong=246052364817,0,12,10
records 'rule 2 at the first of five' 'record 1 rule 2' $wrong $good $good $good $good
records 'rule 2 at the third of five' 'record 3 rule 2' $good $good $wrong $good $later
records 'rule 2 at the last of five' 'record 5 rule 2' $good $good $good $good $wrong
records 'two filters above 9' 'record 2 rule 2' $good $wrong $wrong

# rule 3
records 'error 0 with limit 1' ok 246052364817,1,0,3
for error in 1 2 4 8 16 32 64 128 256 512 1023; do
    records "error $error with limit 0" ok 246052364817,0,$error,3
done
records 'error 1 with limit 1' ok 246052364817,1,1,3
records 'error 0 with limit 0' 'record 1 rule 3' 246052364817,0,0,3
bare=246052364817,0,0,3
records 'rule 3 at the first of five' 'record 1 rule 3' $bare $good $good $good $good
records 'rule 3 at the third of five' 'record 3 rule 3' $good $good $bare $good $later
records 'rule 3 at the last of five' 'record 5 rule 3' $good $good $good $good $bare
records 'limit 1 in the records around' 'record 2 rule 3' 246052364817,1,0,3 $bare 246052364817,1,0,3

# of a record's faults the first rule, of the records at fault the first
records 'rules 1, 2 and 3' 'record 2 rule 1' $good 246052364816,0,0,10
records 'rules 1 and 2' 'record 2 rule 1' $good 246052364816,0,12,10
records 'rules 1 and 3' 'record 2 rule 1' $good 246052364816,0,0,3
records 'rules 2 and 3' 'record 2 rule 2' $good 246052364817,0,0,10
records 'rules 2 and 3 at the first' 'record 1 rule 2' 0,0,0,15
records 'rule 2, then rule 1' 'record 1 rule 2' $wrong $early
records 'rule 3, then rule 1' 'record 1 rule 3' $bare $early
records 'rule 3, then rule 2' 'record 2 rule 3' $good $bare $wrong
records 'rule 3, then all three' 'record 2 rule 3' $good $bare 246052364816,0,0,10

# tails of seven, eight and two records: one bit, none, six
printf '%s\n' $good $good $good $good $good $good $good >"$work/seven"
strip 0 <"$work/seven" >"$work/strip"
cp "$work/strip" "$work/in" && echo ok >"$work/want"
same stripcheck 'a tail of one bit'
{ head -c 77 "$work/strip"; printf '\207'; } >"$work/in" # error 12 and filter 3 end in 1000011
echo 'bad tail' >"$work/want"
same stripcheck 'a tail of one bit that is set'
{ cat "$work/seven"; echo $later; } | strip 0 >"$work/in"
[ "$(wc -c <"$work/in" | tr -d ' ')" = 89 ] || fail 'eight records have no 89 bytes'
echo ok >"$work/want"
same stripcheck 'eight records, no tail'
printf '\000' >>"$work/in"
echo 'bad tail' >"$work/want"
same stripcheck 'eight records and a zero byte'
{ printf '%s\n' $good $early | strip 0; printf '\000'; } >"$work/in"
echo 'record 2 rule 1' >"$work/want"
same stripcheck 'a fault in the last record, then one byte more'

# long ones: 5,890 records have 65,527 bytes, and 65,528 have a bad tail
night() { # COUNT: so many good records, each three units after the one above it
    awk -v n="$1" 'BEGIN { for (i = 0; i < n; i++) printf "%.0f,0,12,3\n", 246052364817 + 3 * i }'
}
night 5890 | strip 0 >"$work/long"
[ "$(wc -c <"$work/long" | tr -d ' ')" = 65527 ] || fail '5,890 records have no 65,527 bytes'
long() { # NAME VERDICT BYTES: the 5,890 records and so many zero bytes
    { cat "$work/long"; head -c "$3" /dev/zero; } >"$work/in"
    echo "$2" >"$work/want"
    same stripcheck "$1"
}
long '5,890 good records' ok 0
long '65,528 bytes' 'bad tail' 1
long '65,536 bytes' 'bad tail' 9
long '65,537 bytes' 'too long' 10
long '265,527 bytes' 'too long' 200000
echo 'record 1 rule 3' >"$work/want"
head -c 65536 /dev/zero >"$work/in"
same stripcheck '65,536 bytes of zeros'
echo 'too long' >"$work/want"
head -c 65537 /dev/zero >"$work/in"
same stripcheck '65,537 bytes of zeros'
head -c 300000 /dev/zero >"$work/in"
same stripcheck '300,000 bytes of zeros'
for n in 9 10 99 100 999 1000 5890; do
    for fault in 1,0,12,3:1 274877906943,0,12,10:2 274877906943,0,0,3:3; do
        { night $((n - 1)); echo "${fault%:*}"; } | strip 1 >"$work/in"
        echo "record $n rule ${fault#*:}" >"$work/want"
        same stripcheck "record $n breaks rule ${fault#*:}"
    done
done

# the strips that docs/FORMAT.md gives as breaking a rule: rows with bytes in hex and the verdict, both between back quotes
awk -F ' *[|] *' '
    function hex(digit) { return index("0123456789ABCDEF", digit) - 1 }
    /^## / { on = $0 == "## Rules for filing" }
    on && $4 ~ /^`.*`$/ && $5 ~ /^`.*`$/ {
        if ($4 !~ /^`([0-9A-F][0-9A-F] )*[0-9A-F][0-9A-F]`$/) exit 1
        count = split(substr($4, 2, length($4) - 2), byte, " ")
        for (i = 1; i <= count; i++) printf "\\%03o", 16 * hex(substr(byte[i], 1, 1)) + hex(substr(byte[i], 2, 1))
        print " " substr($5, 2, length($5) - 2)
    }' docs/FORMAT.md >"$work/rules" || fail 'docs/FORMAT.md: a strip in the rules for filing is no bytes in hex'
[ "$(wc -l <"$work/rules")" -ge 5 ] || fail 'docs/FORMAT.md: fewer than five strips in the rules for filing'
while read -r bytes verdict; do
    check "a strip of docs/FORMAT.md, $verdict" "$bytes" "$verdict"
done <"$work/rules"

# ---- ./strip
# there and back
./strip pack <examples/night.txt >"$work/strip" || fail './strip pack examples/night.txt'
cmp -s "$work/strip" examples/night.strip || fail './strip pack writes another strip than examples/night.strip'
./strip list <examples/night.strip >"$work/text" || fail './strip list examples/night.strip'
cmp -s "$work/text" examples/night.txt || fail './strip list writes another text than examples/night.txt'

# the command's messages and statuses
./strip >"$work/out" 2>"$work/said" && fail './strip without a word ended well'
grep -q '^usage' "$work/said" || fail './strip without a word prints no usage'
printf 'x' | ./strip pack >"$work/out" 2>"$work/said" && fail './strip pack of a bad text ended well'
[ ! -s "$work/out" ] || fail './strip pack of a bad text wrote something'
[ "$(cat "$work/said")" = 'bad line 1' ] || fail './strip pack does not tell the bad line'
{ echo "$header"; awk 'BEGIN { for (i = 0; i < 8; i++) print "0,0.00000,0,0.000,0.000,0"; print "x" }'; } | ./strip pack >"$work/out" 2>"$work/said" && fail './strip pack of a bad tenth line ended well'
[ ! -s "$work/out" ] || fail './strip pack takes a message of a strip'"'"'s length for a strip'
[ "$(cat "$work/said")" = 'bad line 10' ] || fail './strip pack does not tell the bad tenth line'
printf '\000' | ./strip list >"$work/out" 2>"$work/said" && fail './strip list of a bad tail ended well'
[ "$(cat "$work/said")" = 'bad tail' ] || fail './strip list does not tell the bad tail'
[ "$(cat "$work/out")" = "$header
bad tail" ] || fail './strip list of a bad tail wrote something else'
./strip list <. >"$work/out" 2>"$work/said" && fail './strip list of a folder ended well'
[ ! -s "$work/out" ] || fail './strip list of a folder wrote something'

# no other command than check takes a file
for word in list pack rows packrows fits; do
    ./strip $word examples/night.strip >"$work/out" 2>"$work/said"
    [ $? = 2 ] || fail "./strip $word with a file ended with another status than 2"
    [ ! -s "$work/out" ] || fail "./strip $word with a file wrote something"
    grep -q '^usage' "$work/said" || fail "./strip $word with a file prints no usage"
done

# ./strip check: of standard input, of a file, of several
mkdir "$work/files" || exit 2
cp examples/night.strip "$work/files/night"
cp examples/night.strip "$work/files/%s*\\n"
printf "$zeros\000" >"$work/files/a bad night"
printf '\000' >"$work/files/-tail"
head -c 65537 /dev/zero >"$work/files/long"
: >"$work/files/empty"
: >"$work/files/locked" && chmod 000 "$work/files/locked"
root=$(pwd)
judged() { # NAME STATUS LINES(printf) MESSAGES(printf) FILE ..: on $work/in, in the folder of the files
    name=$1
    wanted=$2
    printf "$3" >"$work/want"
    printf "$4" >"$work/told"
    shift 4
    (cd "$work/files" && "$root/strip" check "$@") <"$work/in" >"$work/out" 2>"$work/said"
    status=$?
    [ $status = "$wanted" ] || fail "./strip check ended with status $status: $name"
    cmp -s "$work/out" "$work/want" || fail "./strip check wrote something else than it should: $name"
    cmp -s "$work/said" "$work/told" || fail "./strip check told something else than it should: $name"
    count=$((count + 1))
}
# this may prove and build first, and tell of it
./strip check <examples/night.strip >"$work/out" 2>"$work/said" || fail './strip check of the night ended badly'
cp examples/night.strip "$work/in"
judged 'standard input' 0 'ok\n' ''
judged 'a bad file, not the good standard input' 1 'record 1 rule 3\n' '' 'a bad night'
printf "$zeros\000" >"$work/in"
judged 'a bad standard input' 1 'record 1 rule 3\n' ''
judged 'a file, not the bad standard input' 0 'ok\n' '' night
judged 'an empty file' 0 'ok\n' '' empty
judged 'a file that is too long' 1 'too long\n' '' long
judged 'a leading dash' 1 'bad tail\n' '' -tail
judged 'a missing file' 1 '' "strip: none: can't be read\n" none
judged 'a folder' 1 '' "strip: .: can't be read\n" .
judged 'good files' 0 'night: ok\nempty: ok\n%%s*\\n: ok\n' '' night empty '%s*\n'
judged 'a file twice' 0 'night: ok\nnight: ok\n' '' night night
judged 'a bad file before a good one' 1 'a bad night: record 1 rule 3\nnight: ok\n' '' 'a bad night' night
judged 'a missing file before a good one' 1 'night: ok\n' "strip: a missing%%s\\\\n: can't be read\n" 'a missing%s\n' night
judged 'files of all kinds' 1 'night: ok\na bad night: record 1 rule 3\n-tail: bad tail\nlong: too long\nempty: ok\n' \
    "strip: none: can't be read\nstrip: .: can't be read\n" night 'a bad night' -tail none long . empty
# root reads it all the same
[ -r "$work/files/locked" ] || judged 'a file without the right to' 1 'night: ok\n' "strip: locked: can't be read\n" locked night
./strip check <. >"$work/out" 2>"$work/said" && fail './strip check of a folder ended well'
[ ! -s "$work/out" ] || fail './strip check of a folder wrote something'
[ -s "$work/said" ] || fail './strip check of a folder told nothing'

# ./strip over a kit that is another, and over one that does not prove crates that have changed since
mkdir "$work/bin" && printf '#!/bin/sh\necho another\n' >"$work/bin/rt" && chmod +x "$work/bin/rt" || exit 2
PATH=$work/bin:$PATH ./strip list <examples/night.strip >"$work/out" 2>"$work/said" && fail './strip over another kit ended well'
grep -q "^strip: another kit: 'rt version' says 'another'" "$work/said" || fail './strip does not tell that the kit is another'
printf '#!/bin/sh\n[ "$1" = run ] || exec "%s" "$@"\nexit 1\n' "$(command -v rt)" >"$work/bin/rt"
cp -p target/checked-striplist "$work/checked" && touch -t 200001010000 target/checked-striplist || exit 2
PATH=$work/bin:$PATH ./strip list <examples/night.strip >"$work/out" 2>"$work/said" && fail './strip ran a program whose crates are not proved'
[ ! -s "$work/out" ] || fail './strip wrote something by a program whose crates are not proved'
cp -p "$work/checked" target/checked-striplist || exit 2
echo "programs: $count outputs are as they should be"
