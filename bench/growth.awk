# The second table of bench/run, of lines 'SIZE|case|item|ns|instructions'.
BEGIN { FS = "|" }
{
    if (!($2 in item)) { order[++n] = $2; item[$2] = $3 }
    ns[$2, $1] = $4; count[$2, $1] = $5
}
function plain(n) {
    return n < 100 ? sprintf("%.2f", n) : sprintf("%.1f", n)
}
function instructions(n) {
    return n > 0 ? plain(n) : "-"
}
END {
    print "                                        ------ ns of an item ------    - instructions of an item -"
    print "case                            item      1 KiB   64 KiB   16 MiB      1 KiB   64 KiB   16 MiB"
    for (i = 1; i <= n; i++) {
        c = order[i]
        printf "%-31s %-6s %8s %8s %8s   %8s %8s %8s\n", c, item[c], plain(ns[c, 1024]), plain(ns[c, 65536]), plain(ns[c, 16777216]),
            instructions(count[c, 1024]), instructions(count[c, 65536]), instructions(count[c, 16777216])
    }
    print "compile and check: layouts of 4, 16 and 64 fields; list a text: strips of 1 KiB, 64 KiB and 4 MiB; rows: the last of 9.9 MiB"
}
