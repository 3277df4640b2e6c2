# The table of bench/run: 'K COUNT' lines (the file named by counts), then the driver's lines.
function ratio(r, aim) {
    if (r == "") return "-"
    if (aim > 0 && r > aim + 0.005) { above++; return sprintf("%.2f*", r) }
    return sprintf("%.2f ", r)
}
function plain(n) {
    if (n == "" || n == "-") return "-"
    return n < 100 ? sprintf("%.2f", n) : sprintf("%.1f", n)
}
FILENAME == counts { count[$1] = $2; next }
FNR == 1 {
    print "                                        ---- ns of an item ----     - instructions of an item -"
    print "case                            item       ours     Rust  ratio        ours     Rust  ratio    aim"
}
{
    split($0, p, "|"); k = 2 * (FNR - 1); aim = p[2]; items = p[6]
    ours = count[k]; rust = count[k + 1]
    timed = (p[5] != "-"); both = (p[5] != "0")
    counted = (ours > 0)
    ns[p[1]] = p[3]; each[p[1]] = ours / items
    printf("%-31s %-6s %8s %8s %6s    %8s %8s %6s  %5s\n", p[1], p[7],
        timed ? plain(p[3]) : "-", timed && both ? plain(p[4]) : "-", timed && both ? ratio(p[5], aim) : "- ",
        counted ? plain(ours / items) : "-", counted && both ? plain(rust / items) : "-", counted && both ? ratio(ours / rust, aim) : "- ",
        (aim > 0) ? sprintf("%.2f", aim) : "-")
}
END {
    # vetting a strip is held to reading one
    vet = "vet a strip"; read = "read a strip (bulk)"
    if (vet in ns && read in ns) {
        told = ratio(ns[vet] / ns[read], 1.1) " by time, " ratio(each[read] > 0 ? each[vet] / each[read] : "", 1.1) " by instructions"
        gsub(/  +/, " ", told)
        print vet " / " read ": " told " (aim 1.10)"
    }
    print above + 0 " ratios above the aim (*)"
}
