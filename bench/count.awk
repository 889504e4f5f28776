# The same count in awk, for valid rows alone: awk -F, -v SIZE=60 -v SKEW=600 -f count.awk ROWS
BEGIN { OFS = ","; mark = 0 }
$1 == "r" {
    if ($3 > mark + SKEW) { print "refused", NR, "TooFarAhead"; refused++; next }
    if ($3 < mark) { late++; next }
    admitted++
    end = $3 - $3 % SIZE + SIZE
    if (!((end, $2) in panes)) { n = ++filled[end]; at[end, n] = $2; if (first == 0 || end < first) first = end }
    panes[end, $2]++
    next
}
$1 == "w" {
    if ($2 <= mark) { print "refused", NR, "NotRising"; refused++; next }
    mark = $2
    for (end = first; end > 0 && end <= mark; end += SIZE) {
        for (i = 1; i <= filled[end]; i++) {
            print "pane", "on_time", at[end, i], end - SIZE, end, panes[end, at[end, i]]
            delete panes[end, at[end, i]]
            delete at[end, i]
            fired++
        }
        delete filled[end]
        first = end + SIZE
    }
}
END { print "end", NR, admitted + 0, late + 0, refused + 0, fired + 0 }
