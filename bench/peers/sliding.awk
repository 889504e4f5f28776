{
    for (start = $3 - $3 % 25; start > $3 - 60; start -= 25) {
        pane = $2 "," start
        count[pane]++
        sum[pane] += $4
    }
}
END {
    for (pane in count) {
        split(pane, part, ",")
        print pane, part[2] + 60, count[pane], sum[pane]
    }
}
