{
    start = $3 - $3 % 60
    pane = $2 "," start
    count[pane]++
    sum[pane] += $4
}
END {
    for (pane in count) {
        split(pane, part, ",")
        print pane, part[2] + 60, count[pane], sum[pane]
    }
}
