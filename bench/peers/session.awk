# Over records in the order of key and time.
function write_pane() {
    if (count) print key, start, last + 60, count, sum
}
$2 != key || $3 - last >= 60 {
    write_pane()
    key = $2
    start = $3
    count = sum = 0
}
{
    last = $3
    count++
    sum += $4
}
END { write_pane() }
