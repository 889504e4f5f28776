# Rows of JSON lines: r,METER,TIME,WATT_HOURS,FAULT.
#
# usage: jq -Rr --unbuffered -f meters.jq meters.jsonl
#
# A line that is no such message becomes a row that wsm refuses as BadTag, and why is told on standard error.

# The seconds of a time in any zone, with or without a fraction: 2026-09-21T17:00:09.250+02:00.
def seconds:
    if length == 20 and endswith("Z") then fromdate
    else
        (capture("^(?<day>[0-9-]{10})[T ](?<clock>[0-9:]{8})([.,][0-9]+)?(Z|(?<sign>[+-])(?<hours>[0-9]{2}):?(?<minutes>[0-9]{2}))$")
            // error("no time with a zone: \(.)"))
        | ("\(.day)T\(.clock)Z" | fromdate)
            - (if .sign then "\(.sign)1" | tonumber else 0 end) * ((.hours // "0" | tonumber) * 60 + (.minutes // "0" | tonumber)) * 60
    end;

try (fromjson | "r,\(.meter // error("no meter") | @uri),\(.time | seconds),\(.kwh * 1000 | round),\(.fault == true)")
catch ("unread", ("line \(input_line_number): \(.)" | debug | empty))
