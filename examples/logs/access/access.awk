# Rows of an access log in the combined format of nginx and Apache: r,KEY,TIME,STATUS,BYTES.
#
# usage: gawk [-v BY=user] -f access.awk access.log
#
# The key is the first part of the path, or the user who signed in; then a line without a user makes no row. The first
# row has the names of the fields.
BEGIN {
    FS = "\""
    MONTHS = "JanFebMarAprMayJunJulAugSepOctNovDec"
    STAMPED = "^[^ ]+ [^ ]+ [^ ]+ \\[[0-9]{1,2}/[A-Z][a-z]{2}/[0-9]{4}(:[0-9]{2}){3} [-+][0-9]{4}\\] $"
    PLACES["docs"]; PLACES["api"]; PLACES["pricing"]; PLACES["static"]
    print "r,KEY,TIME,status,bytes"
    fflush()
}

function place(path,    parts) {
    split(path, parts, /[\/?]/)
    return path ~ /^\/([?]|$)/ ? "home" : parts[2] in PLACES ? parts[2] : "other"
}

function seconds(stamp, zone,    t, shift) {
    split(stamp, t, /[[\/:]/)       # 2 to 7: day, month, year, hour, minute, second
    shift = (substr(zone, 2, 2) * 60 + substr(zone, 4, 2)) * 60
    return mktime(t[4] " " (index(MONTHS, t[3]) + 2) / 3 " " t[2] " " t[5] " " t[6] " " t[7], 1) \
        + (zone ~ /^-/ ? shift : -shift)
}

NF < 7 || $1 !~ STAMPED { print "unread," NR; fflush(); next }      # another form: wsm refuses it as BadTag

{
    split($1, head, " ")            # address, -, user, [21/Sep/2026:17:00:06, +0200]
    split($2, request, " ")         # GET, /docs/windows, HTTP/1.1
    split($3, answer, " ")          # status, bytes
    key = BY == "user" ? head[3] : place(request[2])
    if (key == "-") next
    if (stamp != head[4] head[5]) time = seconds(head[4], head[5])
    stamp = head[4] head[5]
    print "r," key "," time "," answer[1] "," answer[2]
    fflush()
}
