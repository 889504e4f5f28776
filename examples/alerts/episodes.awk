# Of panes of sessions with a gap of GAP: a line for each episode as it begins, and one when it is over.
BEGIN { FS = "," }
$1 != "pane" { next }
$4 >= ends[$3] || $5 <= begins[$3] { over[$3] = 0; print $3 " is hot since " strftime("%F %T", $4, 1); fflush() }
{ begins[$3] = $4; ends[$3] = $5 }
$2 == "early" { over[$3] = 0; next }
!over[$3]++ { print $3 " was hot until " strftime("%F %T", $5 - GAP, 1); fflush() }
