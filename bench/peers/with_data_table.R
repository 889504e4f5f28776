# Panes of records by data.table: with_data_table.R fixed|sliding|session RECORDS
library(data.table)
setDTthreads(1)

panes <- function(records) {
  records[, .(count = .N, sum = sum(n)), by = .(key, start)][, .(key, start, end = start + 60L, count, sum)]
}

fixed <- function(records) panes(records[, start := time %/% 60L * 60L])

sliding <- function(records) {
  placed <- lapply(0:2, function(back) {
    records[, .(key, time, n, start = (time %/% 25L - back) * 25L)][start > time - 60L]
  })
  panes(rbindlist(placed))
}

session <- function(records) {
  setorder(records, key, time)
  records[, number := cumsum(key != shift(key, fill = "") | time - shift(time, fill = 0L) >= 60L)]
  records[, .(key = key[1L], start = time[1L], end = time[.N] + 60L, count = .N, sum = sum(n)), by = number][, !"number"]
}

words <- commandArgs(TRUE)
records <- fread(words[2], header = FALSE, select = 2:4, col.names = c("key", "time", "n"))
fwrite(get(words[1])(records), "", col.names = FALSE)
