-- What board.wsm must come to, from the file alone: sqlite3 :memory: '.read board.sql' < meters.jsonl
CREATE TABLE lines (line);
.separator "\037" "\n"
.import /dev/stdin lines
.separator "|" "\n"

CREATE VIEW messages AS
SELECT line ->> 'meter' AS meter, CAST(strftime('%s', line ->> 'time') AS INTEGER) AS time,
       CAST(round((line ->> 'kwh') * 1000) AS INTEGER) AS watt_hours
FROM lines;

-- A message begins a session where the one before it of its meter is 900 seconds away or more.
CREATE VIEW beginnings AS
SELECT *, time - lag(time, 1, 0) OVER (PARTITION BY meter ORDER BY time) >= 900 AS begins FROM messages;

CREATE VIEW numbered AS
SELECT *, SUM(begins) OVER (PARTITION BY meter ORDER BY time) AS session FROM beginnings;

SELECT meter, MIN(time) AS begins, MAX(time) + 900, SUM(watt_hours), COUNT(*)
FROM numbered GROUP BY meter, session ORDER BY begins, meter;
