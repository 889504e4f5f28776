-- What invoice.wsm must come to, from the log alone: sqlite3 :memory: '.read invoice.sql' < access.log
CREATE TABLE lines (line);
.separator "\037" "\n"
.import /dev/stdin lines
.separator "|" "\n"

CREATE VIEW parts AS
SELECT substr(line, instr(line, ' - ') + 3) AS user,
       substr(line, instr(line, ' [') + 2) AS stamp,
       substr(line, instr(line, '" ') + 2) AS answer
FROM lines WHERE line GLOB '* - * [[]*] "*" [1-5][0-9][0-9] [0-9]* "*" "*"';

CREATE VIEW calls AS
SELECT substr(user, 1, instr(user, ' [') - 1) AS user,
       strftime('%s', format('%s-%02d-%s %s', substr(stamp, 8, 4),
           (instr('JanFebMarAprMayJunJulAugSepOctNovDec', substr(stamp, 4, 3)) + 2) / 3, substr(stamp, 1, 2),
           substr(stamp, 13, 8)))
         - (substr(stamp, 22, 1) || '1') * (substr(stamp, 23, 2) * 3600 + substr(stamp, 25, 2) * 60) AS time,
       CAST(substr(answer, 1, 3) AS INTEGER) AS status,
       CAST(substr(answer, 5) AS INTEGER) AS bytes
FROM parts;

SELECT user, time / 3600 * 3600 AS begins, time / 3600 * 3600 + 3600, COUNT(*), SUM(bytes)
FROM calls WHERE status < 500 AND user IN ('acme', 'globex', 'initech')
GROUP BY user, begins ORDER BY begins, user;
