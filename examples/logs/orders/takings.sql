-- What takings.wsm must come to, from the file alone: sqlite3 :memory: '.read takings.sql' < orders.csv
.import --csv /dev/stdin orders

CREATE VIEW paid AS
SELECT Shop, strftime('%s', "Placed at") / 900 * 900 AS begins, CAST(round(replace(Total, ',', '') * 100) AS INTEGER) AS cents
FROM orders WHERE Paid = 'yes';

SELECT Shop, begins, begins + 900, SUM(cents), COUNT(*), MAX(cents)
FROM paid GROUP BY Shop, begins ORDER BY begins, Shop;
