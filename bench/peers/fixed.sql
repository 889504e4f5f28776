select key, time / 60 * 60 as start, time / 60 * 60 + 60, count(*), sum(n)
from records
group by key, time / 60
