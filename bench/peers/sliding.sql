select key, start, start + 60, count(*), sum(n)
from (
    select key, time, n, (time / 25 - back) * 25 as start
    from records, (select 0 as back union all select 1 union all select 2) as windows
) as placed
where start > time - 60
group by key, start
