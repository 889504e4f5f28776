select key, min(time), max(time) + 60, count(*), sum(n)
from (
    select key, time, n, sum(begins) over (partition by key order by time) as number
    from (
        select key, time, n, case when time - lag(time) over (partition by key order by time) < 60 then 0 else 1 end as begins
        from records
    ) as marked
) as numbered
group by key, number
