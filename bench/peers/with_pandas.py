"""Panes of records by pandas: with_pandas.py fixed|sliding|session RECORDS"""
import sys

import pandas


def panes(records):
    grouped = records.groupby(["key", "start"], sort=False, observed=True)["n"].agg(["count", "sum"]).reset_index()
    grouped.insert(2, "end", grouped["start"] + 60)
    return grouped


def fixed(records):
    records["start"] = records["time"] // 60 * 60
    return panes(records)


def sliding(records):
    placed = [records.assign(start=(records["time"] // 25 - back) * 25) for back in range(3)]
    return panes(pandas.concat(part[part["start"] > part["time"] - 60] for part in placed))


def session(records):
    records = records.sort_values(["key", "time"])
    begins = (records["key"] != records["key"].shift()) | (records["time"].diff() >= 60)
    grouped = records.groupby(begins.cumsum(), sort=False).agg(
        key=("key", "first"), start=("time", "min"), end=("time", "max"), count=("n", "count"), sum=("n", "sum")
    )
    grouped["end"] += 60
    return grouped


shape, path = sys.argv[1:]
columns = ["tag", "key", "time", "n"]
read = pandas.read_csv(path, header=None, names=columns, usecols=columns[1:], dtype={"key": "category"})
globals()[shape](read).to_csv(sys.stdout, header=False, index=False)
