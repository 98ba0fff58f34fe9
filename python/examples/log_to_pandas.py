#!/usr/bin/env python3
"""A log of the program as a table of pandas, one row a tick.

    ./irig run examples/dark_hour.jsonl --all | python3 python/examples/log_to_pandas.py
"""
import sys

import pandas

import irig

log = irig.read_log(sys.stdin.read())
table = pandas.DataFrame(log.to_rows())
table["utc"] = pandas.to_datetime(table["utc"], utc=True)
print(table.head(20).to_string(index=False))
print(table.groupby(["reader", "cause"])["edge"].agg(["count", "min", "max"]))
print(log.verdict)
