#!/usr/bin/env python3
"""Writes the input of the program `store_trials` and what it has to print, worked out by settle.py: store_cases.py
FOLDER writes FOLDER/stdin, FOLDER/stdout and FOLDER/data/agreement.
"""
import random
import sys

import compare
import settle

PILES = ["image", "held-table", "held-image", "twice held table", "lines in an image, days held over a table"]
ROWS = 12


def main():
    folder, rng = sys.argv[1], random.Random(92)
    agreement = compare.agreement(rng)
    records = [compare.record(rng) for _ in range(400)]
    data = b"202403\n" + b"".join(record + b"\n" for record in records)
    statement = settle.Statement(settle.Agreement(agreement), 202403, ROWS, ROWS)
    for record in data[7:].split(b"\n")[:-1]:
        statement.take(record)
    number = lambda text: int.from_bytes(text, "big")
    out = "table:\n" + statement.file().decode()
    for (month, point, kind, tariff), (calls, tenths) in sorted(statement.lines.items()):
        out += "line %d %d %d %d: %d calls, %d tenths\n" % (month, number(point), number(kind), tariff, calls, tenths)
    for (day, point), (calls, tenths, first, last) in sorted(statement.days.items()):
        out += "day %d %d: %d calls, %d tenths, %d to %d\n" % (day, number(point), calls, tenths, first, last)
    out += statement.refusals().decode() + "%d records taken\n" % statement.taken
    out += "".join("%s: the same\n" % pile for pile in PILES)
    for name, text in (("stdin", data), ("stdout", out.encode()), ("data/agreement", agreement)):
        with open("%s/%s" % (folder, name), "wb") as file:
            file.write(text)


main()
