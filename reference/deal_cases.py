#!/usr/bin/env python3
"""Writes the input of the program `deal` and what it has to print: deal_cases.py FOLDER writes FOLDER/stdin,
FOLDER/stdout and FOLDER/data/agreement. That the runs keep the same is checked here too, by settle.py.
"""
import random
import sys

import compare
import settle


def run(agreement, parts):
    """The statements of some parts of the records, joined."""
    statements = []
    for records in parts:
        statement = settle.Statement(settle.Agreement(agreement), 202403)
        for record in records:
            statement.take(record)
        statements.append(statement)
    first = statements[0]
    for other in statements[1:]:
        for line, (calls, tenths) in other.lines.items():
            a, b = first.lines.get(line, (0, 0))
            first.lines[line] = a + calls, b + tenths
        for day, (calls, tenths, earliest, latest) in other.days.items():
            a, b, c, d = first.days.get(day, (0, 0, earliest, latest))
            first.days[day] = a + calls, b + tenths, min(c, earliest), max(d, latest)
        for number, (count, least) in other.board.items():
            a, b = first.board.get(number, (0, 0))
            met = [s for s in (b, least) if s]
            first.board[number] = a + count, min(met) if met else 0
        first.taken += other.taken
    return first.file(), first.lines, first.days, first.refusals(), first.taken


def main():
    folder, rng = sys.argv[1], random.Random(92)
    agreement = compare.agreement(rng)
    data = b"202403\n" + b"".join(compare.record(rng) + b"\n" for _ in range(400))
    records = data[7:].split(b"\n")[:-1]
    whole = run(agreement, [records])
    assert b"\n12 " not in whole[3] and b"\n13 " not in whole[3] and len(whole[1]) > 12
    out = "in order, in tables: %d records taken\n" % len(records)
    for name, parts in (("reversed, in held tables", [records[::-1]]),
                        ("split over two units, in tables and in images", [records[0::2], records[1::2]]),
                        ("split over three units, in images, held tables and tables", [records[i::3] for i in range(3)])):
        assert run(agreement, parts) == whole, name
        out += name + ": the same\n"
    for name, text in (("stdin", data), ("stdout", out.encode()), ("data/agreement", agreement)):
        with open("%s/%s" % (folder, name), "wb") as file:
            file.write(text)


main()
