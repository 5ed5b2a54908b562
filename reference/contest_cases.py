#!/usr/bin/env python3
"""Writes the input of the program `contest_trials` and what it has to print, worked out by contest.py: contest_cases.py
FOLDER writes FOLDER/stdin, FOLDER/stdout, FOLDER/data/agreement and FOLDER/data/records.

The input is DETRAF files, each followed by an empty line: the statement's own file; each figure of each line wrong by one;
months in and out of reach; tariffs of other days, points and descriptors; figures at their limits; months on both sides of
one per cent; other parties and months; files that are refused.
"""
import sys

import agreement_cases
import contest
import declared_cases
import settle

AGREEMENT = agreement_cases.build(
    cena=[b"   N1000000000", b" LOCC006012030", b" LOCN004000030"],
    tari=[b"RJO02        N1202402299999999", b"SPO01      LOCC202401010050000", b"SPO01      LOCN202401010050000",
          b"SPO01      LOCN202403150060000"])
ROOM = 8


def record(sequential, day, seconds, point, kind):
    return b"%010d%21s%d101500%20s%03d%02d%02d%-10s%5s%13s11010%24s" % (
        sequential, b"", day, b"", seconds // 3600, seconds // 60 % 60, seconds % 60, point, kind, b"", b"")


RECORDS = [record(1, 20240310, 127, b"SPO01", b"LOCN"), record(2, 20240320, 4, b"SPO01", b"LOCN"),
           record(3, 20240229, 3599999, b"RJO02", b"N1"), record(4, 20240115, 45, b"SPO01", b"LOCC"),
           record(5, 20240301, 360000, b"SPO01", b"LOCC")]


def ours():
    statement = settle.Statement(settle.Agreement(AGREEMENT), 202403)
    for row in RECORDS:
        assert statement.take(row) is None
    return statement


def own_rows(statement):
    """The statement's lines, as declared_cases has them: month, point, descriptor, calls, tenths, tariff, amounts."""
    return [(month, point, kind, calls, tenths, tariff) + contest.amounts(statement.agreement, tenths, tariff)
            for (month, point, kind, tariff), (calls, tenths) in sorted(statement.lines.items())]


def changed(row, i, value):
    return row[:i] + (value,) + row[i + 1:]


def priced(statement, row):
    return row[:6] + contest.amounts(statement.agreement, row[4], row[5])


def by_line(statement, rows):
    """One line of the file at a time, wrong or right in another way."""
    for n, row in enumerate(rows):
        others = [changed(row, i, row[i] + step) for i in (6, 7, 8, 9) for step in (1, -1) if row[i] + step >= 0]
        others += [priced(statement, changed(row, 4, tenths)) for tenths in (0, 1, row[4] + 1, 10 ** 12)]
        others += [changed(row, 3, 7)]
        others += [priced(statement, changed(row, 5, tariff)) for tariff in (0, 1, 50000, 60000, 9999999)]
        others += [priced(statement, changed(row, 0, month)) for month in (202312, 202401, 202402, 202403, 202404, 200001, 209912)]
        others += [changed(row, 1, point) for point in (b"RJO02     ", b"SPO02     ", b"~~~~~~~~~~")]
        others += [changed(row, 2, kind) for kind in (b" LOCC", b" LOCN", b"   N1", b"    9")]
        for other in others:
            yield sorted(rows[:n] + [other] + rows[n + 1:], key=lambda r: (r[0], r[1], r[2], r[5]))


def at_one_per_cent(rows):
    """The gross of the reference month's first line such that D is on either side of one per cent of E."""
    n = next(i for i, row in enumerate(rows) if row[0] == 202403)
    e = sum(row[9] for row in rows if row[0] == 202403)
    for d in sorted({k for base in (100 * e // 101, 100 * e // 99) for k in range(base - 2, base + 3)} | {0, 1}):
        gross = rows[n][9] + d - e
        if gross >= 0:
            yield rows[:n] + [changed(rows[n], 9, gross)] + rows[n + 1:]


def wide(statement):
    """Tenths and tariff at their limits: the right gross has 16 digits, or just 15."""
    row = (202403, b"RJO02     ", b"   N1", 1, 0, 9999999)
    for tenths in (10 ** 13 - 1, 7772949999999, 6666667000000, 7000000000000):
        full = priced(statement, changed(row, 4, tenths) + (0,) * 4)
        yield [changed(full, 9, full[9] % 10 ** 15)]
        yield [changed(changed(full, 9, full[9] % 10 ** 15), 6, (tenths * 9999999 % 2 ** 64) // 100000)]


def cases():
    statement = ours()
    rows = own_rows(statement)
    build, head = declared_cases.build, declared_cases.HEAD
    yield build(rows)
    yield build([])
    for some in by_line(statement, rows):
        yield build(some)
    for some in at_one_per_cent(rows):
        yield build(some)
    for some in wide(statement):
        yield build(some)
    # more lines than there is room for
    yield build([priced(statement, (202403, b"SPO01     ", b" LOCN", 1, i + 1, i) + (0,) * 4) for i in range(ROOM)])
    yield build([priced(statement, (202403, b"SPO01     ", b" LOCN", 1, i + 1, i) + (0,) * 4) for i in range(ROOM + 1)])
    # other parties, another month
    for other in (b"042187202403", b"041188202403", b"041187202402"):
        yield build(rows).replace(head, other)
    yield build([]).replace(head, b"041187202402").replace(b"202403", b"202402")
    # refused by the reader, before anything else
    yield build(rows)[129:] + build(rows)[:129]
    yield build(rows)[:-1] + b" \n"
    yield build(rows).replace(b"SPO01 ", b"SPO01a", 1).replace(b" LOCN", b" LoCN", 1)
    yield b"x\n"


def answer(data):
    statement = ours()
    try:
        verdicts, months = contest.contest(data, statement, ROOM)
    except settle.Refused as why:
        return "refused " + " ".join("%d" % n for n in why.args)
    text = "".join("%d" % v for v in verdicts) + "-" * (ROOM - len(verdicts))
    return text + "".join(" %d %d %d %d" % month for month in months)


def main():
    folder, seen = sys.argv[1], []
    for data in cases():
        if data not in seen:
            seen.append(data)
    texts = (("stdin", b"".join(data + b"\n" for data in seen)), ("stdout", "".join(answer(data) + "\n" for data in seen).encode()),
             ("data/agreement", AGREEMENT), ("data/records", b"202403\n" + b"".join(row + b"\n" for row in RECORDS)))
    for name, text in texts:
        with open("%s/%s" % (folder, name), "wb") as file:
            file.write(text)
    print("%d cases" % len(seen))


main()
