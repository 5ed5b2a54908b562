#!/usr/bin/env python3
"""What the program `trials` has to print, worked out by reference/settle.py: trials.py FOLDER reads FOLDER/stdin and
FOLDER/data/agreement and writes FOLDER/stdout.
"""
import sys

import settle

DAMAGES = [(0, "p"), (9, "9"), (15, "2"), (31, "1"), (36, "x"), (47, "2"), (48, "A"), (54, "3"), (60, "9"), (66, "l"),
           (72, " "), (80, "A"), (115, "4"), (143, "4"), (150, "A")]
MONTHS = [b"202403\n", b"202413\n", b"199912\n", b"210001\n", b"202403", b"20240\n", b" 02403\n", b""]


def show(refusal):
    number, place, sequential = refusal
    text = "refused %d" % number
    if number == 2:
        text += ", length %d" % place
    elif number == 3:
        text += ", field %d, column %d" % place
    elif place:
        text += ", field %d" % place
    return text + ", sequential %d" % sequential


def take(statement, record):
    before = dict(statement.lines)
    refusal = statement.take(record)
    if refusal:
        return show(refusal)
    (line, (calls, tenths)), = [(k, v) for k, v in statement.lines.items() if before.get(k) != v]
    tenths -= before.get(line, (0, 0))[1]
    return "booked in %d at %d, day %s, %d tenths" % (line[0], line[3], record[31:39].decode(), tenths)


def opened(data):
    try:
        settle.Agreement(data)
    except settle.Refused as why:
        return "agreement refused %d, part %d, row %d" % why.args
    return "agreement opened"


def main():
    folder = sys.argv[1]
    agreement = open(folder + "/data/agreement", "rb").read()
    statement = settle.Statement(settle.Agreement(agreement), 202403, 2, 2)
    out = []
    for record in open(folder + "/stdin", "rb").read().split(b"\n")[:-1]:
        out.append(take(statement, record))
    file = statement.file()
    out += ["refused 17, length needed %d" % len(file), "%d bytes written" % len(file)]
    out += [file.decode() + "-" * (390 - len(file)), statement.refusals().decode().rstrip("\n")]
    out += ["2000000 records taken", "refused 1, sequential 0"]
    for at, byte in DAMAGES:
        out.append(opened(agreement[:at] + byte.encode() + agreement[at + 1:]))
    out.append(opened(b""))
    for line in MONTHS:
        printed, why = settle.settle(agreement, line)
        # a month with more after it, or without its line feed, is no month's line
        out.append("month refused" if why else "month %s" % line[:6].decode())
    with open(folder + "/stdout", "w") as expected:
        expected.write("\n".join(out) + "\n")


main()
