#!/usr/bin/env python3
"""Writes the input of the program `format_trials` and what it has to print, worked out by the programs of this folder:
format_cases.py FOLDER writes FOLDER/stdin and FOLDER/stdout.

Each line of the input is a format (agreement, line, day, detraf), a blank, and a case: `= HEX` is a case of these bytes,
which the lines after it refer to; `AT HEX` is the last such case with these bytes in place of others, from place AT on,
counted from 0.
"""
import sys

import agreement_cases
import declared_cases
import image_cases

FORMATS = (
    ("agreement", agreement_cases.cases, agreement_cases.answer),
    ("line", lambda: image_cases.cases("line"), lambda data: image_cases.answer("line", data)),
    ("day", lambda: image_cases.cases("day"), lambda data: image_cases.answer("day", data)),
    ("detraf", declared_cases.cases, declared_cases.answer),
)


class Named:
    """A case by what differs from the last whole one."""

    def __init__(self):
        self.whole = b""

    def name(self, data):
        if len(data) != len(self.whole) or data == self.whole:
            self.whole = data
            return "= " + data.hex()
        places = [i for i, (a, b) in enumerate(zip(self.whole, data)) if a != b]
        return "%d %s" % (places[0], data[places[0]:places[-1] + 1].hex())


def main():
    folder, named, count = sys.argv[1], Named(), 0
    with open(folder + "/stdin", "w") as given, open(folder + "/stdout", "w") as expected:
        for name, cases, answer in FORMATS:
            seen = set()
            for data in cases():
                if data not in seen:
                    seen.add(data)
                    given.write("%s %s\n" % (name, named.name(data)))
                    expected.write("\n".join(answer(data)) + "\n")
            count += len(seen)
        for data in declared_cases.wide():
            expected.write("\n".join(declared_cases.answer(data)) + "\n")
    print("%d cases" % count)


main()
