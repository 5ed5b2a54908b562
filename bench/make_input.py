#!/usr/bin/env python3
"""Writes a month of sound records and its agreement: make_input.py FOLDER [RECORDS].

Ten points, eight descriptors, 31 days, two tariffs for each point and descriptor: 160 lines and 310 days.
"""
import random
import sys

POINTS = ["PT%03d" % (7 * i + 1) for i in range(10)]
DESCRIPTORS = ["LOCC", "LOCF", "LOCN", "NACF", "NACN", "R1", "R22", "VC1"]


def agreement():
    cena = "".join("%5s%03d%03d%03d" % (d, 4, 0, 30) for d in DESCRIPTORS)
    cena = "".join(sorted(cena[i:i + 14] for i in range(0, len(cena), 14)))
    rows = []
    for p in POINTS:
        for d in DESCRIPTORS:
            for day, tariff in (("20240101", 50_000), ("20240315", 60_000)):
                rows.append("%-10s%5s%s%07d" % (p, d, day, tariff))
    rows.sort()
    part = "04118720365025000"
    tari_at = 65 + len(cena)
    head = "PART%06d%06d" % (48, 1) + "CENA%06d%06d" % (65, len(cena) // 14) + "TARI%06d%06d" % (tari_at, len(rows))
    return head + part + cena + "".join(rows)


def main():
    folder, count = sys.argv[1], int(sys.argv[2]) if len(sys.argv) > 2 else 2_000_000
    with open(folder + "/agreement", "w") as out:
        out.write(agreement())
    rng = random.Random(1)
    with open(folder + "/records", "w") as out:
        out.write("202403\n")
        for n in range(1, count + 1):
            seconds = rng.randrange(4, 3600)
            start = rng.randrange(86400)
            out.write("%010d%21s202403%02d%02d%02d%02d%20s%03d%02d%02d%-10s%5s%13s1101%s%24s\n" % (
                n, "1130001000", rng.randrange(1, 32), start // 3600, start // 60 % 60, start % 60, "1140002000",
                seconds // 3600, seconds // 60 % 60, seconds % 60, rng.choice(POINTS), rng.choice(DESCRIPTORS), "", "0", ""))


main()
