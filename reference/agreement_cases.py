#!/usr/bin/env python3
"""Agreements to open, and what opening and asking them answers, worked out by settle.py: one sound agreement and
others, and each of them damaged: every contents entry, lengths around the edges, every field of every kind of row, rows
equal and falling.

Called by itself it writes the input of the program `agreement_trials` and what it has to print: agreement_cases.py
FOLDER writes FOLDER/stdin and FOLDER/stdout.
"""
import sys

import settle

DESCRIPTORS = [b" LOCC", b" LOCN", b"   N1"]
POINTS = [b"SPO01     ", b"RJO02     "]
DAYS = [20231231, 20240101, 20240314, 20240315]
PART = b"04118720365025000"
CENA = [b" LOCC006012030", b" LOCN004000030"]
TARI = [b"SPO01      LOCC202401010050000", b"SPO01      LOCN202401010050000", b"SPO01      LOCN202403150060000"]


def build(part=PART, cena=CENA, tari=TARI, entries=None):
    at = 65 + 14 * len(cena)
    entries = entries or b"PART%06d%06dCENA%06d%06dTARI%06d%06d" % (48, 1, 65, len(cena), at, len(tari))
    return entries + part + b"".join(cena) + b"".join(tari)


def replaced(data, at, new):
    return data[:at] + new + data[at + len(new):]


def damaged(sound):
    # each byte of the contents
    for at in range(48):
        for new in (b"0", b"9", b" ", b"x"):
            yield replaced(sound, at, new)
    for entry in (b"CENA000065000001", b"CENA000065000003", b"CENA000065000201", b"CENA000066000002"):
        yield replaced(sound, 16, entry)
    for entry in (b"TARI000093000002", b"TARI000093000004", b"TARI000093001901", b"TARI000092000003"):
        yield replaced(sound, 32, entry)
    # each byte of each row
    for at in range(48, len(sound)):
        for new in (b" ", b"9", b"A", b"a", b"\x80"):
            yield replaced(sound, at, new)


def cases(damaged_first=True):
    sound = build()
    yield sound
    if damaged_first:
        yield from damaged(sound)
    yield build(cena=[], tari=[])
    yield build(cena=[])
    yield build(tari=[])
    yield build(tari=[b"RJO02        N1202403140000000"])
    yield build(cena=[b"   N1999999999"] + CENA)
    yield build(tari=[b"RJO02        N1200001010000001", b"RJO02        N1209912319999999"] + TARI)
    full = [b" %04d000000000" % i for i in range(200)]
    yield build(cena=full)
    yield build(cena=full + [b" 0200000000000"])
    many = [b"P%09d LOCN202401010000001" % i for i in range(1900)]
    yield build(tari=many)
    yield build(tari=many + [b"Q          LOCN202401010000001"])
    # lengths around the edges
    for length in (0, 1, 47, 48, 49, 64, 65, 66, 92, 93, 94, len(sound) - 1):
        yield sound[:length]
    yield sound + b"\n"
    yield sound + b" " * 30
    if not damaged_first:
        yield from damaged(sound)
    for part in (b"00018720365025000", b"99999900000000000", b"00100125000000000", b"04118715000000000", b"04118705000000001",
                 b"04118725000000000", b"04100020365025000", b"04118730365025000", b"04118720000050000", b"04118722500025000"):
        yield build(part=part)
    for row in (b"LOCN 004000030", b"LOCNX004000030", b"     004000030", b"    A004000030", b" L CN004000030", b" LOCN0040000 0"):
        yield build(cena=[CENA[0], row])
    for day in (b"20240229", b"20230229", b"20240431", b"20241301", b"20240100", b"19991231", b"21000101", b"20000101", b"20991231"):
        yield build(tari=[b"SPO01      LOCN%s0000001" % day])
    # rows equal and falling
    yield build(cena=[CENA[1], CENA[0]])
    yield build(cena=[CENA[0], CENA[0]])
    yield build(tari=[TARI[1], TARI[0], TARI[2]])
    yield build(tari=[TARI[0], TARI[0], TARI[2]])
    yield build(tari=[TARI[0], TARI[2], TARI[1]])
    yield build(cena=[CENA[1], CENA[0]], tari=[TARI[0], TARI[0]])
    yield build(cena=[CENA[1], CENA[0]], tari=[TARI[0], TARI[0][:-1] + b"x"])


def answer(data):
    try:
        opened = settle.Agreement(data)
    except settle.Refused as why:
        opened, text = None, "refused %d %d %d" % why.args
    else:
        text = "opened %d %d %d %d %d" % opened.terms
    for kind in DESCRIPTORS:
        scenario = opened and opened.scenarios.get(kind)
        text += " %d/%d/%d" % tuple(scenario) if scenario else " -"
        for place in POINTS:
            for day in DAYS:
                tariff = opened and opened.tariff({"point": place, "descriptor": kind, "day": day})
                text += " -" if tariff is None else " %d" % tariff
    return [text]


def main():
    folder, seen = sys.argv[1], set()
    with open(folder + "/stdin", "w") as given, open(folder + "/stdout", "w") as expected:
        for data in cases(damaged_first=False):
            if data not in seen:
                seen.add(data)
                given.write(data.hex() + "\n")
                expected.write("\n".join(answer(data)) + "\n")
    print("%d cases" % len(seen))


if __name__ == "__main__":
    main()
