#!/usr/bin/env python3
"""Runs crates/settle/out/settle (`rt run` in crates/settle) and reference/settle.py on damaged months and agreements, and compares what they answer.

compare.py [COUNT] [SEED]. Ends with status 1 at the first difference, whose input it keeps.
"""
import os
import random
import subprocess
import sys
import tempfile

sys.path.insert(0, os.path.dirname(os.path.abspath(__file__)))
import settle  # noqa: E402

ROOT = os.path.dirname(os.path.dirname(os.path.abspath(__file__)))
PROGRAM = os.path.join(ROOT, "crates", "settle", "out", "settle")
POINTS = [b"SPO01", b"RJO02", b"A", b"TENLETTERS", b"~!~"]
KINDS = [b"LOCN", b"LOCC", b"N1", b"7"]
BYTES = b"0123459 AZaz~\x00\x80\xff\n/:@[!\x7f"


def record(rng):
    seconds = rng.choice([0, 3, 4, 5, 17, 18, 29, 30, 31, 127, 3600, 3599999, rng.randrange(4000)])
    day = rng.choice([b"20240310", b"20240320", b"20240229", b"20240131", b"20231231", b"20240401", b"20240314",
                      b"20240315", b"20240315"])
    kind = rng.choice(KINDS + [b"LOCN"] * 4)
    row = b"%010d%21s%s%02d%02d%02d%20s%03d%02d%02d%-10s%5s%13s%s%s%s%24s" % (
        rng.randrange(1, 10 ** rng.randrange(1, 11)), b"", day, rng.randrange(24), rng.randrange(60),
        rng.randrange(60), b"", seconds // 3600, seconds // 60 % 60, seconds % 60, rng.choice(POINTS), kind, b"",
        rng.choice([b"11"] * 9 + [b"03"]), rng.choice([b"01"] * 9 + [b"02"]), rng.choice([b"0", b"4"] * 4 + [b"1", b"5", b"7"]),
        b"")
    return damaged(rng, row) if rng.random() < 0.3 else row


def damaged(rng, data):
    data = bytearray(data)
    for _ in range(rng.choice([1, 1, 1, 2, 3])):
        at = rng.randrange(len(data) + 1)
        what = rng.randrange(8)
        if what == 0:
            del data[at:at + rng.choice([1, 1, 2, 16, 40])]
        elif what == 1:
            data[at:at] = bytes(rng.choice(BYTES) for _ in range(rng.choice([1, 1, 2, 130])))
        elif at < len(data):
            data[at] = rng.choice(BYTES)
    return bytes(data)


def agreement(rng):
    kinds = sorted(b"%5s" % k for k in rng.sample(KINDS, rng.randrange(len(KINDS) + 1)))
    cena = [k + b"%03d%03d%03d" % (rng.choice([0, 4, 6, 999]), rng.choice([0, 12, 999]), rng.choice([0, 30, 999])) for k in kinds]
    days = [b"20000101", b"20240101", b"20240229", b"20240315", b"20991231"]
    keys = {b"%-10s%5s%s" % (p, k, rng.choice(days)) for p in POINTS for k in KINDS for _ in range(rng.randrange(3))}
    tari = [k + b"%07d" % rng.choice([0, 1, 50000, 60000, 9999999]) for k in sorted(keys)]
    part = b"%03d%03d%d%05d%05d" % (rng.randrange(1, 1000), rng.randrange(1, 1000), rng.randrange(3), *rng.choice([(3650, 25000), (0, 0), (50000, 0), (25000, 25000)]))
    head = b"PART%06d%06dCENA%06d%06dTARI%06d%06d" % (48, 1, 65, len(cena), 65 + 14 * len(cena), len(tari))
    return head + part + b"".join(cena) + b"".join(tari)


def month(rng, count):
    head = rng.choice([b"202403", b"202403", b"202403", b"202402", b"200001", b"209912", b"202413", b"20240"])
    rows = b"".join(record(rng) + b"\n" for _ in range(count))
    if rng.random() < 0.3:
        rows = rows[:-1]
    return (damaged(rng, head) if rng.random() < 0.05 else head) + b"\n" + rows


def run(folder, text, data):
    with open(folder + "/agreement", "wb") as file:
        file.write(text)
    done = subprocess.run([PROGRAM], cwd=folder, input=data, capture_output=True)
    return done


def main():
    count, seed = int((sys.argv + ["400"])[1]), int((sys.argv + ["", "1"])[2])
    rng, refused = random.Random(seed), 0
    with tempfile.TemporaryDirectory() as folder:
        for n in range(count):
            text, data = agreement(rng), month(rng, rng.choice([0, 1, 5, 40, 700]))
            if rng.random() < 0.4:
                text = damaged(rng, text)
            done = run(folder, text, data)
            printed, why = settle.settle(text, data)
            alike = (done.returncode, done.stdout) == (0, printed) if why is None else (
                done.returncode == 1 and done.stdout == b"" and why.encode() in done.stderr)
            refused += why is not None
            if not alike:
                keep = tempfile.mkdtemp(prefix="differs.")
                open(keep + "/agreement", "wb").write(text)
                open(keep + "/records", "wb").write(data)
                sys.exit("they differ: %s\n%s\n%s" % (keep, done.stderr, why))
    print("%d months alike, %d of them refused" % (count, refused))


if __name__ == "__main__":
    main()
