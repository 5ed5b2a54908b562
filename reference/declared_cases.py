"""DETRAF files to read, and what is answered, worked out by declared.py: sound files, and each damaged: every byte of a
detail line and of the total line, fields as a whole, lengths, order, totals. Sums that pass 64 bits need thousands of
lines, which the program makes itself.
"""
import declared
import settle

HEAD = b"041187202403"
SMALL = [(202402, b"RJO02     ", b"   N1", 1, 5, 60000, 3, 0, 0, 3), (202403, b"SPO01     ", b" LOCN", 1, 22, 50000, 11, 0, 2, 13),
         (202403, b"SPO01     ", b" LOCN", 1, 5, 60000, 3, 0, 0, 3)]


def detail(row, head=HEAD):
    month, point, kind, calls, tenths, tariff, *amounts = row
    return head + b"%06d%s00%s %012d%013d%07d" % (month, point, kind, calls, tenths, tariff) + b"%015d%015d%015d%015d\n" % tuple(amounts)


def total(rows, head=HEAD, month=None):
    sums = [sum(row[i] for row in rows) for i in (3, 4, 6, 7, 8, 9)]
    return head + (month or head[6:]) + b"%10s01%5s %012d%013d0000000%015d%015d%015d%015d\n" % (b"", b"", *sums)


def build(rows, **other):
    return b"".join(detail(row) for row in rows) + total(rows, **other)


def replaced(data, at, new):
    return data[:at] + new + data[at + len(new):]


def damaged(sound):
    # each byte of the first, a middle and the total line
    for line in (0, 1, 3):
        for at in range(129 * line, 129 * line + 129):
            for new in (b"0", b"1", b" ", b"A", b"\x80"):
                yield replaced(sound, at, new)
    # fields as a whole, on each line
    for line in range(4):
        for at, new in ((0, b"000"), (0, b"999"), (3, b"000"), (3, b"188"), (6, b"200001"), (6, b"202413"), (6, b"199912"), (12, b"202403"),
                        (12, b"202404"), (12, b"210001"), (12, b"202400"), (18, b"          "), (18, b" PO01     "), (18, b"S O01     "),
                        (18, b"ABCDEFGHIJ"), (28, b"00"), (28, b"01"), (28, b"02"), (28, b"  "), (30, b"     "), (30, b"LOCN "), (30, b"LOCNX"),
                        (30, b" LoCN"), (30, b" L CN"), (35, b"1"), (61, b"0000000"), (61, b"9999999"), (128, b"\r")):
            yield replaced(sound, 129 * line + at, new)


def cases():
    sound = build(SMALL)
    yield sound
    yield from damaged(sound)
    yield build([])
    yield build(SMALL[:1])
    yield build([(209912,) + SMALL[0][1:]])
    yield build([(200001,) + SMALL[0][1:3] + (0,) * 7])
    yield build([SMALL[1][:3] + (999_999_999_999, 9_999_999_999_999, 9_999_999) + (999_999_999_999_999,) * 4])
    # lengths
    for length in (0, 1, 128, 129, 130, 257, 258, 387, len(sound) - 1):
        yield sound[:length]
    yield sound + b"\n"
    # order
    a, b, c = SMALL
    for rows in ([b, a, c], [a, c, b], [a, a, b], [a, b, b], [c, b, a], [b, a], [a, b, c, c]):
        yield build(rows)
    yield build([b, (202403, b"SPO01     ", b"   N1") + b[3:]])
    yield build([b, (202403, b"RJO02     ", b" LOCN") + b[3:]])
    yield build([b, (202402, b"SPO01     ", b" LOCN") + b[3:]])
    # totals: absent, early, twice, unequal
    yield b"".join(detail(row) for row in SMALL)
    yield detail(a)
    yield total([a]) + detail(a)
    yield detail(a) + total([a]) + detail(b)
    yield build(SMALL) + total(SMALL)
    yield total([]) + total([])
    yield build([a, b]) + detail(c) + total(SMALL)
    for i in (3, 4, 6, 7, 8, 9):
        wrong = list(c)
        wrong[i] += 1
        yield b"".join(detail(row) for row in SMALL) + total([a, b, wrong])
    # 20 on an early line, 19 on a later
    yield replaced(build([b, a, c]), 129 * 3 + 50, b"x")
    yield replaced(total([a]) + detail(a), 129 + 128, b" ")


def wide():
    """Lines whose sums of amounts pass 64 bits: 18,447 lines of 15 nines. The total has the sums' lowest digits, or the
    sums modulo 2^64, which have 15 digits."""
    rows = [(202403, b"P%09d" % i, b" LOCN", 1, 1, 0) + (10 ** 15 - 1,) * 4 for i in range(18447)]
    details, amount = b"".join(detail(row) for row in rows), 18447 * (10 ** 15 - 1)
    for cut in (amount % 10 ** 15, amount % 2 ** 64):
        yield details + HEAD + HEAD[6:] + b"%10s01%5s %012d%013d0000000" % (b"", b"", 18447, 18447) + b"%015d" % cut * 4 + b"\n"


def show(line):
    figures = " ".join("%d" % line[name] for name in ("calls", "tenths", "tariff", "net", "pis", "icms", "gross"))
    if line["total"]:
        return "total %s" % figures
    return "%d %s %s %s" % (line["month"], line["point"].decode().replace(" ", "_"), line["descriptor"].decode().replace(" ", "_"), figures)


def answer(data):
    try:
        lines = declared.read(data)
    except settle.Refused as why:
        return ["refused " + " ".join("%d" % n for n in why.args)]
    first = lines[0]
    return ["%d %d %d, %d details" % (first["creditor"], first["debtor"], first["reference"], len(lines) - 1)] + [show(line) for line in lines]
