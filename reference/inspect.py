#!/usr/bin/env python3
"""Prints a DETRAF file as the program `inspect` does, worked out by declared.py: inspect.py < FILE."""
import sys

import declared
import settle

HEAD = ("  line  month   point       descr         calls        tenths    tariff                net         PIS/COFINS"
        "               ICMS              gross")


def reais(cents):
    return "  %14d,%02d" % divmod(cents, 100)


def show(data):
    lines = declared.read(data)
    first = lines[0]
    out = ["creditor %03d, debtor %03d, reference month %d, %d detail lines" % (
        first["creditor"], first["debtor"], first["reference"], len(lines) - 1), HEAD]
    for number, line in enumerate(lines, 1):
        amounts = "".join(reais(line[name]) for name in ("net", "pis", "icms", "gross"))
        if line["total"]:
            out.append(" total                             %12d %13d          %s" % (line["calls"], line["tenths"], amounts))
        else:
            out.append("%6d  %d  %s  %s  %12d %13d  %d,%06d%s" % (
                number, line["month"], line["point"].decode(), line["descriptor"].decode(), line["calls"], line["tenths"],
                *divmod(line["tariff"], 1_000_000), amounts))
    return "\n".join(out) + "\n"


def main():
    try:
        sys.stdout.write(show(sys.stdin.buffer.read()))
    except settle.Refused as why:
        sys.exit("refused: %s" % (why.args,))


if __name__ == "__main__":
    main()
