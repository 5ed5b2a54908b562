"""Images of rows as docs/images.md says, written from docs/ alone: opened, asked, put into."""
import settle

MOST = 9_999_999
LIMITS = {"calls": 10 ** 12 - 1, "tenths": 10 ** 13 - 1}


def number(width):
    return lambda text: settle.digits(text, width)


def month(text):
    n = settle.digits(text, 6)
    return n if n is not None and 2000 <= n // 100 <= 2099 and 1 <= n % 100 <= 12 else None


FIELDS = {
    "line": (("month", 6, month), ("point", 10, settle.point), ("descriptor", 5, settle.descriptor),
             ("calls", 12, number(12)), ("tenths", 13, number(13)), ("tariff", 7, number(7))),
    "day": (("day", 8, settle.real_day), ("point", 10, settle.point), ("calls", 12, number(12)),
            ("tenths", 13, number(13)), ("earliest", 6, settle.real_time), ("latest", 6, settle.real_time)),
}
KEYS = {"line": ("month", "point", "descriptor", "tariff"), "day": ("day", "point")}
WIDTH = {kind: sum(width for _, width, _ in fields) for kind, fields in FIELDS.items()}


def read_row(kind, text):
    row, at = {}, 0
    for name, width, read in FIELDS[kind]:
        row[name] = read(text[at:at + width])
        if row[name] is None:
            return None
        at += width
    return row


def write_row(kind, row):
    return b"".join(row[name] if isinstance(row[name], bytes) else b"%0*d" % (width, row[name])
                    for name, width, _ in FIELDS[kind])


def key(kind, row):
    return tuple(row[name] for name in KEYS[kind])


def join(a, b):
    row = dict(a)
    for name in ("calls", "tenths"):
        row[name] = min(a[name] + b[name], LIMITS[name])
    if "earliest" in a:
        row["earliest"], row["latest"] = min(a["earliest"], b["earliest"]), max(a["latest"], b["latest"])
    return row


class Image:
    """An opened image; settle.Refused(26, row) where it is none."""

    def __init__(self, kind, data):
        self.kind, self.width = kind, WIDTH[kind]
        self.data = bytearray(data)
        self.most = min((len(data) - 7) // self.width, MOST) if len(data) >= 7 else 0
        count = settle.digits(data[:7], 7)
        if len(data) < 7 or count is None or count > self.most:
            raise settle.Refused(26, 0)
        self.rows, seen = [], set()
        for i in range(count):
            row = read_row(kind, data[7 + self.width * i:7 + self.width * (i + 1)])
            if row is None or key(kind, row) in seen:
                raise settle.Refused(26, i + 1)
            seen.add(key(kind, row))
            self.rows.append(row)

    def ordered(self):
        return sorted(self.rows, key=lambda row: key(self.kind, row))

    def put(self, row):
        for i, held in enumerate(self.rows):
            if key(self.kind, held) == key(self.kind, row):
                self.rows[i] = join(held, row)
                break
        else:
            if len(self.rows) == self.most:
                return False
            self.rows.append(row)
            i = len(self.rows) - 1
        self.data[:7] = b"%07d" % len(self.rows)
        self.data[7 + self.width * i:7 + self.width * (i + 1)] = write_row(self.kind, self.rows[i])
        return True

    def clear(self):
        self.rows = []
        self.data[:7] = b"0000000"
