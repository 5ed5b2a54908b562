"""Images to open and put into, and what is answered, worked out by images.py: sound images, empty ones, full ones, and
each damaged: the count, lengths around the edges, every byte of every row, keys that come again, figures at their
limits.
"""
import images
import settle

ROWS = {
    "line": [b"202403SPO01      LOCN" b"000000000001" b"0000000000022" b"0050000",
             b"202402~             A" b"000000000000" b"0000000000000" b"0000000",
             b"202403RJO02        N1" b"999999999999" b"9999999999999" b"9999999"],
    "day": [b"20240310SPO01     " b"000000000001" b"0000000000022" b"101500" b"101500",
            b"20240229~         " b"000000000000" b"0000000000000" b"235959" b"000000",
            b"20991231RJO02     " b"999999999999" b"9999999999999" b"000000" b"235959"],
}
# what is put into each image that opens, one after the other
PUTS = {
    "line": [b"202403SPO01      LOCN" b"000000000001" b"0000000000005" b"0050000",
             b"202403SPO01      LOCN" b"000000000001" b"0000000000005" b"0060000",
             b"202403RJO02        N1" b"000000000001" b"0000000000001" b"9999999"],
    "day": [b"20240310SPO01     " b"000000000001" b"0000000000005" b"090000" b"090000",
            b"20240311SPO01     " b"000000000001" b"0000000000005" b"090000" b"090000",
            b"20991231RJO02     " b"000000000001" b"0000000000001" b"120000" b"120000"],
}


def replaced(data, at, new):
    return data[:at] + new + data[at + len(new):]


def cases(kind):
    rows, width = ROWS[kind], images.WIDTH[kind]
    sound = b"0000003" + b"".join(rows) + b"rubbish" * 9
    yield sound
    # each byte of each row
    for at in range(7, 7 + 3 * width):
        for new in (b" ", b"9", b"A", b"\x80"):
            yield replaced(sound, at, new)
    # the count
    for count in (b"0000004", b"0000005", b"9999999", b"000003", b" 000003", b"-000003", b"0000 03", b"000000x", b"\x80000003"):
        yield replaced(sound, 0, count)
    yield b"0000003" + b"".join(rows)
    yield b"0000000"
    yield b"0000000" + b"-" * (width - 1)
    yield b"0000000" + b"-" * width
    yield b"0000001" + rows[2]
    yield b"0000002" + rows[2] + rows[0] + b"." * (2 * width + 5)
    # lengths around the edges
    for length in (0, 1, 6, 7, 8, 7 + width - 1, 7 + width, 7 + 3 * width - 1):
        yield sound[:length]
        yield b"0000001" + sound[7:length] if length >= 7 else sound[:length]
    # keys that come again, apart and side by side, and a malformed row after them
    yield b"0000003" + rows[0] + rows[1] + rows[0]
    yield b"0000003" + rows[0] + rows[0] + rows[1]
    yield b"0000003" + rows[0] + rows[0] + b"x" * width
    yield b"0000003" + rows[1] + b"x" * width + rows[1]
    yield b"0000002" + rows[1] + rows[2] + rows[1]


def show(row):
    return "/".join(value.decode().replace(" ", "_") if isinstance(value, bytes) else "%d" % value for value in row.values())


def answer(kind, data):
    try:
        image = images.Image(kind, data)
    except settle.Refused as why:
        return ["refused %d, row %d" % why.args]
    out = ["%d of %d%s" % (len(image.rows), image.most, "".join(" " + show(row) for row in image.ordered()))]
    for text in PUTS[kind]:
        out.append("put" if image.put(images.read_row(kind, text)) else "full")
    out.append(bytes(image.data).hex())
    image.clear()
    out.append(bytes(image.data[:7]).hex())
    return out
