"""Draws the records of a variable as one PNG, side by side: picture.py FILE VARIABLE PNG. Blue is below 0, red above."""
import re
import struct
import subprocess
import sys
import zlib


def records(path, name):
    """The records of a variable by (Time, south_north, west_east), as rows from south to north, from what ncdump prints."""
    text = subprocess.run(["ncdump", "-v", name, path], stdout=subprocess.PIPE, check=True, text=True).stdout
    count = int(re.search(r"\((\d+) currently\)", text).group(1))
    width, height = (int(re.search(rf"\t{axis} = (\d+) ;", text).group(1)) for axis in ("west_east", "south_north"))
    data = re.search(rf"\n {name} =(.*?);", text[text.index("\ndata:") :], re.S).group(1)
    numbers = [int(word) for word in data.replace(",", " ").split()]
    rows = [numbers[at : at + width] for at in range(0, len(numbers), width)]
    return [rows[at : at + height] for at in range(0, count * height, height)]


def colour(number, most):
    """White at 0, and stronger to either side."""
    share = max(-1.0, min(1.0, number / most))
    faded = round(255 * (1 - abs(share)))
    return bytes((255, faded, faded)) if share > 0 else bytes((faded, faded, 255))


def chunk(kind, data):
    return struct.pack(">I", len(data)) + kind + data + struct.pack(">I", zlib.crc32(kind + data))


def png(rows):
    """The bytes of a picture of rows of colours, the first at the top."""
    width, height = len(rows[0]), len(rows)
    lines = b"".join(b"\0" + b"".join(row) for row in rows)
    head = struct.pack(">IIBBBBB", width, height, 8, 2, 0, 0, 0)
    return b"\x89PNG\r\n\x1a\n" + chunk(b"IHDR", head) + chunk(b"IDAT", zlib.compress(lines, 9)) + chunk(b"IEND", b"")


def main():
    path, name, out = sys.argv[1:4]
    frames = records(path, name)
    gap = [bytes((255, 255, 255))] * 8
    rows = []
    for place in reversed(range(len(frames[0]))):
        row = []
        for frame in frames:
            row += gap + [colour(number, 300_000) for number in frame[place]]
        rows.append(row[len(gap) :])
    with open(out, "wb") as file:
        file.write(png(rows))


main()
