"""Reduces a screenshot: converts a true-colour PNG to a PNG with at most 64 colours, which is enough for drawings and letters."""

import collections
import struct
import zlib

MAX_COLOURS = 64


def chunks_of(data):
    """Yields the name and the contents of each chunk of a PNG."""
    offset = 8
    while offset < len(data):
        length, name = struct.unpack(">I4s", data[offset:offset + 8])
        yield name, data[offset + 8:offset + 8 + length]
        offset += 12 + length


def paeth(left, above, corner):
    """Returns the neighbouring byte (of the three) that is closest to left + above - corner, as the Paeth filter of PNG defines it."""
    estimate = left + above - corner
    return min((left, above, corner), key=lambda value: abs(estimate - value))


def unfilter(filter_type, row, above, bytes_per_pixel):
    """Reverses the filter of a row in place, and returns the row. `above` is the row above it."""
    for offset in range(len(row)):
        left = row[offset - bytes_per_pixel] if offset >= bytes_per_pixel else 0
        corner = above[offset - bytes_per_pixel] if offset >= bytes_per_pixel else 0
        row[offset] = (row[offset] + (0, left, above[offset], (left + above[offset]) // 2, paeth(left, above[offset], corner))[filter_type]) & 255
    return row


def rows_of(data):
    """Yields the rows of a PNG with 8 bits per channel, as lists of colours."""
    png_chunks = list(chunks_of(data))
    width, height, bit_depth, colour_type = struct.unpack(">IIBB", png_chunks[0][1][:10])
    if bit_depth != 8 or colour_type not in (2, 6):
        raise ValueError("a PNG of another form")
    bytes_per_pixel = 3 if colour_type == 2 else 4
    filtered = zlib.decompress(b"".join(body for name, body in png_chunks if name == b"IDAT"))
    above = bytearray(width * bytes_per_pixel)
    for number in range(height):
        start = number * (width * bytes_per_pixel + 1)
        above = unfilter(filtered[start], bytearray(filtered[start + 1:start + 1 + width * bytes_per_pixel]), above, bytes_per_pixel)
        yield [tuple(above[offset:offset + 3]) for offset in range(0, len(above), bytes_per_pixel)]


def palette_of(rows):
    """Returns the most frequent colours that differ clearly from each other, at most MAX_COLOURS."""
    counts = collections.Counter(colour for row in rows for colour in row)
    palette = []
    for colour, _ in counts.most_common():
        if all(colour_distance(colour, other) > 150 for other in palette):
            palette.append(colour)
        if len(palette) == MAX_COLOURS:
            break
    return palette


def colour_distance(first, second):
    """Returns the squared distance between two colours."""
    return sum((first_channel - second_channel) ** 2 for first_channel, second_channel in zip(first, second))


def write_picture(data, path):
    """Reduces the colours of a screenshot, and writes it to a PNG file."""
    rows = list(rows_of(data))
    palette = palette_of(rows)
    number_by_colour = {}
    lines = bytearray()
    for row in rows:
        lines.append(0)
        for colour in row:
            if colour not in number_by_colour:
                number_by_colour[colour] = min(range(len(palette)), key=lambda number: colour_distance(colour, palette[number]))
            lines.append(number_by_colour[colour])
    header = struct.pack(">IIBBBBB", len(rows[0]), len(rows), 8, 3, 0, 0, 0)
    colours = bytes(value for colour in palette for value in colour)
    png_chunks = [(b"IHDR", header), (b"PLTE", colours), (b"IDAT", zlib.compress(bytes(lines), 9)), (b"IEND", b"")]
    with open(path, "wb") as file:
        file.write(b"\x89PNG\r\n\x1a\n")
        for name, body in png_chunks:
            file.write(struct.pack(">I", len(body)) + name + body + struct.pack(">I", zlib.crc32(name + body)))
