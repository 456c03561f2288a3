"""Pictures: read from P6 images and PNG files, written as PNG files, and compared; nothing but Python's own library.

A Picture is opaque, with 8 bits a channel. Rows and columns count from 0, from the upper left corner on, as y and x
of a document do. PNG files are written as RGB. They are read with every filter, as grey, RGB or with a palette, and
with an opacity where it is full everywhere; not those with 16 bits a channel, nor interlaced ones.
"""
import re
import struct
import zlib
from typing import NamedTuple

SIGNATURE = b"\x89PNG\r\n\x1a\n"
CHANNELS = {0: 1, 2: 3, 3: 1, 4: 2, 6: 4}  # of a pixel in a PNG file, by its colour type
GREY, RGB, PALETTE, GREY_OPACITY, RGB_OPACITY = CHANNELS
FADED = bytes(160 + value * 3 // 8 for value in range(256))
MARK, MARGIN, GAP = b"\xff\x00\x00", b"\x80\x80\x80", 8


class PictureError(ValueError):
    """What was read is no picture, or one of a form that is not read here."""


class Picture(NamedTuple):
    """`width` and `height` in pixels; `pixels` are three bytes each, red, green and blue, row by row from the top."""

    width: int
    height: int
    pixels: bytes

    def row(self, number):
        """The bytes of a row; none where there is no such row."""
        return self.pixels[3 * self.width * number : 3 * self.width * (number + 1)]

    def color(self, row, column):
        """The colour of a pixel as #rrggbb; `nothing` where there is no such pixel."""
        color = self.row(row)[3 * column : 3 * column + 3]
        return f"#{color.hex()}" if color else "nothing"


def p6_images(stream):
    """Gives the pictures of a stream of bytes that is P6 images one after another, each as soon as it is there."""
    number = 0
    while magic := stream.readline(80):
        number += 1
        head = magic + stream.readline(80) + stream.readline(80)
        match = re.fullmatch(rb"P6\n(\d+) (\d+)\n255\n", head)
        if not match:
            raise PictureError(f"image {number} begins with {head[:40]!r}, as no P6 image does")
        width, height = map(int, match.groups())
        pixels = stream.read(3 * width * height)
        if len(pixels) < 3 * width * height:
            raise PictureError(f"image {number} ends after {len(pixels)} of {3 * width * height} bytes of pixels")
        yield Picture(width, height, pixels)


def png_of_picture(picture):
    """The bytes of a PNG file. Each row is told by what it adds to the one above, which flat colours make small."""
    rows, above = [], bytes(3 * picture.width)
    for number in range(picture.height):
        row = picture.row(number)
        added = bytes(len(row)) if row == above else bytes((new - old) & 255 for new, old in zip(row, above))
        rows.append(b"\2" + added)
        above = row
    head = struct.pack(">IIBBBBB", picture.width, picture.height, 8, RGB, 0, 0, 0)
    data = zlib.compress(b"".join(rows), 9)
    return SIGNATURE + _chunk(b"IHDR", head) + _chunk(b"IDAT", data) + _chunk(b"IEND", b"")


def _chunk(kind, body):
    return struct.pack(">I", len(body)) + kind + body + struct.pack(">I", zlib.crc32(kind + body))


def picture_of_png(data):
    """The picture of a PNG file's bytes."""
    parts = _parts(data)
    if len(parts.get(b"IHDR", b"")) != 13:
        raise PictureError("the PNG file has no head")
    width, height, depth, kind, _, _, interlaced = struct.unpack(">IIBBBBB", parts[b"IHDR"])
    if kind not in CHANNELS or depth not in ((1, 2, 4, 8) if kind in (GREY, PALETTE) else (8,)) or interlaced:
        form = f"colour type {kind}, {depth} bits{', interlaced' if interlaced else ''}"
        raise PictureError(f"a PNG of this form is not read: {form}")
    if not width or not height:
        raise PictureError("the PNG file has no pixels")
    try:
        packed = zlib.decompress(parts.get(b"IDAT", b""))
    except zlib.error as error:
        raise PictureError(f"the PNG file's pixels are damaged: {error}") from error
    length = (width * depth * CHANNELS[kind] + 7) // 8
    if len(packed) != height * (length + 1):
        raise PictureError(f"the PNG file has {len(packed)} bytes of rows, and not {height * (length + 1)}")
    channels = _channels(packed, length, width, depth, kind)
    return Picture(width, height, _opaque_pixels(channels, width, kind, depth, parts))


def _parts(data):
    """The bodies of a PNG file's chunks by their kinds; those of one kind are joined."""
    if not data.startswith(SIGNATURE):
        raise PictureError("this is no PNG file")
    parts, place = {}, len(SIGNATURE)
    while b"IEND" not in parts:
        length, kind = struct.unpack(">I4s", data[place : place + 8].ljust(8, b"\0"))
        body, check = data[place + 8 : place + 8 + length], data[place + 8 + length : place + 12 + length]
        if check != struct.pack(">I", zlib.crc32(kind + body)):
            raise PictureError(f"the PNG file is damaged or cut off at byte {place}")
        if kind[:1].isupper() and kind not in (b"IHDR", b"PLTE", b"IDAT", b"IEND"):
            raise PictureError(f"a PNG with {kind!r} is not read")
        parts[kind] = parts.get(kind, b"") + body
        place += 12 + length
    return parts


def _channels(packed, length, width, depth, kind):
    """The channels of all pixels, a byte each, of the rows of a PNG, each with its filter and `length` bytes more."""
    step = max(1, depth * CHANNELS[kind] // 8)
    rows, above = [], bytes(length)
    for place in range(0, len(packed), length + 1):
        above = _unfiltered(packed[place], packed[place + 1 : place + 1 + length], above, step)
        rows.append(above)
    if depth == 8:
        return b"".join(rows)
    shifts, most = range(8 - depth, -1, -depth), (1 << depth) - 1
    return b"".join(bytes(byte >> shift & most for byte in row for shift in shifts)[:width] for row in rows)


def _unfiltered(kind, row, above, step):
    """A row without its filter. `above` is the row over it; the pixel on the left begins `step` bytes before."""
    if kind == 0:
        return row
    if kind == 2:
        return above if row.count(0) == len(row) else bytes((new + old) & 255 for new, old in zip(row, above))
    if kind not in (1, 3, 4):
        raise PictureError(f"there is no filter {kind} in a PNG file")
    made = bytearray(step) + row
    above = bytes(step) + above
    for place in range(step, len(made)):
        left, over, corner = made[place - step], above[place], above[place - step]
        guess = left if kind == 1 else (left + over) // 2 if kind == 3 else _nearest(left, over, corner)
        made[place] = (made[place] + guess) & 255
    return bytes(made[step:])


def _nearest(left, over, corner):
    """The one of the three that is nearest to left + over - corner; the earlier one of two that are (Paeth's)."""
    sum_ = left + over - corner
    return min((left, over, corner), key=lambda value: abs(sum_ - value))


def _opaque_pixels(channels, width, kind, depth, parts):
    """The pixels as red, green and blue. A PNG that lets anything through somewhere is refused."""
    opacities = b""
    if kind == PALETTE:
        palette = parts.get(b"PLTE", b"")
        if not channels or 3 * max(channels) >= len(palette):
            raise PictureError("the PNG file's palette lacks a colour")
        planes = [channels.translate(palette[plane:768:3].ljust(256, b"\0")) for plane in range(3)]
        opacities = channels.translate(parts.get(b"tRNS", b"").ljust(256, b"\xff"))
    elif b"tRNS" in parts:
        raise PictureError("a PNG with a transparent colour is not read")
    elif kind in (GREY, GREY_OPACITY):
        most = (1 << depth) - 1
        greys = bytes(min(value, most) * 255 // most for value in range(256))
        planes = [channels[:: CHANNELS[kind]].translate(greys)] * 3
    else:
        planes = [channels[plane :: CHANNELS[kind]] for plane in range(3)]
    if kind in (GREY_OPACITY, RGB_OPACITY):
        opacities = channels[CHANNELS[kind] - 1 :: CHANNELS[kind]]
    if opacities.count(255) < len(opacities):
        place = next(place for place, opacity in enumerate(opacities) if opacity != 255)
        raise PictureError(f"the PNG file is not opaque at row {place // width}, column {place % width}")
    pixels = bytearray(3 * len(planes[0]))
    pixels[0::3], pixels[1::3], pixels[2::3] = planes
    return bytes(pixels)


def differing_pixels(one, other):
    """A list of the rows in which two pictures differ, each with its columns that do; a pixel that only one of the
    pictures has is one that differs."""
    rows = []
    for row in range(max(one.height, other.height)):
        first, second = one.row(row), other.row(row)
        if first != second:
            columns = range(max(one.width, other.width))
            rows.append((row, [at for at in columns if first[3 * at : 3 * at + 3] != second[3 * at : 3 * at + 3]]))
    return rows


def difference(one, other):
    """A picture of both: `one` faded (and `other` where it reaches further), with the pixels that differ in red and a
    red box round them."""
    width, height = max(one.width, other.width), max(one.height, other.height)
    rows = []
    for number in range(height):
        row = one.row(number)
        rows.append(bytearray((row + other.row(number)[len(row) :]).translate(FADED).ljust(3 * width, b"\xff")))
    differing = differing_pixels(one, other)
    for row, columns in differing:
        for column in columns:
            rows[row][3 * column : 3 * column + 3] = MARK
    if differing:
        _draw_box(rows, width, differing)
    return Picture(width, height, b"".join(rows))


def _draw_box(rows, width, differing):
    """Draws a box two pixels wide, four pixels away from the pixels that differ, where the picture has room for it."""
    left, right = min(columns[0] for _, columns in differing) - 6, max(columns[-1] for _, columns in differing) + 6
    top, bottom = differing[0][0] - 6, differing[-1][0] + 6
    for row in range(max(top, 0), min(bottom + 1, len(rows))):
        for column in range(max(left, 0), min(right + 1, width)):
            if min(row - top, bottom - row, column - left, right - column) < 2:
                rows[row][3 * column : 3 * column + 3] = MARK


def side_by_side(pictures):
    """One picture of several, from left to right, with a grey gap between them and grey where one is less high."""
    height, gap = max(picture.height for picture in pictures), MARGIN * GAP
    rows = [gap.join(picture.row(row) or MARGIN * picture.width for picture in pictures) for row in range(height)]
    width = sum(picture.width for picture in pictures) + GAP * (len(pictures) - 1)
    return Picture(width, height, b"".join(rows))
