"""Pictures as PNG files, in red, green and blue."""
import struct
import zlib

from .formats import DIGITAL_CINEMA, FULL_RANGE, HDTV

GAP = 4
# red of V, green of U and of V, blue of U
BT_601, BT_709 = (1.402, 0.344136, 0.714136, 1.772), (1.5748, 0.187324, 0.468124, 1.8556)


def clip(value):
    return max(0, min(255, round(value)))


def _tables(signal):
    """What each byte of Y, and of U and V, stands for, from 0 to 255 and from -127.5 to 127.5."""
    luma_offset, luma_excursion, chroma_offset, chroma_excursion = signal or FULL_RANGE
    lights = [(byte - luma_offset) * 255 / luma_excursion for byte in range(256)]
    colours = [(byte - chroma_offset) * 255 / chroma_excursion for byte in range(256)]
    return lights, colours


def rgb_rows(raw, video):
    """The rows of a picture as bytes of red, green and blue."""
    (width, height), (chroma_width, chroma_height), _ = video.plane_sizes()
    across, down = width // chroma_width, height // chroma_height
    luma, blues, reds = video.planes(raw)
    lights, colours = _tables(video.signal)
    to_red, blue_from_green, red_from_green, to_blue = BT_709 if video.colour in (HDTV, DIGITAL_CINEMA) else BT_601
    for y in range(height):
        row = bytearray()
        for x in range(width):
            light = lights[luma[y * width + x]]
            place = y // down * chroma_width + x // across
            blue, red = colours[blues[place]], colours[reds[place]]
            green = light - blue_from_green * blue - red_from_green * red
            row += bytes((clip(light + to_red * red), clip(green), clip(light + to_blue * blue)))
        yield bytes(row)


def sheet(pictures):
    """Pictures as lists of rows side by side, the rows of each as long as the highest needs."""
    height = max(map(len, pictures))
    grey = b"\x80" * 3
    rows = []
    for y in range(height):
        row = [rows_[y] if y < len(rows_) else grey * (len(rows_[0]) // 3) for rows_ in pictures]
        rows.append((grey * GAP).join(row))
    return rows


def chunk(kind, data):
    return struct.pack(">I", len(data)) + kind + data + struct.pack(">I", zlib.crc32(kind + data))


def spell(rows):
    """The file of a picture, of its rows of red, green and blue."""
    header = struct.pack(">IIBBBBB", len(rows[0]) // 3, len(rows), 8, 2, 0, 0, 0)
    data = zlib.compress(b"".join(b"\0" + row for row in rows), 6)
    return b"\x89PNG\r\n\x1a\n" + chunk(b"IHDR", header) + chunk(b"IDAT", data) + chunk(b"IEND", b"")
