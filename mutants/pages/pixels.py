"""A picture of filled and empty cells, a pixel each, as a text in a page: PNG in base64."""

import struct
import zlib
from base64 import b64encode
from collections.abc import Sequence

SIGNATURE = b"\x89PNG\r\n\x1a\n"
# The first colour, which is transparent, is for empty cells; the second one fills a cell.
COLOURS = bytes.fromhex("ffffff1d4f7c")


def chunk(kind: bytes, data: bytes) -> bytes:
    """A chunk of PNG: its length, its kind, its data and its checksum."""
    return struct.pack(">I", len(data)) + kind + data + struct.pack(">I", zlib.crc32(kind + data))


def line_of(bits: str) -> bytes:
    """A line of pixels, eight in a byte, after the byte which says that no filter is used."""
    padded = bits.ljust(-(-len(bits) // 8) * 8, "0")
    return b"\0" + int(padded, 2).to_bytes(len(padded) // 8, "big")


def picture(lines: Sequence[str]) -> bytes:
    """A picture of lines of the digits 1 (filled) and 0, all of the same length. There is at least one line."""
    head = struct.pack(">IIBBBBB", len(lines[0]), len(lines), 1, 3, 0, 0, 0)
    parts = [(b"IHDR", head), (b"PLTE", COLOURS), (b"tRNS", b"\0")]
    parts += [(b"IDAT", zlib.compress(b"".join(map(line_of, lines)), 9)), (b"IEND", b"")]
    return SIGNATURE + b"".join(chunk(*part) for part in parts)


def source_of(lines: Sequence[str]) -> str:
    """The picture as the source of an image."""
    return f"data:image/png;base64,{b64encode(picture(lines)).decode()}"
