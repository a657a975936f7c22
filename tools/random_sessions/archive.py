"""The files of a log: the segments of the archive, the description of tables, and what stands where the log ends."""
import struct
from pathlib import Path

from wal_bytes import PAGE, Block as BlockBytes, Body, Wal, encode

from . import records
from .primary import SEGMENT, START
from .transactions import DATABASE
from .values import description

# records that a standby refuses, each with why
REFUSED = [
    ("unsupported prepared", Body(1, 0x10, 0, bytes(8))),
    ("unsupported minimal", Body(0, 0x60, 0, bytes(24))),
    ("unsupported page writes", Body(0, 0x80, 0, b"\0")),
    ("unsupported database", Body(4, 0x20, 0, struct.pack("<I", DATABASE))),
    ("unsupported epoch", Body(11, 0x00, 4294967295, b"x")),
    ("unsupported epoch", Body(1, 0x50, 0, struct.pack("<IiII", 700, 2, 701, 4294967295))),
    ("length", Body(8, 0x10, 0, bytes(23))),
    ("length", Body(1, 0x50, 0, struct.pack("<IiI", 700, 2, 701))),
    ("length", Body(1, 0x50, 0, struct.pack("<Ii", 700, -1))),
    ("compressed", Body(0, 0xB0, 0, b"", [BlockBytes((1663, DATABASE, 20001), 0, image=b"compressed", hole_at=24,
                                                     image_info=7, hole_len=100)])),
]
BROKEN = ("crc", "prev", "short", "manager", "layout")


def assembled(log):
    """The log's records placed once more, where they stood."""
    wal = Wal(START, 2 * SEGMENT - 0x68, system=7, segsize=SEGMENT)
    for record in log:
        assert records.place(wal, record) == (record.start, record.end)
    return wal


def broken(wal, why):
    """The bytes of a record that breaks a rule of the log's end."""
    lost = Body(0, 0x20, 0, b"broken", behind=b"further" if why == "layout" else b"")
    text = bytearray(encode(lost, wal.prev + 8 if why == "prev" else wal.prev))
    if why == "crc":
        text[20] ^= 1
    elif why == "short":
        text[:4] = struct.pack("<I", 23)
    elif why == "manager":
        text[17] = 99
    return bytes(text)


class Ending:
    """How a log ends: a record that breaks a rule or is refused, or nothing behind it in files of some length."""

    def __init__(self, draw):
        self.kind = draw.choice(["nothing"] * 6 + ["broken"] * 2 + ["refused"])
        self.why, self.body = (draw.choice(BROKEN), None) if self.kind == "broken" else draw.choice(REFUSED)
        self.files = draw.choice(["whole"] + ["page"] * 6 + ["cut"] * 3)

    def put(self, wal):
        """Puts what stands behind the log; answers `end: WHY` or `refused: WHAT`."""
        self.length = wal.at
        if self.kind == "broken":
            self.length = wal.put(broken(wal, self.why))[1]
            return "end: " + self.why
        if self.kind == "refused":
            self.length = wal.put(encode(self.body, wal.prev))[1]
            return "refused: " + self.why
        if wal.at % SEGMENT == 0 or self.files == "cut" or self.files == "page" and wal.at % PAGE == 0:
            return "end: missing"
        return "end: page" if wal.at % PAGE == 0 else "end: zero"


def write_files(folder, wal, ending, tables):
    folder = Path(folder)
    (folder / "archive").mkdir()
    (folder / "base").mkdir()
    (folder / "base" / "schema.toml").write_text(description(tables))
    segments = {}
    for at, page in wal.pages.items():
        segments.setdefault(at // SEGMENT, {})[at % SEGMENT] = page
    for number, pages in segments.items():
        data = bytearray(max(pages) + PAGE)
        for at, page in pages.items():
            data[at:at + PAGE] = page
        last = number == max(segments)
        if last and ending.files == "cut" and ending.length // SEGMENT == number:
            del data[ending.length % SEGMENT:]
        with open(folder / "archive" / ("%08X%08X%08X" % (1, number // 256, number % 256)), "wb") as file:
            file.write(data)
            if last and ending.files == "whole":
                file.truncate(SEGMENT)
