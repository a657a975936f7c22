"""Exact bytes of heap tuples and pages (htup_details.h, bufpage.h), made apart from the product's own code."""
import struct

from wal_bytes import PAGE, Mismatch, align8

EXTERNAL = object()


class Table:
    """A described table; oid and file are one number here."""

    def __init__(self, name, oid, columns, db=16384):
        self.name, self.oid, self.columns, self.db = name, oid, columns, db
        self.rel = (1663, db, oid)


T = Table("t", 16385, [("id", "int4"), ("note", "text")])
U = Table("u", 16390, [("id", "int4")])


def form(columns, values):
    """(Infomask bits that the values need, hoff, the tuple's bytes from byte 23)."""
    mask, bitmap = 0, b""
    if any(v is None for v in values):
        mask |= 0x0001
        bits = sum(1 << i for i, v in enumerate(values) if v is not None)
        bitmap = bits.to_bytes((len(values) + 7) // 8, "little")
    hoff = align8(23 + len(bitmap))
    data = b""
    for (_, kind), value in zip(columns, values):
        if value is None:
            continue
        if kind == "int4":
            data += bytes(-len(data) % 4) + struct.pack("<i", value)
            continue
        mask |= 0x0002
        if value is EXTERNAL:
            mask |= 0x0004
            data += b"\x01\x12" + bytes(16)
            continue
        text = value if isinstance(value, bytes) else value.encode()
        if len(text) < 127:
            data += bytes([(len(text) + 1) << 1 | 1]) + text
        else:
            data += bytes(-len(data) % 4) + struct.pack("<I", (len(text) + 4) << 2) + text
    return mask, hoff, bitmap + bytes(hoff - 23 - len(bitmap)) + data


class Page:
    """A heap page as a list of lines: None, bytearray (a tuple), 'dead', or a redirect's int."""

    def __init__(self):
        self.lines, self.lsn = [], 0

    def put(self, line, tup):
        self.lines += [None] * (line - len(self.lines))
        if self.lines[line - 1] is not None:
            raise Mismatch("line %d is not free" % line)
        self.lines[line - 1] = tup

    def image(self):
        """(Bytes without the hole, hole's offset); tuples from the end down in order (bufpage.h)."""
        lower, upper, pointers, tuples = 24 + 4 * len(self.lines), PAGE, b"", b""
        for line in self.lines:
            if isinstance(line, (bytes, bytearray)):
                upper -= align8(len(line))
                tuples = bytes(line) + bytes(-len(line) % 8) + tuples
                pointers += struct.pack("<I", upper | 1 << 15 | len(line) << 17)
            elif line is None:
                pointers += bytes(4)
            elif line == "dead":
                pointers += struct.pack("<I", 3 << 15)
            else:
                pointers += struct.pack("<I", line | 2 << 15)
        if upper < lower:
            raise Mismatch("page full")
        head = struct.pack("<IIHHHHHHI", self.lsn >> 32, self.lsn & 0xFFFFFFFF, 0, 0,
                           lower, upper, PAGE, 0x2004, 0)
        return head + pointers + tuples, lower

    def whole(self):
        data, hole = self.image()
        return data[:hole] + bytes(PAGE - len(data)) + data[hole:]


def tuple_bytes(xid, place, mask2, mask, hoff, rest, xmax=0):
    """A whole tuple with its own place as ctid."""
    block, line = place
    return bytearray(struct.pack("<IIIHHHHHB", xid & 0xFFFFFFFF, xmax & 0xFFFFFFFF, 0,
                                 block >> 16, block & 0xFFFF, line, mask2, mask, hoff) + rest)


def mark(tup, xmax, bits, ctid, hot=False):
    """Sets a deleter with the bits of xl_heap_delete and xl_heap_lock (heapam_xlog.h), the HOT flag and the ctid."""
    mask2, mask = struct.unpack_from("<HH", tup, 18)
    mask &= ~0xDCD0
    mask2 &= ~(0x2000 | 0x4000)
    for bit, flag in ((1, 0x1000), (2, 0x0080), (4, 0x0040), (8, 0x0010)):
        mask |= flag if bits & bit else 0
    mask2 |= (0x2000 if bits & 16 else 0) | (0x4000 if hot else 0)
    struct.pack_into("<I", tup, 4, xmax & 0xFFFFFFFF)
    struct.pack_into("<HHHHH", tup, 12, ctid[0] >> 16, ctid[0] & 0xFFFF, ctid[1], mask2, mask)
