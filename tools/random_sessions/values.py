"""The values of rows: described tables, what a tuple stores, and how a row is printed."""
import struct

# a described type: how many bytes a value has, and to what it is aligned
FIXED = {"bool": (1, 1), "int2": (2, 2), "int4": (4, 4), "int8": (8, 8), "oid": (4, 4), "uuid": (16, 1),
         "raw4": (4, 4), "raw8": (8, 8)}
INTEGERS = {"int2": "<h", "int4": "<i", "int8": "<q", "oid": "<I"}
ESCAPES = {b"\\": b"\\\\", b"\t": b"\\t", b"\n": b"\\n", b"\r": b"\\r"}

# what stands in the place of a value that is stored elsewhere, of one that is compressed, and of a bool of neither kind
EXTERNAL, COMPRESSED, NEITHER = "external", "compressed", "neither"


class Column:
    def __init__(self, name, kind, missing=None):
        self.name, self.kind, self.missing = name, kind, missing


class Table:
    """A described table. Its oid, by which locks name it, is another number than its file."""

    def __init__(self, name, oid, file, columns, database=16384):
        self.name, self.oid, self.file, self.columns, self.database = name, oid, file, columns, database
        self.rel = (1663, database, file)


def literal(value):
    """A value as it stands in the description (TOML)."""
    if isinstance(value, bool):
        return "true" if value else "false"
    return '"%s"' % value if isinstance(value, str) else str(value)


def description(tables, database=16384):
    out = ["database = %d" % database]
    for table in tables:
        out += ["", "[[table]]", 'name = "%s"' % table.name, "oid = %d" % table.oid, "file = %d" % table.file]
        for column in table.columns:
            out += ["", "[[table.column]]", 'name = "%s"' % column.name, 'type = "%s"' % column.kind]
            if column.missing is not None:
                out += ["missing = %s" % literal(column.missing)]
    return "\n".join(out) + "\n"


# Values into bytes.

def stored(kind, value, at):
    """The bytes of a value that is put at this place of the user data, with the padding before it."""
    if kind in FIXED:
        padding = bytes(-at % FIXED[kind][1])
        if kind == "bool":
            return padding + (b"\2" if value == NEITHER else bytes([value]))
        return padding + (struct.pack(INTEGERS[kind], value) if kind in INTEGERS else value)
    if value == EXTERNAL:
        return b"\x01\x12" + bytes(range(1, 17))
    if value == COMPRESSED:
        return bytes(-at % 4) + struct.pack("<I", 12 << 2 | 2) + b"\x40\0\0\0abcd"
    text = value.encode() if isinstance(value, str) else value
    if len(text) < 127:
        return bytes([(len(text) + 1) << 1 | 1]) + text
    return bytes(-at % 4) + struct.pack("<I", (len(text) + 4) << 2) + text


def formed(columns, values):
    """(infomask bits, hoff, the tuple's bytes from byte 23) of the first columns' values."""
    mask, bitmap, data = 0, b"", b""
    if None in values:
        mask |= 0x0001
        bits = sum(1 << i for i, value in enumerate(values) if value is not None)
        bitmap = bits.to_bytes((len(values) + 7) // 8, "little")
    for column, value in zip(columns, values):
        if value is not None:
            mask |= 0x0002 if column.kind not in FIXED else 0
            mask |= 0x0004 if value == EXTERNAL else 0
            data += stored(column.kind, value, len(data))
    hoff = 23 + len(bitmap) + 7 & ~7
    return mask, hoff, bitmap + bytes(hoff - 23 - len(bitmap)) + data


# Bytes into printed values.

class Refused(Exception):
    """The value of this column is not given: it is toasted, or bad."""

    def __init__(self, word, column):
        super().__init__(word)
        self.word, self.column = word, column


def varlena(data, at):
    """(the bytes of the varlena that is looked for from here on, where it ends)."""
    if data[at:at + 1] == b"\0":
        at = at + 3 & ~3
    head = data[at:at + 1]
    if not head:
        raise ValueError("bad row")
    if head == b"\1":
        raise ValueError("toasted")
    if head[0] & 1:
        start, end = at + 1, at + head[0] // 2
    else:
        if at + 4 > len(data):
            raise ValueError("bad row")
        if head[0] & 3 == 2:
            raise ValueError("toasted")
        start, end = at + 4, at + struct.unpack_from("<I", data, at)[0] // 4
    if end > len(data) or end < start:
        raise ValueError("bad row")
    return data[start:end], end


def fixed(kind, data, at):
    size, align = FIXED[kind]
    at += -at % align
    if at + size > len(data) or kind == "bool" and data[at] > 1:
        raise ValueError("bad row")
    return data[at:at + size], at + size


def printed(kind, text):
    """The printed form of a value's bytes."""
    if kind == "bool":
        return b"t" if text[0] else b"f"
    if kind in INTEGERS:
        return b"%d" % struct.unpack(INTEGERS[kind], text)
    digits = text.hex().encode()
    if kind == "uuid":
        return b"-".join(digits[a:b] for a, b in ((0, 8), (8, 12), (12, 16), (16, 20), (20, 32)))
    if kind == "bytea":
        return b"\\x" + digits
    if kind == "text":
        return b"".join(ESCAPES.get(bytes([byte]), bytes([byte])) for byte in text)
    return digits


def printed_missing(column):
    value = column.missing
    if value is None:
        return b"\\N"
    if isinstance(value, bool):
        return b"t" if value else b"f"
    return printed("text", value.encode()) if isinstance(value, str) else b"%d" % value


def printed_row(columns, version):
    """The row that a tuple stores, as it is printed; Refused where a value is not given."""
    mask2, mask, hoff = struct.unpack_from("<HHB", version, 18)
    count, data, at, out = mask2 & 0x07FF, version[hoff:], 0, []
    if count > len(columns):
        raise Refused("bad row", len(columns) - 1)
    for number, column in enumerate(columns):
        if number >= count:
            out.append(printed_missing(column))
        elif mask & 1 and not version[23 + number // 8] >> number % 8 & 1:
            out.append(b"\\N")
        else:
            try:
                text, at = (fixed if column.kind in FIXED else lambda _, *where: varlena(*where))(column.kind, data, at)
            except ValueError as why:
                raise Refused(str(why), number) from None
            out.append(printed(column.kind, text))
    return b"\t".join(out)
