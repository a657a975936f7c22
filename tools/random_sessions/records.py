"""Records of the log in typed form, and their bytes.

A record has a kind, the transaction id of its header, its blocks of the main fork, and the fields of its kind:

    insert         line flags                     multi-insert   flags lines
    delete         xmax line bits flags           update         xmax line bits flags new_xmax new_line hot
    confirm        line                           lock           xmax line bits flags
    lock-updated   xmax line bits flags           prune          horizon redirected died freed
    vacuum         freed                          freeze         horizon plans, each (xmax, mask2, mask, lines)
    visible        horizon flags                  images         hint
    truncate       blocks rel                     locks          entries, each (xid, database, oid)
    commit, abort  subs files                     assignment     top subs
    running        tops subs overflow next oldest latest
    multixact      id offset members, each (xid, status)
    checkpoint     redo next shutdown             backup-end     redo
    other          manager info main              switch

`given_up` is how many bytes stand before it of a record that was begun and given up at the page's end.
"""
import copy
import struct

from wal_bytes import PAGE, Block as BlockBytes, Body, align8


class Image:
    """A page image: the items that it shows, and whether replay restores it. An item is None (unused), the bytes of
    a tuple, 'dead', or the line to which it redirects."""

    def __init__(self, items, applied=True):
        self.items, self.applied = items, applied


class NewTuple:
    """A tuple that a record brings: two masks, hoff, the bytes from byte 23 on, and how many bytes of the old version's
    values come before and behind its own ones."""

    def __init__(self, mask2, mask, hoff, rest, prefix=0, suffix=0):
        self.mask2, self.mask, self.hoff, self.rest = mask2, mask, hoff, rest
        self.prefix, self.suffix = prefix, suffix


class Block:
    """A block of the main fork. `keeps` says that its data stand beside an image that is restored."""

    def __init__(self, rel, number, init=False, image=None, tuples=(), id=0, keeps=False):
        self.rel, self.number, self.init, self.image = rel, number, init, image
        self.tuples, self.id, self.keeps = list(tuples), id, keeps

    def applied(self):
        """The items of the image that replay restores, or None."""
        return self.image.items if self.image and self.image.applied else None


class Record:
    def __init__(self, kind, xid=0, blocks=(), **fields):
        self.kind, self.xid, self.blocks = kind, xid, list(blocks)
        self.start = self.end = self.given_up = 0
        self.__dict__.update(fields)

    def block(self, id):
        return next((block for block in self.blocks if block.id == id), None)

    def copied(self):
        return copy.deepcopy(self)


# Pages.

def line_pointer(item, upper):
    if item is None:
        return bytes(4)
    if item == "dead":
        return struct.pack("<I", 3 << 15)
    if isinstance(item, int):
        return struct.pack("<I", item | 2 << 15)
    return struct.pack("<I", upper | 1 << 15 | len(item) << 17)


def page_bytes(items):
    """(the page without its hole, where the hole begins)."""
    lower, upper, pointers, tuples = 24 + 4 * len(items), PAGE, b"", b""
    for item in items:
        if isinstance(item, bytes):
            upper -= align8(len(item))
            tuples = item + bytes(-len(item) % 8) + tuples
        pointers += line_pointer(item, upper)
    return struct.pack("<QHHHHHHI", 0, 0, 0, lower, upper, PAGE, 0x2004, 0) + pointers + tuples, lower


def block_bytes(block, data):
    """A block reference with the block's data, which an image that is restored mostly makes needless."""
    if block.image is None:
        return BlockBytes(block.rel, block.number, data, block.init, id=block.id)
    page, hole = page_bytes(block.image.items)
    info = (1 if len(page) < PAGE else 0) | (2 if block.image.applied else 0)
    if block.image.applied and not block.keeps:
        data = b""
    return BlockBytes(block.rel, block.number, data, block.init, page, hole if info & 1 else 0, info, id=block.id)


# Bodies.

def tuple_data(new):
    return struct.pack("<HHB", new.mask2, new.mask, new.hoff) + new.rest


def numbers(width, values):
    return b"".join(struct.pack(width, value) for value in values)


def marked(record):
    return struct.pack("<IHBB", record.xmax, record.line, record.bits, record.flags)


def insert(record):
    block = record.blocks[0]
    data = tuple_data(block.tuples[0])
    return 10, 0x80 if block.init else 0, struct.pack("<HB", record.line, record.flags), data


def multi_insert(record):
    block, data = record.blocks[0], b""
    for new in block.tuples:
        data += bytes(len(data) % 2) + struct.pack("<H", len(new.rest)) + tuple_data(new)
    main = struct.pack("<BxH", record.flags, len(record.lines))
    return 9, 0x50 | (0x80 if block.init else 0), main + (b"" if block.init else numbers("<H", record.lines)), data


def update(record):
    block = record.block(0)
    new = block.tuples[0]
    main = struct.pack("<IHBBIH", record.xmax, record.line, record.bits, record.flags, record.new_xmax, record.new_line)
    data = numbers("<H", [length for flag, length in ((0x20, new.prefix), (0x40, new.suffix)) if record.flags & flag])
    return 10, (0x40 if record.hot else 0x20) | (0x80 if block.init else 0), main, data + tuple_data(new)


def prune(record):
    main = struct.pack("<IHHB", record.horizon, len(record.redirected), len(record.died), 0)
    pairs = [line for pair in record.redirected for line in pair]
    return 9, 0x10, main, numbers("<H", pairs + record.died + record.freed)


def freeze(record):
    data = b"".join(struct.pack("<IHHBBH", *plan[:3], 0, 0, len(plan[3])) for plan in record.plans)
    lines = [line for plan in record.plans for line in plan[3]]
    return 9, 0x30, struct.pack("<IHB", record.horizon, len(record.plans), 0), data + numbers("<H", lines)


def locks(record):
    return 8, 0x00, struct.pack("<i", len(record.entries)) + b"".join(struct.pack("<III", *it) for it in record.entries), b""


def ended(record):
    """A commit or an abort (xact.h): xinfo, the database, subtransactions, files, and invalidations behind them."""
    xinfo = (1 if record.inside else 0) | (2 if record.subs else 0) | (4 if record.files else 0)
    main = struct.pack("<q", 0) + (struct.pack("<I", xinfo) if xinfo else b"")
    main += struct.pack("<II", 16384, 1663) if record.inside else b""
    for width, listed in (("<I", [(xid,) for xid in record.subs]), ("<III", record.files)):
        if listed:
            main += struct.pack("<i", len(listed)) + b"".join(struct.pack(width, *it) for it in listed)
    info = (0x00 if record.kind == "commit" else 0x20) | (0x80 if xinfo else 0) | (0x01 if record.files else 0)
    return 1, info, main, b""


def running(record):
    counts = struct.pack("<iiB3xIII", len(record.tops), len(record.subs), record.overflow, record.next, record.oldest,
                         record.latest)
    return 8, 0x10, counts + numbers("<I", record.tops + record.subs), b""


def checkpoint(record):
    main = bytearray(88)
    struct.pack_into("<QIIB", main, 0, record.redo, 1, 1, 1)
    struct.pack_into("<Q", main, 24, record.next)
    struct.pack_into("<II", main, 36, 1, 0)
    struct.pack_into("<I", main, 52, 1)
    return 0, 0x00 if record.shutdown else 0x10, bytes(main), b""


BODIES = {
    "insert": insert, "multi-insert": multi_insert, "update": update, "prune": prune, "freeze": freeze, "locks": locks,
    "commit": ended, "abort": ended, "running": running, "checkpoint": checkpoint,
    "assignment": lambda r: (1, 0x50, struct.pack("<Ii", r.top, len(r.subs)) + numbers("<I", r.subs), b""),
    "multixact": lambda r: (6, 0x20, struct.pack("<IIi", r.id, r.offset, len(r.members)) +
                            b"".join(struct.pack("<Ii", *it) for it in r.members), b""),
    "delete": lambda r: (10, 0x10, marked(r), b""),
    "lock": lambda r: (10, 0x60, marked(r), b""),
    "lock-updated": lambda r: (9, 0x60, marked(r), b""),
    "confirm": lambda r: (10, 0x50, struct.pack("<H", r.line), b""),
    "vacuum": lambda r: (9, 0x20, struct.pack("<H", len(r.freed)), numbers("<H", r.freed)),
    "visible": lambda r: (9, 0x40, struct.pack("<IB", r.horizon, r.flags), b""),
    "images": lambda r: (0, 0xB0 if r.hint else 0xA0, b"", b""),
    "truncate": lambda r: (2, 0x21, struct.pack("<IIIIi", r.blocks_left, *r.rel, 7), b""),
    "backup-end": lambda r: (0, 0x50, struct.pack("<Q", r.redo), b""),
    "switch": lambda r: (0, 0x40, b"", b""),
    "other": lambda r: (r.manager, r.info, r.main, b""),
}


def body(record):
    """The record without its place in the log."""
    manager, info, main, data = BODIES[record.kind](record)
    blocks = [block_bytes(block, data if block.id == 0 else b"") for block in record.blocks]
    if record.kind == "visible":
        heap = record.blocks[0]
        blocks.insert(0, BlockBytes(heap.rel, heap.number // 32672, b"", fork=2, id=0))
    return Body(manager, info, record.xid, main, blocks)


def place(wal, record):
    """Puts a record behind those before it, and in front of it one that was given up at its page's end, if so it is;
    answers where it begins and ends."""
    if record.given_up:
        wal.give_up(Body(0, 0x20, 0, bytes(PAGE)), record.given_up)
    return wal.add(body(record))
