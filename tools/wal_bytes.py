"""Exact bytes of WAL records, pages and segments (xlogrecord.h, xlog_internal.h), made apart from the product's
own encoder: nothing here is shared with it."""
import struct

PAGE = 8192
MAGIC = 0xD113


class Mismatch(Exception):
    """A stated position, length or field is not what the formats give."""


def align8(n):
    return (n + 7) & ~7


def lsn(n):
    """A position as %X/%X."""
    return "%X/%X" % (n >> 32, n & 0xFFFFFFFF)


def pos(text):
    """The position that a text X/X names."""
    high, low = text.split("/")
    return int(high, 16) << 32 | int(low, 16)


def _crc_table():
    table = []
    for n in range(256):
        for _ in range(8):
            n = n >> 1 ^ (0x82F63B78 if n & 1 else 0)
        table.append(n)
    return table


_TABLE = _crc_table()


def crc32c(*parts):
    """CRC-32C over the parts joined."""
    crc = 0xFFFFFFFF
    for part in parts:
        for byte in part:
            crc = _TABLE[(crc ^ byte) & 0xFF] ^ crc >> 8
    return crc ^ 0xFFFFFFFF


class Block:
    """A block reference of a record. What is None is computed as a primary does; a hostile case states it."""

    def __init__(self, rel, number, data=b"", init=False, image=None, hole_at=0, image_info=None,
                 hole_len=0, fork=0, id=None, claims=None, flagged=None, image_len=None, same=None):
        self.rel, self.number, self.data, self.init = rel, number, data, init
        self.image, self.hole_at, self.hole_len = image, hole_at, hole_len
        self.image_info, self.fork, self.id = image_info, fork, id
        self.claims, self.flagged, self.image_len, self.same = claims, flagged, image_len, same

    def head(self, number, before):
        """Its header, as the part `number` behind a block of the relation `before`."""
        same = before == self.rel if self.same is None else self.same
        flagged = bool(self.data) if self.flagged is None else self.flagged
        flags = self.fork | (0x10 if self.image is not None else 0) | (0x20 if flagged else 0)
        flags |= (0x40 if self.init else 0) | (0x80 if same else 0)
        claims = len(self.data) if self.claims is None else self.claims
        out = struct.pack("<BBH", number if self.id is None else self.id, flags, claims)
        if self.image is not None:
            info = self.image_info
            if info is None:
                info = 3 if len(self.image) < PAGE else 2
            length = len(self.image) if self.image_len is None else self.image_len
            out += struct.pack("<HHB", length, self.hole_at, info)
            if info & 1 and info & 0x1C:
                out += struct.pack("<H", self.hole_len)
        if not same:
            out += struct.pack("<III", *self.rel)
        return out + struct.pack("<I", self.number)

    def payload(self):
        return (self.image or b"") + self.data


class Body:
    """A record without its place in the log: manager, info, xid, main data, blocks. `parts` are further part
    headers as they stand, `behind` bytes behind main data, and `total` a length that is not the true one."""

    def __init__(self, manager, info, xid=0, main=b"", blocks=(), origin=None, top=None,
                 long_main=False, parts=b"", behind=b"", total=None):
        self.manager, self.info, self.xid, self.main = manager, info, xid, main
        self.blocks, self.origin, self.top = list(blocks), origin, top
        self.long_main, self.parts, self.behind, self.total = long_main, parts, behind, total


def encode(body, prev):
    """The record's bytes with its length, link and CRC."""
    heads, payload, before = b"", b"", None
    for number, block in enumerate(body.blocks):
        heads += block.head(number, before)
        payload += block.payload()
        before = block.rel
    if body.origin is not None:
        heads += struct.pack("<BH", 253, body.origin)
    if body.top is not None:
        heads += struct.pack("<BI", 252, body.top)
    heads += body.parts
    if body.long_main or len(body.main) > 255:
        heads += struct.pack("<BI", 254, len(body.main))
    elif body.main:
        heads += struct.pack("<BB", 255, len(body.main))
    rest = heads + payload + body.main + body.behind
    total = 24 + len(rest) if body.total is None else body.total
    head = struct.pack("<IIQBBH", total, body.xid & 0xFFFFFFFF, prev, body.info, body.manager, 0)
    return head + struct.pack("<I", crc32c(rest, head)) + rest


def page_header(at, info, rem, tli, system, segsize):
    """The long header on a segment's first page, the short one elsewhere."""
    if at % segsize == 0:
        return struct.pack("<HHIQIIQII", MAGIC, info | 2, tli, at, rem, 0, system, segsize, PAGE)
    return struct.pack("<HHIQII", MAGIC, info, tli, at, rem, 0)


class Wal:
    """Places records into pages. Pages that nothing was put into are zeros."""

    def __init__(self, at, prev, tli=1, system=7, segsize=16 << 20):
        self.at, self.prev, self.tli = at, prev, tli
        self.system, self.segsize = system, segsize
        self.pages = {}

    def header(self, at, info=0, rem=0):
        """Writes the page header at `at`; answers the position after it."""
        text = page_header(at, info, rem, self.tli, self.system, self.segsize)
        page = self.pages.setdefault(at, bytearray(PAGE))
        page[:len(text)] = text
        return at + len(text)

    def start(self):
        """Where the next record begins; makes the header of its page."""
        page = self.at - self.at % PAGE
        if page in self.pages:
            return self.at
        after = self.header(page)
        if page < self.at < after:
            raise Mismatch("%s lies in a page header" % lsn(self.at))
        return max(self.at, after)

    def put(self, text):
        """Places bytes from the next record's start; answers (start, end not aligned)."""
        start = at = self.start()
        done = 0
        while True:
            piece = text[done:done + PAGE - at % PAGE]
            self.pages[at - at % PAGE][at % PAGE:at % PAGE + len(piece)] = piece
            at, done = at + len(piece), done + len(piece)
            if done == len(text):
                return start, at
            at = self.header(at, 1, len(text) - done)

    def add(self, body):
        """Places one record; answers (start, end)."""
        start, at = self.put(encode(body, self.prev))
        self.at, self.prev = align8(at), start
        if body.manager == 0 and body.info == 0x40:
            self.at = -(-self.at // self.segsize) * self.segsize
        return start, self.at

    def give_up(self, body, count):
        """Puts only the first `count` bytes of a record up to a page's end; the next page has info 8
        (XLP_FIRST_IS_OVERWRITE_CONTRECORD) and the record after it the same link. Answers the position."""
        start, at = self.put(encode(body, self.prev)[:count])
        if at % PAGE:
            raise Mismatch("the given-up record must reach a page's end")
        self.at = self.header(at, 8)
        return start

    def room_to(self, end):
        """The bytes from the next record's start up to `end` that lie in no page header."""
        at, count = self.start(), 0
        while at < end:
            stop = min(end, at - at % PAGE + PAGE)
            count, at = count + stop - at, stop
            if at < end:
                at += 40 if at % self.segsize == 0 else 24
        return count

    def poke(self, at, text):
        """Overwrites placed bytes, for hostile logs."""
        for i, byte in enumerate(text):
            self.pages[(at + i) - (at + i) % PAGE][(at + i) % PAGE] = byte

    def peek(self, at, count):
        """The bytes from a position on; those of pages that were not made are zeros."""
        zeros = bytes(PAGE)
        return bytes(self.pages.get(a - a % PAGE, zeros)[a % PAGE] for a in range(at, at + count))
