"""What redo of a record leaves of the items of a block (heapam.c, pruneheap.c). The log maker writes images by it, and
the check of legality asks that redo is never refused; the answers of a standby are never reckoned from it."""
import struct

from wal_bytes import PAGE, align8


class NoRedo(Exception):
    """Redo refuses the record."""


def item(items, line):
    return items[line - 1] if 0 < line <= len(items) else None


def is_tuple(it):
    return isinstance(it, bytes)


def room(items, line, size):
    """What the page takes with a tuple of this size at this line."""
    return 24 + 4 * max(len(items), line) + sum(align8(len(it)) for it in items if is_tuple(it)) + align8(size)


def put(items, line, it):
    if line == 0 or item(items, line) is not None:
        raise NoRedo("line in use")
    if room(items, line, len(it)) > PAGE:
        raise NoRedo("page full")
    items += [None] * (line - len(items))
    items[line - 1] = it


def set_line(items, line, it):
    if item(items, line) is None:
        raise NoRedo("line not in use")
    items[line - 1] = it
    while items and items[-1] is None:
        items.pop()


def header(it):
    """[xmin, xmax, cid, ctid's block high and low and line, infomask2, infomask]"""
    return list(struct.unpack_from("<IIIHHHHH", it, 0))


def with_header(it, head):
    return struct.pack("<IIIHHHHH", *head) + it[22:]


def change(items, line, by):
    it = item(items, line)
    if not is_tuple(it):
        raise NoRedo("no tuple")
    items[line - 1] = with_header(it, by(header(it)))


def is_lock_only(mask):
    return bool(mask & 0x0080) or mask & 0x1050 == 0x0040


def marked_mask(mask, bits):
    mask &= ~0xDCD0 & 0xFFFF
    for bit, flag in ((1, 0x1000), (2, 0x0080), (4, 0x0040), (8, 0x0010)):
        mask |= flag if bits & bit else 0
    return mask


def mark(head, xmax, bits):
    head[1], head[7] = xmax, marked_mask(head[7], bits)
    head[6] = head[6] & ~0x2000 | (0x2000 if bits & 16 else 0)
    return head


def pointing(head, block, line):
    head[3:6] = block >> 16, block & 0xFFFF, line
    return head


def born(xid, xmax, block, line, new, old=b""):
    """A tuple that a record puts at this place; of the old version's values it may have the ends."""
    own = new.hoff - 23
    rest = new.rest[:own] + old[:new.prefix] + new.rest[own:] + old[len(old) - new.suffix:]
    return struct.pack("<IIIHHHHHB", xid, xmax, 0, block >> 16, block & 0xFFFF, line, new.mask2, new.mask, new.hoff) + rest


def deleted(record, number):
    def by(head):
        before = head[1]
        mark(head, record.xmax, record.bits)
        head[6] &= ~0x4000
        pointing(head, *((0xFFFFFFFF, 0xFFFD) if record.flags & 0x10 else (number, record.line)))
        if record.flags & 0x08:
            head[:2] = 0, before
        return head
    return by


def locked(record, number):
    def by(head):
        mark(head, record.xmax, record.bits)
        if is_lock_only(head[7]):
            head[6] &= ~0x4000
            pointing(head, number, record.line)
        return head
    return by


def replaced(record, block):
    def by(head):
        mark(head, record.xmax, record.bits)
        head[6] = head[6] & ~0x4000 | (0x4000 if record.hot else 0)
        return pointing(head, block, record.new_line)
    return by


def updated(record, block, items):
    new_block, old_block = record.block(0), record.block(1)
    old = b""
    if block is old_block or old_block is None:
        before = item(items, record.line)
        old = before[before[22]:] if is_tuple(before) else b""
        change(items, record.line, replaced(record, new_block.number))
    if block is new_block:
        new = block.tuples[0]
        if old_block is not None:
            old = b""
        if new.prefix + new.suffix > len(old):
            raise NoRedo("old version too short")
        put(items, record.new_line, born(record.xid, record.new_xmax, block.number, record.new_line, new, old))


def pruned(record, items):
    for line, to in record.redirected:
        set_line(items, line, to)
        if item(items, to) is None:
            raise NoRedo("redirect to an unused line")
    for line in record.died:
        set_line(items, line, "dead")
    for line in record.freed:
        set_line(items, line, None)


def frozen(record, items):
    for xmax, mask2, mask, lines in record.plans:
        for line in lines:
            change(items, line, lambda head: [head[0], xmax, *head[2:6], mask2, mask])


def inserted(record, block, items, lines):
    for line, new in zip(lines, block.tuples):
        put(items, line, born(record.xid, 0, block.number, line, new))


def vacuumed(record, items):
    for line in record.freed:
        set_line(items, line, None)


CHANGES = {
    "insert": lambda r, b, items: inserted(r, b, items, [r.line]),
    "multi-insert": lambda r, b, items: inserted(r, b, items, r.lines),
    "delete": lambda r, b, items: change(items, r.line, deleted(r, b.number)),
    "update": updated,
    "confirm": lambda r, b, items: change(items, r.line, lambda head: pointing(head, b.number, r.line)),
    "lock": lambda r, b, items: change(items, r.line, locked(r, b.number)),
    "lock-updated": lambda r, b, items: change(items, r.line, lambda head: mark(head, r.xmax, r.bits)),
    "prune": lambda r, b, items: pruned(r, items),
    "vacuum": lambda r, b, items: vacuumed(r, items),
    "freeze": lambda r, b, items: frozen(r, items),
}


def changed(record, block, items):
    """The items of a block (None: it is missing) after the record's own change, as if it brought no image."""
    if record.kind in ("images", "visible"):
        return items
    items = [] if block.init else items
    if items is None:
        raise NoRedo("no page")
    items = list(items)
    CHANGES[record.kind](record, block, items)
    return items


def redone(record, block, items):
    """The items of the block after redo."""
    if block.number == 0xFFFFFFFF:
        raise NoRedo("no page")
    image = block.applied()
    return changed(record, block, items) if image is None else list(image)


def is_anew(block):
    return block.init or block.applied() is not None


def is_left(record, block):
    """A record of images, or of visibility, leaves a block of which it restores no image."""
    return record.kind in ("images", "visible") and block.applied() is None


def redo(record, known, pages):
    """Redo of a record on the pages of the described files {(rel, block): items}."""
    if record.kind == "truncate":
        cut(pages, record.rel, record.blocks_left)
    for rel in record.files if record.kind == "commit" else ():
        cut(pages, rel, 0)
    for block in record.blocks:
        if block.rel not in known or is_left(record, block):
            continue
        after = redone(record, block, pages.get((block.rel, block.number)))
        if is_anew(block):
            for number in range(block.number):
                pages.setdefault((block.rel, number), [])
        pages[block.rel, block.number] = after


def cut(pages, rel, blocks):
    for place in [it for it in pages if it[0] == rel and it[1] >= blocks]:
        del pages[place]
