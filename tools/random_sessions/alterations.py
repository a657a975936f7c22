"""Logs of which one number was changed by chance. Where such a log is still one that a primary could write, as legal.py
says, a standby has to answer by the definitions there too; so the log maker's own habits do not bound what is tried."""
from .pages import header, with_header
from .transactions import DATABASE

MARKS = [0x0100, 0x0200, 0x0300, 0x0400, 0x0800, 0x0C00, 0x1000, 0x1000, 0x0080, 0x0040, 0x0010]

# where a way fits by more than that the record has a field of its name; with the blocks of which no image is restored
SPECIAL = {
    "header": lambda record, plain: True,
    "image": lambda record, plain: any(block.applied() for block in record.blocks),
    "tuple": lambda record, plain: bool(plain and plain[0].tuples),
    "flags": lambda record, plain: record.kind == "delete",
    "pruned": lambda record, plain: record.kind == "prune" and bool(plain),
    "plan": lambda record, plain: record.kind == "freeze" and bool(plain),
    "listed": lambda record, plain: bool(getattr(record, "subs", []) + getattr(record, "tops", [])),
    "assigned": lambda record, plain: record.kind == "assignment",
    "overflow": lambda record, plain: record.kind == "running",
    "counts": lambda record, plain: record.kind == "running" and bool(record.tops + record.subs),
}


class Alteration:
    """Changes one number of a copy of a log's records, so that no record's length changes."""

    def __init__(self, draw, log):
        self.draw, self.log = draw, log
        self.xids = sorted({record.xid for record in log.records} | set(log.tops) | {0, 3})
        self.ids = sorted({record.id for record in log.records if record.kind == "multixact"})

    def records(self):
        """The records with one that is changed."""
        number = self.draw.randrange(len(self.log.records))
        record = self.log.records[number].copied()
        ways = [way for way in dir(self) if way.startswith("other_") and self.fits(record, way[6:])]
        getattr(self, self.draw.choice(ways))(record)
        return self.log.records[:number] + [record] + self.log.records[number + 1:]

    def fits(self, record, what):
        """Whether the record has what this way changes."""
        plain = [block for block in record.blocks if block.applied() is None]
        if what in SPECIAL:
            return SPECIAL[what](record, plain)
        return bool(getattr(record, what, None))

    def xid(self):
        return self.draw.choice(self.xids) + self.draw.choice([0, 0, 0, 1])

    def deleter(self, is_multi):
        """Another xmax: mostly a multixact where it is one, else a transaction."""
        if self.ids and is_multi != (self.draw.random() < 0.1):
            return self.draw.choice(self.ids)
        return self.xid()

    def near(self, number):
        return max(0, number + self.draw.choice([-2, -1, 1, 2]))

    # One way for each kind of number.

    def other_header(self, record):
        record.xid = self.xid()

    def other_xmax(self, record):
        record.xmax = self.deleter(record.bits & 1 > 0)

    def other_new_xmax(self, record):
        record.new_xmax = self.deleter(record.blocks[0].tuples[0].mask & 0x1000 > 0)

    def other_id(self, record):
        record.id = self.draw.choice(self.ids + [0, record.id + 1 & 0xFFFFFFFF])

    def other_members(self, record):
        """Another transaction or another status of a member; mostly of one that updates, or to one that does."""
        at = self.draw.randrange(len(record.members))
        xid, status = record.members[at]
        record.members[at] = self.draw.choice([(self.xid(), status), (xid, self.draw.choice([0, 3, 4, 5])),
                                               (xid, status ^ 4)])

    def other_line(self, record):
        record.line = self.near(record.line)

    def other_new_line(self, record):
        record.new_line = self.near(record.new_line)

    def other_bits(self, record):
        record.bits ^= self.draw.choice([1, 2, 4, 8, 16])

    def other_flags(self, record):
        record.flags ^= self.draw.choice([0x08, 0x10])

    def other_horizon(self, record):
        record.horizon = self.draw.choice([self.near(record.horizon), self.xid(), 0])

    def other_blocks_left(self, record):
        record.blocks_left = self.near(record.blocks_left)

    def other_next(self, record):
        record.next = self.near(record.next)

    def other_oldest(self, record):
        record.oldest = self.draw.choice([self.near(record.oldest), self.xid()])

    def other_latest(self, record):
        record.latest = self.draw.choice([self.near(record.latest), self.xid()])

    def other_redo(self, record):
        record.redo = self.draw.choice(self.log.records).start

    def other_listed(self, record):
        listed = self.draw.choice([it for it in (record.subs, getattr(record, "tops", [])) if it])
        listed[self.draw.randrange(len(listed))] = self.xid()

    def other_top(self, record):
        record.top = self.xid()

    def other_assigned(self, record):
        """Another subtransaction, mostly of the same top transaction."""
        tops = self.log.tops
        others = [xid for xid in tops if tops[xid] == record.top or self.draw.random() < 0.05]
        record.subs[self.draw.randrange(len(record.subs))] = self.draw.choice(others)

    def other_overflow(self, record):
        record.overflow = 0 if record.overflow else self.draw.choice([1, 2, 255])

    def other_counts(self, record):
        """Another number of the listed ids is counted as top transactions."""
        listed = record.tops + record.subs
        at = self.draw.randrange(len(listed) + 1)
        record.tops, record.subs = listed[:at], listed[at:]

    def other_entries(self, record):
        at = self.draw.randrange(len(record.entries))
        oid = self.draw.choice([table.oid for table in self.log.tables] + [1259])
        record.entries[at] = self.xid(), self.draw.choice([DATABASE, DATABASE, 0]), oid

    def other_blocks(self, record):
        block = self.draw.choice(record.blocks)
        if len(record.blocks) > 1 or self.draw.random() < 0.8:
            block.number = self.near(block.number)
        else:
            block.rel = self.draw.choice(self.log.tables).rel

    def other_pruned(self, record):
        lists = [it for it in (record.died, record.freed) if it]
        if lists and not (record.redirected and self.draw.random() < 0.3):
            lines = self.draw.choice(lists)
            lines[self.draw.randrange(len(lines))] = self.draw.randrange(1, 9)
        else:
            record.redirected[0] = record.redirected[0][0], self.draw.randrange(1, 9)

    def other_plan(self, record):
        at = self.draw.randrange(len(record.plans))
        xmax, mask2, mask, lines = record.plans[at]
        record.plans[at] = self.draw.choice([
            (self.deleter(mask & 0x1000 > 0), mask2, mask, lines), (xmax, mask2, mask ^ self.draw.choice(MARKS), lines),
            (xmax, mask2, mask, [self.draw.randrange(1, 9)] + lines[1:])])

    def other_tuple(self, record):
        new = self.draw.choice(record.blocks[0].tuples)
        new.mask ^= self.draw.choice(MARKS)

    def other_image(self, record):
        """Another mark, inserter or deleter of a tuple of an image."""
        items = self.draw.choice([block for block in record.blocks if block.applied()]).image.items
        lines = [at for at, it in enumerate(items) if isinstance(it, bytes)]
        if lines:
            at = self.draw.choice(lines)
            head = header(items[at])
            what = self.draw.choice([7, 7, 7, 0, 1, 2])
            other = {7: head[7] ^ self.draw.choice(MARKS), 1: self.deleter(head[7] & 0x1000 > 0)}
            head[what] = other.get(what, self.xid())
            items[at] = with_header(items[at], head)
