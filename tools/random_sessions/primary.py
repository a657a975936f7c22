"""A primary that writes a random log: it keeps pages, transactions and locks, and each record that it writes is one that
it could write then. What it wrote is tested afterwards by legal.py."""
import struct

from wal_bytes import PAGE, Wal

from . import records
from .changes import HeapChanges
from .definitions import Definitions, Log, deleter_shown, masks, xmin
from .multixacts import Multixacts
from .pages import NoRedo, changed, header, is_left, is_tuple, item, redo, with_header
from .records import Block, Image, Record
from .transactions import DATABASE, FOREIGN, Transactions

SEGMENT = 16 << 20
START = 2 * SEGMENT + 0x28


class Primary(HeapChanges, Multixacts, Transactions):
    def __init__(self, draw, tables):
        self.draw, self.tables = draw, tables
        self.wal = Wal(START, 2 * SEGMENT - 0x68, system=7, segsize=SEGMENT)
        self.log = Log([], tables, {}, DATABASE, START)
        self.d = Definitions(self.log)
        self.by_rel = {table.rel: table for table in tables}
        self.pages, self.renewed, self.speculative = {}, set(), {}
        self.redo, self.redo_next = None, 0
        self.chance_of_image = draw.choice([0, 0.05, 0.3])
        self.begin_transactions()
        self.begin_multixacts()

    @property
    def n(self):
        return len(self.log.records)

    def chance(self, p):
        return self.draw.random() < p

    # Writing.

    def write(self, record):
        """Writes a record, with the images that it needs; answers whether it could be written."""
        try:
            for block in record.blocks:
                if block.rel in self.by_rel:
                    self.with_image(record, block)
            redo(record, self.by_rel, self.pages)
        except NoRedo:
            return False
        record.start, record.end = records.place(self.wal, record)
        self.log.records.append(record)
        self.d.tell(self.n - 1, record)
        for block in record.blocks:
            if not is_left(record, block):
                self.renewed.add((block.rel, block.number))
        return True

    def with_image(self, record, block):
        """Each first change of a block behind a redo position restores its image, or makes it anew."""
        needs = (block.rel, block.number) not in self.renewed and not block.init and not is_left(record, block)
        if record.kind == "images" or not (needs or self.chance(self.chance_of_image)):
            return
        if record.kind == "visible" and not self.chance(0.3):
            return
        before = self.pages.get((block.rel, block.number))
        if before is None and not block.init and not (needs and block.number >= self.d.blocks(block.rel, self.n)):
            raise NoRedo("no page")
        items = changed(record, block, before or [])
        block.image = Image(self.hinted(items, before or []), needs or self.chance(0.7))
        block.keeps = self.chance(0.2)

    def hinted(self, items, before):
        """The items as the primary's own page shows them, with some marks that are true by now; `before` are those that it
        showed before the record."""
        return [self.with_hints(it, is_tuple(item(before, line))) if is_tuple(it) else it
                for line, it in enumerate(items, 1)]

    def with_hints(self, it, is_older):
        head, mask, inserter = header(it), masks(it)[1], xmin(it)
        shown = deleter_shown(it)
        deleter = self.d.deleting(shown, self.n)
        if mask & 0x0300 == 0 and inserter and self.chance(0.6):
            mask |= 0x0100 if self.d.committed(inserter, self.n) else 0x0200 if self.d.failed(inserter, self.n) else 0
        if deleter is not None and self.chance(0.6):
            mask |= 0x0400 if self.d.committed(deleter, self.n) else 0x0800 if self.d.failed(deleter, self.n) else 0
        if deleter is None and not self.locks_still(head) and self.chance(0.4):
            mask |= 0x0800
        if deleter is None and shown is not None and is_older and self.chance(0.2):
            mask |= 0x0400
        if self.chance(0.1):
            head[2] = self.draw.randrange(5)
        head[7] = mask
        return with_header(it, head)

    # Locks and checkpoints.

    def lock(self, table=None):
        xid = self.some_xid()
        if xid is None:
            return False
        entries = []
        for _ in range(self.draw.choice([1, 1, 1, 2, 3])):
            oid = (table or self.draw.choice(self.tables)).oid if self.chance(0.7) else self.draw.choice([1259, 30011])
            entries.append((xid, DATABASE if self.chance(0.9) else self.draw.choice([0, 16999]), oid))
        return self.write(Record("locks", xid if self.chance(0.8) else 0, entries=entries))

    def begin_checkpoint(self):
        """From the next record on each block is renewed."""
        if self.redo is not None:
            return self.finish_checkpoint()
        self.redo, self.redo_next = self.n, self.next
        self.renewed.clear()
        return True

    def finish_checkpoint(self):
        """The locks in force are written again, then the running transactions, and soon the checkpoint."""
        entries = []
        for table in self.tables:
            held = {xid for xid, _ in self.d.locks(table, self.n) if self.d.live(xid, self.n)}
            since = {xid for xid, _ in self.d.locks(table, self.n, self.redo)} if self.chance(0.5) else set()
            entries += [(xid, DATABASE, table.oid) for xid in sorted(held - since)]
        if entries:
            self.write(Record("locks", 0, entries=entries))
        if not self.running():
            return False
        for _ in range(self.draw.choice([0, 0, 1, 2])):
            self.draw.choice([self.insert, self.end, self.delete])()
        redo = self.log.records[self.redo].start
        done = self.write(Record("checkpoint", 0, redo=redo, next=self.redo_next, shutdown=False))
        self.redo = None
        return done

    def shutdown(self):
        """At most the transactions that are left are given up; the next id may be a later one."""
        for xid in self.live_tops() if self.chance(0.7) else ():
            self.write(Record("abort", xid, subs=self.live_subs(xid), files=[], inside=False))
        self.next = min(self.next + self.draw.choice([0, 0, 1, 3]), 4294967290)
        self.redo = None
        self.renewed.clear()
        at = self.wal.at
        start = at + (40 if at % SEGMENT == 0 else 24) if at % PAGE == 0 else at
        return self.write(Record("checkpoint", 0, redo=start, next=self.next, shutdown=True))

    # What changes no row.

    def pass_over(self):
        """A record of another kind, which a standby passes over."""
        draw, text = self.draw, bytes(self.draw.randrange(1, 60))
        manager, info, main = draw.choice([
            (0, 0x20, text), (0, 0x30, bytes(4)), (0, 0x70, bytes(72)), (0, 0x80, b"\1"), (3, 0x00, bytes(4)),
            (0, 0x60, b"\1\0\0\0" * 5 + b"\2\0\0\0" + bytes(4)), (1, 0x60, bytes(4)), (2, 0x10, bytes(16)),
            (8, 0x20, bytes(16)), (11, 0x00, text), (15, 0x00, text), (21, 0x00, text), (10, 0x30, bytes(12)),
            (4, 0x00, b"\1\0\0\0" + bytes(12)), (200, 0x00, text)])
        xids = [0] + self.live()
        return self.write(Record("other", draw.choice(xids), manager=manager, info=info, main=main))

    def foreign(self):
        """A record of a table that is not described; removals there may cancel scans all the same."""
        rel, draw = self.draw.choice(FOREIGN), self.draw
        horizon = draw.choice([0, 0, self.some_horizon()])
        block = Block(rel, draw.randrange(4))
        return self.write(draw.choice([
            Record("prune", 0, [block], horizon=horizon, redirected=[], died=[1], freed=[2]),
            Record("freeze", 0, [block], horizon=horizon, plans=[(0, 2, 0x0B00, [1, 2])]),
            Record("visible", 0, [Block(rel, 1, id=1)], horizon=horizon, flags=1),
            Record("delete", draw.choice([0] + self.live()), [block], xmax=3, line=1, bits=0, flags=0)]))

    def switch(self):
        """The log goes on in the next segment."""
        if sum(record.kind == "switch" for record in self.log.records) > 1:
            return False
        return self.write(Record("switch"))

    def give_up(self):
        """A record is begun up to its page's end and given up (XLOG_OVERWRITE_CONTRECORD)."""
        at = self.wal.at
        if at % PAGE == 0:
            return False
        lost = Record("other", 0, manager=0, info=0xD0, main=struct.pack("<Qq", at, 0))
        lost.given_up = PAGE - at % PAGE
        return self.write(lost)

    def backup_end(self):
        redo = START if self.chance(0.8) else START + 8
        return self.write(Record("backup-end", 0, redo=redo))

    # The whole log.

    def begin(self):
        """How the log begins: mostly as it does behind a base backup, where transactions may already be under way."""
        kind = self.draw.random()
        for _ in range(self.draw.choice([0, 0, 1, 3, 5])):
            self.some_xid()
        for _ in range(self.draw.choice([0, 0, 1, 2])):
            self.nest()
        self.choose_lasting()
        for _ in range(self.draw.randrange(3, 25) if kind < 0.2 else 0):
            self.draw.choice([self.insert, self.insert, self.update, self.delete, self.end, self.lock_row])()
        if kind < 0.85:
            next = self.next if self.n == 0 else max(3, self.next - self.draw.randrange(3))
            self.running()
            self.write(Record("checkpoint", 0, redo=START, next=next, shutdown=False))
            self.write(Record("backup-end", 0, redo=START))
        elif kind < 0.93:
            self.shutdown()

    def play(self, count):
        """Writes about so many records."""
        self.begin()
        weights = {name: base * self.draw.choice([0.2, 1, 1, 3]) for name, base in WEIGHTS.items()}
        if self.chance(0.3):
            weights.update({name: 0 for name in CANCELLING})
        names, tries = list(weights), 0
        while self.n < count and tries < 4 * count:
            getattr(self, self.draw.choices(names, weights.values())[0])()
            tries += 1
        if self.redo == self.n:
            self.redo = None
        if self.chance(0.5):
            self.running()
        if self.chance(0.8):
            self.write(Record("backup-end", 0, redo=START))
        return self


WEIGHTS = {
    "insert": 14, "multi_insert": 4, "delete": 10, "update": 12, "lock_row": 6, "multixact": 1, "speculate": 3,
    "resolve": 4, "prune": 10, "vacuum": 4, "freeze": 6, "visible": 3, "images": 3, "whole_page": 1.5, "truncate": 4,
    "lock": 1, "end": 22, "nest": 2, "assign": 5, "running": 3, "begin_checkpoint": 3, "shutdown": 0.5, "pass_over": 3,
    "foreign": 1.5, "switch": 0.3, "backup_end": 0.5, "give_up": 0.3}

# what may cancel a scan: a log without it shows what becomes of one that stays open
CANCELLING = ["prune", "freeze", "visible", "truncate", "lock", "foreign"]
