"""The random primary's changes of its tables: which rows it inserts, deletes, updates, locks, removes and freezes."""
from .definitions import ALWAYS, NOBODY, lock_only, masks, version_at
from .multixacts import XMAX_MARKS
from .pages import born, header, is_tuple, item, room
from .records import Block, Image, NewTuple, Record
from .values import COMPRESSED, EXTERNAL, NEITHER, formed

from wal_bytes import PAGE

WORDS = ["", "one", "two", "a\tb", "back\\slash", "line\nend", "return\r", "grüße", "x" * 126, "y" * 127, "z" * 900]


class HeapChanges:
    # Values and places.

    def value(self, column):
        draw, kind = self.draw, column.kind
        if self.chance(0.12):
            return None
        if kind == "bool":
            return NEITHER if self.chance(0.004) else self.chance(0.5)
        if kind in ("int2", "int4", "int8"):
            bits = 8 * int(kind[3:]) - 1
            return draw.choice([0, 1, -1, -2 ** bits, 2 ** bits - 1, draw.randrange(-9999, 9999)])
        if kind == "oid":
            return draw.choice([0, 4294967295, draw.randrange(1 << 32)])
        if kind in ("text", "bytea"):
            if self.chance(0.01):
                return draw.choice([EXTERNAL, COMPRESSED])
            word = draw.choice(WORDS[:9] if self.chance(0.9) else WORDS)
            return word if kind == "text" else word.encode()[:200]
        return draw.randbytes({"uuid": 16, "raw4": 4, "raw8": 8}[kind])

    def tuple_of(self, table, extra=0, flags2=0):
        """A new tuple of random values, rarely with fewer columns or one more than are described."""
        columns = table.columns
        if len(columns) > 1 and self.chance(0.1):
            columns = columns[:self.draw.randrange(1, len(columns))]
        mask, hoff, rest = formed(columns, [self.value(column) for column in columns])
        count = len(columns) + (len(columns) == len(table.columns) and self.chance(0.002))
        return NewTuple(count | flags2, mask | 0x0800 | extra, hoff, rest)

    def some_table(self):
        tables = [table for table in self.tables if self.d.gone(table.rel, self.n) is None]
        return self.draw.choice(tables) if tables else None

    def holding(self, rel, test=lambda v: True):
        """The versions that hold their places and pass a test."""
        return [v for v in self.d.versions(rel, self.n) if v.holds and test(v)]

    def free_line(self, items):
        free = [line for line in range(1, len(items) + 1) if items[line - 1] is None] or [len(items) + 1]
        return self.draw.choice(free) if self.chance(0.9) else len(items) + self.draw.choice([1, 1, 2, 3])

    def some_block(self, rel):
        """A block for new tuples: one that is there, the next one, rarely a later one."""
        count = self.d.blocks(rel, self.n)
        if count and self.chance(0.85 if count < 4 else 0.97):
            return self.draw.randrange(count)
        return count + self.draw.choice([0, 0, 0, 0, 1, 2])

    def place_for(self, rel, sizes):
        """(a block reference, lines in it) for tuples of these sizes, or None."""
        number = self.some_block(rel)
        items = self.pages.get((rel, number))
        empty = not self.holding(rel, lambda v: v.block == number)
        init = empty and (items is None or (rel, number) not in self.renewed or self.chance(0.3)) and self.chance(0.8)
        items = [] if init or items is None else list(items)
        lines = []
        for size in sizes:
            line = len(lines) + 1 if init else self.free_line(items)
            if room(items, line, size) > PAGE:
                return None
            items += [None] * (line - len(items))
            items[line - 1] = bytes(size)
            lines.append(line)
        return Block(rel, number, init), lines

    # Births.

    def born_marks(self, table, xid):
        """Frozen at birth where a lock of its own transaction allows that."""
        return 0x0300 if self.d.is_under_lock(table, xid, self.n) and self.chance(0.5) else 0

    def insert(self, flags=None):
        table, xid = self.some_table(), self.some_xid()
        if table is None or xid is None:
            return False
        new = self.tuple_of(table, self.born_marks(table, xid) if flags is None else 0)
        place = self.place_for(table.rel, [23 + len(new.rest)])
        if place is None:
            return False
        block, lines = place
        block.tuples = [new]
        flags = self.draw.choice([0, 0, 1, 2, 8]) if flags is None else flags
        if not self.write(Record("insert", xid, [block], line=lines[0], flags=flags)):
            return False
        if flags & 4:
            self.speculative[table.rel, block.number, lines[0]] = xid
        return True

    def multi_insert(self):
        table, xid = self.some_table(), self.some_xid()
        if table is None or xid is None:
            return False
        marks = self.born_marks(table, xid)
        news = [self.tuple_of(table, marks) for _ in range(self.draw.choice([1, 2, 3, 5]))]
        place = self.place_for(table.rel, [23 + len(new.rest) for new in news])
        if place is None:
            return False
        block, lines = place
        block.tuples = news
        return self.write(Record("multi-insert", xid, [block], lines=lines, flags=self.draw.choice([0, 2, 0x20])))

    def speculate(self):
        return self.insert(flags=4)

    def resolve(self):
        """A speculative insertion is confirmed or taken back by its own transaction."""
        for place, xid in list(self.speculative.items()):
            rel, number, line = place
            v = version_at(self.d.versions(rel, self.n), number, line)
            is_open = v is not None and v.inserter == xid and self.d.live(xid, self.n) and self.d.gone(rel, self.n) is None
            if not is_open:
                del self.speculative[place]
            elif self.chance(0.6):
                del self.speculative[place]
                if self.chance(0.5):
                    return self.write(Record("confirm", xid, [Block(rel, number)], line=line))
                return self.write(Record("delete", xid, [Block(rel, number)], xmax=xid, line=line, bits=0, flags=0x08))
        return False

    def whole_page(self):
        """Pages at the table's end that are written whole."""
        table, xid = self.some_table(), self.some_xid()
        if table is None or xid is None:
            return False
        count, marks, blocks = self.d.blocks(table.rel, self.n), self.born_marks(table, xid), []
        for id in range(self.draw.choice([1, 1, 2])):
            items = []
            for line in range(1, self.draw.choice([1, 2, 4, 6])):
                it = self.shown_tuple(xid, count + id, line, self.tuple_of(table, marks))
                items.append(it if self.chance(0.85) else self.draw.choice(["dead", None]))
            while items and items[-1] is None:
                items.pop()
            blocks.append(Block(table.rel, count + id, image=Image(items), id=id))
        return self.write(Record("images", self.draw.choice([0, xid]), blocks, hint=False))

    def shown_tuple(self, xid, number, line, new):
        """A tuple of a page that is written whole, at times with a deleter."""
        xmax = 0
        if self.chance(0.25):
            is_multi = self.chance(self.chance_of_multi)
            xmax, marks = self.shown_multixact() if is_multi else (self.draw.choice(self.assigned), 0)
            new.mask = new.mask & ~0x0800 | marks
        return born(xid, xmax, number, line, new)

    # Deleters.

    def open_rows(self, table, xid):
        """Versions that this transaction could delete or update."""
        def test(v):
            if (table.rel, v.block, v.line) in self.speculative or v.inserter == NOBODY:
                return False
            own = v.inserter != ALWAYS and self.log.top(v.inserter) == self.log.top(xid)
            own = own and (self.d.live(v.inserter, self.n) or self.chance(0.1))
            return self.is_spent(v) and (own or v.inserter == ALWAYS or self.d.committed(v.inserter, self.n))
        return self.holding(table.rel, test)

    def is_spent(self, v):
        """The version's deleter never counts: it is none, or failed."""
        deleter = self.d.deleting(v.deleter, self.n)
        return deleter is None or self.d.failed(deleter, self.n)

    def some_row(self):
        """(table, transaction, version) for a delete, an update or a lock; or None."""
        table, xid = self.some_table(), self.some_xid()
        if table is None or xid is None:
            return None
        rows = self.open_rows(table, xid)
        return (table, xid, self.draw.choice(rows)) if rows else None

    def delete(self):
        found = self.some_row()
        if found is None:
            return False
        table, xid, v = found
        xmax, bits = self.deleter_by(xid, self.chance(0.5))
        flags = self.draw.choice([0, 0, 0, 1, 2, 0x10])
        return self.write(Record("delete", xid, [Block(table.rel, v.block)], xmax=xmax, line=v.line, bits=bits, flags=flags))

    def update(self):
        found = self.some_row()
        if found is None:
            return False
        table, xid, v = found
        old = item(self.pages[table.rel, v.block], v.line)
        hot, within = self.chance(0.4), self.chance(0.4)
        new = self.tuple_of(table, 0x2000, 0x8000 if hot else 0)
        if self.chance(0.3):
            self.store_same(new, old)
        new_xmax = self.kept_locker(old, new)
        if hot or within:
            block, lines = Block(table.rel, v.block), [self.free_line(self.pages[table.rel, v.block])]
            flags = self.shared_ends(old, new)
            blocks = [block]
        else:
            place = self.place_for(table.rel, [23 + len(new.rest)])
            if place is None:
                return False
            block, lines = place
            blocks, flags = [block], 0
            if block.number != v.block:
                blocks.append(Block(table.rel, v.block, id=1))
            elif block.init:
                return False
        block.tuples = [new]
        xmax, bits = self.deleter_by(xid, self.chance(0.5))
        return self.write(Record("update", xid, blocks, xmax=xmax, line=v.line, bits=bits,
                                 flags=flags, new_xmax=new_xmax, new_line=lines[0], hot=hot))

    def store_same(self, new, old):
        """The new version has the values of the old one."""
        mask2, mask = masks(old)
        new.mask2, new.mask = new.mask2 & ~0x07FF | mask2 & 0x07FF, new.mask & ~0x0007 | mask & 0x0007
        new.hoff, new.rest = old[22], old[23:]

    def kept_locker(self, old, new):
        """Live transactions that lock the old version's key go on to lock the new one's. A new version may also show a
        multixact whose updater failed."""
        head = header(old)
        if lock_only(head[7]) and head[7] & 0x0010 and self.locks_still(head) and self.chance(0.7):
            new.mask = new.mask & ~0x0800 | 0x0090 | head[7] & 0x1000
            return head[1]
        if self.chance(self.chance_of_multi / 5):
            new.mask = new.mask & ~0x0800 | 0x1040
            return self.make(self.with_lockers(self.failed_updater()))
        return 0

    def shared_ends(self, old, new):
        """Leaves out what the new version's values have of the old one's at their ends; answers the record's flags."""
        own = new.hoff - 23
        before, after = old[old[22]:], new.rest[own:]
        shared = min(len(before), len(after))
        prefix = next((i for i in range(shared) if before[i] != after[i]), shared)
        prefix = self.draw.choice([0, prefix, prefix, self.draw.randrange(prefix + 1)])
        suffix = next((i for i in range(shared - prefix) if before[-1 - i] != after[-1 - i]), shared - prefix)
        suffix = self.draw.choice([0, suffix, suffix, self.draw.randrange(suffix + 1)])
        new.prefix, new.suffix = prefix, suffix
        new.rest = new.rest[:own] + after[prefix:len(after) - suffix]
        return (0x20 if prefix else 0) | (0x40 if suffix else 0)

    def lock_row(self):
        """A row lock, or the same transaction as deleter once more."""
        kind = self.draw.choice(["lock", "lock", "lock-updated"])
        if self.chance(0.25):
            table = self.some_table()
            rows = self.holding(table.rel, lambda v: v.deleter is not None and v.inserter != NOBODY) if table else []
            if not rows:
                return False
            v = self.draw.choice(rows)
            xmax, bits = self.deleter_again(v)
            return self.write(Record(kind, self.draw.choice([0] + self.live()), [Block(table.rel, v.block)], xmax=xmax,
                                     line=v.line, bits=bits, flags=0))
        found = self.some_row()
        if found is None:
            return False
        table, xid, v = found
        xmax, bits = self.lock_by(xid)
        return self.write(Record(kind, xid, [Block(table.rel, v.block)], xmax=xmax, line=v.line, bits=bits, flags=0))

    # Removals.

    def some_horizon(self):
        """An id about where transactions are now."""
        return self.draw.choice([max(3, self.next - self.draw.randrange(1, 12)), self.d.least_live(self.n)])

    def horizon_for(self, needed):
        """A horizon that covers what has to be covered: mostly just that, else a later one."""
        kind = self.draw.random()
        if kind < 0.6 or self.next - needed < 2:
            return needed
        later = self.draw.randrange(needed, self.next) if needed else self.some_horizon()
        return later if kind < 0.85 else needed

    def is_removable(self, v):
        if v.inserter == NOBODY or v.inserter != ALWAYS and self.d.failed(v.inserter, self.n):
            return True
        deleter = self.d.deleting(v.deleter, self.n)
        return deleter is not None and self.d.committed(deleter, self.n)

    def needed_for(self, v):
        """The least horizon with which a version may be removed; 0 where any will do."""
        if not self.d.counts(v.inserter, self.n):
            return 0
        deleter = self.d.deleting(v.deleter, self.n)
        if v.inserter != ALWAYS and self.log.top(v.inserter) == self.log.top(deleter):
            return 0
        return self.d.least_horizon(deleter)

    def prune(self):
        table = self.some_table()
        dead = self.holding(table.rel, self.is_removable) if table else []
        if not dead:
            return False
        number = self.draw.choice(dead).block
        dead = [v for v in dead if v.block == number and self.chance(0.9)]
        if not dead:
            return False
        return self.prune_block(table, number, dead)

    def prune_block(self, table, number, dead):
        """These versions of a block are removed."""
        items, gone = self.pages[table.rel, number], {v.line for v in dead}
        redirected, died, freed = [], [], []
        for v in dead:
            self.prune_line(items, v.line, gone, redirected, died, freed)
        for line, it in enumerate(items, 1):
            if isinstance(it, int) and it in gone:
                heirs = [to for to in range(1, len(items) + 1) if is_tuple(items[to - 1]) and to not in gone]
                if heirs and self.chance(0.4):
                    redirected.append((line, self.draw.choice(heirs)))
                else:
                    died.append(line)
        least = max(self.needed_for(v) for v in dead)
        record = Record("prune", self.draw.choice([0, 0] + self.live()), [Block(table.rel, number)],
                        horizon=self.horizon_for(least), redirected=redirected, died=died, freed=freed, least=least)
        return self.write(record)

    def prune_line(self, items, line, gone, redirected, died, freed):
        """What becomes of a line whose version is removed."""
        head = header(items[line - 1])
        heir = head[5]
        if head[6] & 0x8000:
            (freed if self.chance(0.9) else died).append(line)
        elif head[6] & 0x4000 and is_tuple(item(items, heir)) and heir not in gone and self.chance(0.9):
            redirected.append((line, heir))
        else:
            (died if self.chance(0.7) else freed).append(line)

    def vacuum(self):
        table = self.some_table()
        places = [(number, line) for (rel, number), items in self.pages.items() if table and rel == table.rel
                  for line, it in enumerate(items, 1) if it == "dead"]
        if not places:
            return False
        number = self.draw.choice(places)[0]
        lines = [line for at, line in places if at == number and self.chance(0.9)]
        return bool(lines) and self.write(Record("vacuum", 0, [Block(table.rel, number)], freed=lines))

    def freeze(self):
        table = self.some_table()
        rows = self.holding(table.rel, lambda v: v.inserter != NOBODY) if table else []
        if not rows:
            return False
        number, plans, least = self.draw.choice(rows).block, {}, 0
        for v in rows:
            if v.block == number and (table.rel, number, v.line) not in self.speculative and self.chance(0.85):
                plan, needed = self.plan_for(v, self.pages[table.rel, number][v.line - 1])
                plans.setdefault(plan, []).append(v.line)
                least = max(least, needed)
        if not plans:
            return False
        return self.write(Record("freeze", 0, [Block(table.rel, number)], horizon=self.horizon_for(least), least=least,
                                 plans=[(*plan, lines) for plan, lines in plans.items()]))

    def plan_for(self, v, it):
        """((xmax, infomask2, infomask), the least horizon) with which a tuple may be frozen."""
        head, (mask2, mask), needed = header(it), masks(it), 0
        if not v.frozen and self.d.committed(v.inserter, self.n) and self.chance(0.8):
            mask, needed = mask | 0x0300, self.d.least_horizon(v.inserter)
        elif mask & 0x0300 == 0 and self.chance(0.5):
            mask |= 0x0100 if self.d.committed(v.inserter, self.n) else 0x0200 if self.d.failed(v.inserter, self.n) else 0
        if self.is_spent(v) and not self.locks_still(head) and self.chance(0.8):
            return (0, mask2 & ~0x6000, mask & ~0x14D0 | 0x0800), needed
        if mask & 0x1000 and self.chance(0.5):
            xmax, marks = self.plan_of_multixact(v, head)
            return (xmax, mask2, mask & ~XMAX_MARKS | marks), needed
        return (head[1], mask2, mask), needed

    def visible(self):
        table = self.some_table()
        count = self.d.blocks(table.rel, self.n) if table else 0
        if not count:
            return False
        block = Block(table.rel, self.draw.randrange(count), id=1)
        horizon = self.draw.choice([0, self.some_horizon()])
        return self.write(Record("visible", 0, [block], horizon=horizon, flags=self.draw.choice([1, 3])))

    def images(self):
        """Images of pages as they stand, such as those for hint bits."""
        places = [place for place in self.pages if self.d.gone(place[0], self.n) is None]
        if not places:
            return False
        blocks = []
        for id, place in enumerate(self.draw.sample(places, min(len(places), self.draw.choice([1, 1, 2, 3])))):
            items = self.pages[place]
            blocks.append(Block(*place, image=Image(self.hinted(items, items), self.chance(0.9)), id=id))
        return self.write(Record("images", self.draw.choice([0] + self.live()), blocks, hint=True))

    def truncate(self):
        table = self.some_table()
        for _ in range(self.draw.choice([1, 2, 4, 6]) if table else 0):
            self.step_to_cut(table)

    def step_to_cut(self, table):
        """One step on the way to a table that is cut: a last block whose rows failed, its removal, a lock, the cut."""
        count, holding = self.d.blocks(table.rel, self.n), self.holding(table.rel)
        least = max([v.block + 1 for v in holding] + [0])
        if self.d.gone(table.rel, self.n) is not None:
            return False
        if least == count and self.chance(0.9):
            last = [v for v in holding if v.block == count - 1]
            if last and all(self.is_removable(v) for v in last):
                return self.prune_block(table, count - 1, last)
            return self.fail_at_end(table)
        holders = [xid for xid in self.live() if self.d.is_under_lock(table, xid, self.n)]
        if not holders:
            return self.lock(table)
        left = least if self.chance(0.6) else self.draw.randrange(least, count + 2)
        xid = self.draw.choice(holders)
        return self.write(Record("truncate", xid, blocks_left=left, rel=table.rel)) and (self.chance(0.3) or self.end(xid))

    def fail_at_end(self, table):
        """A transaction puts a row into a new block, and aborts."""
        xid, number = self.some_xid(), self.d.blocks(table.rel, self.n)
        if xid is None:
            return False
        new = self.tuple_of(table)
        record = Record("insert", xid, [Block(table.rel, number, self.chance(0.7), tuples=[new])], line=1, flags=0)
        return self.write(record) and (self.chance(0.2) or self.end(xid, False))
