"""Logs in words: each item of a log is a record in a line's notation, and comes out as its exact bytes.

Between semicolons stand items `POSITION RECORD`; the position may be left out, and is tested where it stands (of
0/2000100 in the log of segment 2 the part 100 is enough). A lone position is the log's end so far. Records:

    running next N oldest N latest N [overflow] [subs X ..] [xids X ..]     running transactions
    checkpoint redo L next N oldest N [shutdown]      backup-end L      eor TLI from TLI
    insert X B,L (VALUES) [init|image] [in TABLE]     hot X B,L to L (VALUES) [prefix N] [suffix N] [by XMAX bits N]
    update X B,L to B,L (VALUES) [init] [prefix N] [suffix N] [by XMAX bits N]
    multi-insert X block B (VALUES) (VALUES) .. [frozen]    into a page made anew
    delete X B,L [by XMAX bits N] [image]
    lock-row X B,L by XMAX bits N [image]             lock-row X B,L multi N [image]    by N bits 1
    multi N members X STATUS, .. [offset N] [by X]    a multixact; X..X STATUS for members one after the other
    prune X block B [redirect L-L ..] [dead L ..] [unused L ..]
    vacuum block B unused L .. [image]                dead lines become unused
    freeze X block B plan INFOMASK [by XMAX] lines L ..
    visible X block B flags N [image]                 the map's block is that of B, the heap's block 1
    commit X [subs X ..] [drops TABLE]                abort X [subs X ..]
    assign X subs X ..         lock X TABLE           truncate X TABLE to B
    switch      overwrite L    pad L     restore NAME
    record ..                  a record by its fields (record_notation.py)
    give-up N RECORD           the first N bytes of a record, up to a page's end, and a page that says so
    linked L RECORD            a record that names L as the record before
    for A..B ITEM              the item with each number from A to B in the place of `#`; `#%25+1` is reckoned of it,
                               from left to right
    rounds A..B ITEM & ITEM .. the items, one after another, with each number in the place of `@`, which is reckoned
                               in the same way
    poke L HEX                 turns bytes that were written into others
    hint B,L HEX               marks that the page's own tuple bears from here on: no record, but images show them
    prelude                    running, checkpoint and backup-end as a log begins behind a backup

Where no `by` names the xmax of a delete or an update, it is X, with the bits 16 or 0 (heapam_xlog.h: 1 a multixact, 2
lock only, 4 exclusive, 8 key share, 16 keys updated). The record of a multixact has the xid behind its `by`, else that
of its last member, which mostly makes it.

Values are a row's of the table that is named, else of t: (1,one), with `null`, `external`, or `x*40` for 40 times
the character. The tables are t (file 16385; id int4, note text) and u (file 16390; id int4), in database 16384."""
import copy
import operator
import re
import struct

from heap_bytes import EXTERNAL, Page, T, U, form, mark, tuple_bytes
from record_notation import bytes_of, record_of
from wal_bytes import Block, Body, Mismatch, Wal, lsn, pos


# how many heap pages one page of the visibility map has two bits for (visibilitymap.c)
VISIBLE_PER_PAGE = (8192 - 24) * 4


def numbers(words):
    """`701 703`, `701..764`: a list of numbers."""
    out = []
    for word in words:
        first, _, last = word.partition("..")
        out += range(int(first), int(last or first) + 1)
    return out


STEPS = {"+": operator.add, "-": operator.sub, "*": operator.mul, "/": operator.floordiv, "%": operator.mod}


def counted(text, number, place="#"):
    """The text with the number in each such place, or what is reckoned of it, as `#%25+1`."""
    def reckoned(match):
        out = number
        for sign, by in re.findall(r"([-+*/%])(\d+)", match[1]):
            out = STEPS[sign](out, int(by))
        return str(out)
    return re.sub(place + r"((?:[-+*/%]\d+)*)", reckoned, text)


def repeated(items):
    """The items, of which `for A..B ITEM` stands for one with each number in the place of `#`, and
    `rounds A..B ITEM & ITEM ..` for all of them with each number in the place of `@`."""
    for item in items:
        match = re.match(r"(for|rounds) (\d+)\.\.(\d+) (.*)$", item)
        if match is None:
            yield item
            continue
        for number in range(int(match[2]), int(match[3]) + 1):
            if match[1] == "for":
                yield counted(match[4], number)
            else:
                yield from repeated(counted(match[4], number, "@").split(" & "))


class Log:
    """A log, record after record, with the heap pages that its records leave."""

    def __init__(self, at, prev, base=None, segsize=16 << 20, tables=(T, U), system=7, tli=1):
        self.base = at - at % segsize if base is None else base
        self.wal = Wal(at, prev, tli, system, segsize)
        self.tables = {table.name: table for table in tables}
        self.table = tables[0]
        self.pages = {}
        self.part = None            # how many bytes of the next record are written before it is given up

    # -- placing

    def add(self, body, touched=()):
        if self.part is not None:
            return self.wal.give_up(body, self.part), None
        start, end = self.wal.add(body)
        for page in touched:
            page.lsn = end
        return start, end

    def page(self, table, block, new=False):
        if new or (table.name, block) not in self.pages:
            self.pages[table.name, block] = Page()
        return self.pages[table.name, block]

    # -- records without blocks

    def running(self, next, oldest, latest, xids=(), overflow=False, subs=()):
        main = struct.pack("<iiBxxxIII", len(xids), len(subs), overflow, next & 0xFFFFFFFF,
                           oldest & 0xFFFFFFFF, latest & 0xFFFFFFFF)
        main += b"".join(struct.pack("<I", x) for x in [*xids, *subs])
        return self.add(Body(8, 0x10, 0, main))

    def checkpoint(self, redo, next, oldest, tli=1, prev_tli=1, shutdown=False,
                   next_multi=1, next_member=0, oldest_multi=1):
        main = bytearray(88)
        struct.pack_into("<QIIB", main, 0, redo, tli, prev_tli, 1)
        struct.pack_into("<Q", main, 24, next)
        struct.pack_into("<II", main, 36, next_multi, next_member)
        struct.pack_into("<I", main, 52, oldest_multi)
        struct.pack_into("<I", main, 80, oldest & 0xFFFFFFFF)
        return self.add(Body(0, 0x00 if shutdown else 0x10, 0, bytes(main)))

    def backup_end(self, start):
        return self.add(Body(0, 0x50, 0, struct.pack("<Q", start)))

    def eor(self, tli, prev_tli):
        return self.add(Body(0, 0x90, 0, struct.pack("<qII", 0, tli, prev_tli)))

    def noop(self, count):
        return self.add(Body(0, 0x20, 0, bytes(count)))

    def pad(self, to):
        room = self.wal.room_to(to) - 24
        return self.noop(room - 2 if room - 2 <= 255 else room - 5)

    def switch(self):
        return self.add(Body(0, 0x40))

    def overwrite(self, at):
        return self.add(Body(0, 0xD0, 0, struct.pack("<Qq", at, 0)))

    def restore(self, name):
        return self.add(Body(0, 0x70, 0, struct.pack("<q64s", 0, name.encode())))

    def end_xact(self, info, xid, subs=(), drops=()):
        main = bytes(8)
        xinfo = (2 if subs else 0) | (0x44 if drops else 0)
        if xinfo:
            info |= 0x80
            main += struct.pack("<I", xinfo)
        if subs:
            main += struct.pack("<i", len(subs)) + b"".join(
                struct.pack("<I", x & 0xFFFFFFFF) for x in subs)
        if drops:
            main += struct.pack("<i", len(drops)) + b"".join(
                struct.pack("<III", *table.rel) for table in drops)
        return self.add(Body(1, info, xid, main))

    def commit(self, xid, subs=(), drops=()):
        return self.end_xact(0x00, xid, subs, drops)

    def abort(self, xid, subs=()):
        return self.end_xact(0x20, xid, subs)

    def assign(self, top, subs):
        main = struct.pack("<Ii", top, len(subs)) + b"".join(struct.pack("<I", x) for x in subs)
        return self.add(Body(1, 0x50, top, main))

    def lock(self, xid, table):
        return self.add(Body(8, 0x00, xid, struct.pack("<iIII", 1, xid, table.db, table.oid)))

    def truncate(self, xid, table, block):
        return self.add(Body(2, 0x20, xid, struct.pack("<IIIIi", block, *table.rel, 7)))

    def multi(self, xid, id, members, offset=0):
        """XLOG_MULTIXACT_CREATE_ID (multixact.h); members are (xid, status)."""
        main = struct.pack("<IIi", id, offset, len(members))
        main += b"".join(struct.pack("<Ii", x & 0xFFFFFFFF, s) for x, s in members)
        return self.add(Body(6, 0x20, xid, main))

    # -- heap records (heapam_xlog.h)

    def block(self, table, number, data=b"", init=False, image=False):
        """A block reference; with an image its data is left out."""
        if image:
            text, hole = self.page(table, number).image()
            return Block(table.rel, number, b"", init, text, hole)
        return Block(table.rel, number, data, init)

    def insert(self, xid, block, line, values, how="", table=None):
        table = table or self.table
        mask, hoff, rest = form(table.columns, values)
        mask, mask2 = mask | 0x0800, len(table.columns)
        init = "init" in how
        page = self.page(table, block, init)
        page.put(line, tuple_bytes(xid, (block, line), mask2, mask, hoff, rest))
        data = struct.pack("<HHB", mask2, mask, hoff) + rest
        ref = self.block(table, block, data, init, "image" in how)
        info = 0x80 if init else 0x00
        return self.add(Body(10, info, xid, struct.pack("<HB", line, 0), [ref]), [page])

    def multi_insert(self, xid, block, rows, table=None, frozen=False):
        """Into a page made anew: lines 1 to the count of rows; frozen as COPY FREEZE writes them."""
        table = table or self.table
        page, data = self.page(table, block, True), b""
        for line, values in enumerate(rows, 1):
            mask, hoff, rest = form(table.columns, values)
            mask, mask2 = mask | (0x0B00 if frozen else 0x0800), len(table.columns)
            page.put(line, tuple_bytes(xid, (block, line), mask2, mask, hoff, rest))
            data += bytes(len(data) % 2)
            data += struct.pack("<HHHB", len(rest), mask2, mask, hoff) + rest
        main = struct.pack("<BxH", 0x20 if frozen else 0, len(rows))
        ref = Block(table.rel, block, data, True)
        return self.add(Body(9, 0xD0, xid, main, [ref]), [page])

    def update(self, xid, old, new, values, hot=False, prefix=0, suffix=0, init=False,
               images=(), table=None, xmax=None, bits=0):
        """`images` holds the blocks that carry their image."""
        table, xmax = table or self.table, xid if xmax is None else xmax
        mask, hoff, rest = form(table.columns, values)
        mask, mask2 = mask | 0x0800, len(table.columns) | (0x8000 if hot else 0)
        old_page = self.page(table, old[0])
        mark(old_page.lines[old[1] - 1], xmax, bits, new, hot)
        new_page = self.page(table, new[0], init)
        new_page.put(new[1], tuple_bytes(xid, new, mask2, mask, hoff, rest))
        fixed, user = rest[:hoff - 23], rest[hoff - 23:]
        data = (struct.pack("<H", prefix) if prefix else b"") + \
               (struct.pack("<H", suffix) if suffix else b"") + \
            struct.pack("<HHB", mask2, mask, hoff) + fixed + user[prefix:len(user) - suffix]
        refs = [self.block(table, new[0], data, init, new[0] in images)]
        if old[0] != new[0]:
            refs.append(self.block(table, old[0], b"", False, old[0] in images))
        flags = (0x20 if prefix else 0) | (0x40 if suffix else 0)
        main = struct.pack("<IHBBIH", xmax & 0xFFFFFFFF, old[1], bits, flags, 0, new[1])
        info = (0x40 if hot else 0x20) | (0x80 if init else 0)
        return self.add(Body(10, info, xid, main, refs), {old_page, new_page})

    def delete(self, xid, block, line, image=False, table=None, xmax=None, bits=16):
        table, xmax = table or self.table, xid if xmax is None else xmax
        page = self.page(table, block)
        mark(page.lines[line - 1], xmax, bits, (block, line))
        main = struct.pack("<IHBB", xmax & 0xFFFFFFFF, line, bits, 0)
        ref = self.block(table, block, b"", False, image)
        return self.add(Body(10, 0x10, xid, main, [ref]), [page])

    def lock_row(self, xid, block, line, xmax, bits=1, image=False, table=None):
        """A mark that is not lock-only leaves HOT flag and ctid as they were."""
        table = table or self.table
        page = self.page(table, block)
        tup = page.lines[line - 1]
        ctid = (struct.unpack_from("<H", tup, 12)[0] << 16 | struct.unpack_from("<H", tup, 14)[0],
                struct.unpack_from("<H", tup, 16)[0])
        hot = bool(struct.unpack_from("<H", tup, 18)[0] & 0x4000)
        if bits & 2:
            ctid, hot = (block, line), False
        mark(tup, xmax, bits, ctid, hot)
        main = struct.pack("<IHBB", xmax & 0xFFFFFFFF, line, bits, 0)
        ref = self.block(table, block, b"", False, image)
        return self.add(Body(10, 0x60, xid, main, [ref]), [page])

    def prune(self, horizon, block, redirects=(), dead=(), unused=(), image=False, table=None):
        table = table or self.table
        page = self.page(table, block)
        for source, target in redirects:
            page.lines[source - 1] = target
        for line in dead:
            page.lines[line - 1] = "dead"
        for line in unused:
            page.lines[line - 1] = None
        while page.lines and page.lines[-1] is None:
            page.lines.pop()
        flat = [n for pair in redirects for n in pair] + [*dead, *unused]
        data = struct.pack("<%dH" % len(flat), *flat)
        main = struct.pack("<IHHB", horizon & 0xFFFFFFFF, len(redirects), len(dead), 0)
        ref = self.block(table, block, data, False, image)
        return self.add(Body(9, 0x10, 0, main, [ref]), [page])

    def vacuum(self, block, unused, image=False, table=None):
        table = table or self.table
        page = self.page(table, block)
        for line in unused:
            page.lines[line - 1] = None
        while page.lines and page.lines[-1] is None:
            page.lines.pop()
        ref = self.block(table, block, struct.pack("<%dH" % len(unused), *unused), False, image)
        return self.add(Body(9, 0x20, 0, struct.pack("<H", len(unused)), [ref]), [page])

    def visible(self, horizon, block, flags, image=False, table=None):
        """The mark of the heap's page itself is left out of its image."""
        table = table or self.table
        refs = [Block(table.rel, block // VISIBLE_PER_PAGE, fork=2), self.block(table, block, b"", False, image)]
        main = struct.pack("<IB", horizon & 0xFFFFFFFF, flags)
        return self.add(Body(9, 0x40, 0, main, refs), [self.page(table, block)] if image else [])

    def freeze(self, horizon, block, plans, table=None):
        """Plans are (infomask, xmax, lines); infomask2 is the number of columns."""
        table = table or self.table
        page, head, tail = self.page(table, block), b"", b""
        mask2 = len(table.columns)
        for mask, xmax, lines in plans:
            head += struct.pack("<IHHBBH", xmax & 0xFFFFFFFF, mask2, mask, 0, 0, len(lines))
            tail += struct.pack("<%dH" % len(lines), *lines)
            for line in lines:
                struct.pack_into("<I", page.lines[line - 1], 4, xmax & 0xFFFFFFFF)
                struct.pack_into("<HH", page.lines[line - 1], 18, mask2, mask)
        main = struct.pack("<IHB", horizon & 0xFFFFFFFF, len(plans), 0)
        ref = Block(table.rel, block, head + tail)
        return self.add(Body(9, 0x30, 0, main, [ref]), [page])

    # -- the notation

    def prelude(self):
        """Running transactions, a checkpoint and the backup's end, as a log begins behind a backup."""
        first = self.wal.start()
        self.running(700, 700, 699)
        self.checkpoint(first, 700, 700)
        return self.backup_end(first)

    def where(self, word):
        return pos(word) if "/" in word else self.base + int(word, 16)

    def play(self, items):
        for item in repeated(items):
            match = re.match(r"([0-9A-F]+/[0-9A-F]+|[0-9A-F]+)(?:\s+(.*))?$", item)
            stated, text = (self.where(match[1]), match[2]) if match else (None, item)
            got = self.wal.at if text is None else self.item(text)
            if stated is not None and got != stated:
                raise Mismatch("`%s` stands at %s" % (item, lsn(got)))
        return self

    def item(self, text):
        """One item; answers where it stands."""
        words = re.sub(r"\([^)]*\)", " ", text).split()
        rows = [row.split(",") for row in re.findall(r"\(([^)]*)\)", text)]
        read = getattr(self, "read_" + words[0].replace("-", "_"), None)
        if read is None:
            raise ValueError("unknown notation: " + text)
        return read(Words(words[1:], rows, text))

    def values(self, row, table):
        return [cell(kind, text) for (_, kind), text in zip(table.columns, row)]

    def read_prelude(self, _):
        return self.prelude()[0] - 0xB0

    def read_record(self, words):
        return self.add(record_of(words.text.split()[1:]))[0]

    def read_poke(self, words):
        self.wal.poke(self.where(words.list[0]), bytes_of(words.list[1]))
        return self.where(words.list[0])

    def read_linked(self, words):
        self.wal.prev = self.where(words.list[0])
        return self.item(words.text.split(None, 2)[2])

    def read_give_up(self, words):
        kept = copy.deepcopy(self.pages)
        self.part = int(words.list[0])
        start = self.item(words.text.split(None, 2)[2])
        self.part, self.pages = None, kept
        return start

    def read_running(self, words):
        return self.running(words.number("next"), words.number("oldest"), words.number("latest"),
                            words.numbers("xids"), words.has("overflow"), words.numbers("subs"))[0]

    def read_checkpoint(self, words):
        return self.checkpoint(self.where(words.after("redo")), words.number("next"),
                               words.number("oldest"), shutdown=words.has("shutdown"))[0]

    def read_backup_end(self, words):
        return self.backup_end(self.where(words.list[0]))[0]

    def read_eor(self, words):
        return self.eor(int(words.list[0]), words.number("from"))[0]

    def read_insert(self, words):
        table, (block, line) = words.table(self), words.place(1)
        how = [w for w in words.list if w in ("init", "image")]
        return self.insert(int(words.list[0]), block, line, self.values(words.rows[0], table),
                           how[0] if how else "", table)[0]

    def read_multi_insert(self, words):
        rows = [self.values(row, self.table) for row in words.rows]
        return self.multi_insert(int(words.list[0]), words.number("block"), rows, frozen=words.has("frozen"))[0]

    def read_hot(self, words):
        old = words.place(1)
        return self.update(int(words.list[0]), old, (old[0], words.number("to")),
                           self.values(words.rows[0], self.table), True,
                           words.number("prefix", 0), words.number("suffix", 0), **words.deleter())[0]

    def read_update(self, words):
        new = tuple(map(int, words.after("to").split(",")))
        return self.update(int(words.list[0]), words.place(1), new,
                           self.values(words.rows[0], self.table), False,
                           words.number("prefix", 0), words.number("suffix", 0), words.has("init"),
                           **words.deleter())[0]

    def read_delete(self, words):
        return self.delete(int(words.list[0]), *words.place(1), words.has("image"), **words.deleter())[0]

    def read_lock_row(self, words):
        by = words.deleter() or {"xmax": words.number("multi"), "bits": 1}
        return self.lock_row(int(words.list[0]), *words.place(1), image=words.has("image"), **by)[0]

    def read_prune(self, words):
        redirects = [tuple(map(int, w.split("-"))) for w in words.list if re.match(r"\d+-\d+$", w)]
        return self.prune(int(words.list[0]), words.number("block"), redirects,
                          words.numbers("dead"), words.numbers("unused"))[0]

    def read_vacuum(self, words):
        return self.vacuum(words.number("block"), words.numbers("unused"), words.has("image"))[0]

    def read_visible(self, words):
        return self.visible(int(words.list[0]), words.number("block"), words.number("flags"), words.has("image"))[0]

    def read_freeze(self, words):
        plans = re.findall(r"plan ([0-9A-F]{4})(?: by (\d+))? lines ([0-9 ]+)", words.text)
        return self.freeze(int(words.list[0]), words.number("block"),
                           [(int(m, 16), int(x or 0), numbers(n.split())) for m, x, n in plans])[0]

    def read_multi(self, words):
        runs = re.findall(r"([0-9.]+) (\d+)", re.split(r"members|offset|by", words.text)[1])
        members = [(xid, int(status)) for run, status in runs for xid in numbers([run])]
        by = words.number("by", members[-1][0] if members else 0)
        return self.multi(by, int(words.list[0]), members, words.number("offset", 0))[0]

    def read_hint(self, words):
        block, line = words.place(0)
        tup = self.page(self.table, block).lines[line - 1]
        struct.pack_into("<H", tup, 20, struct.unpack_from("<H", tup, 20)[0] | int(words.list[1], 16))
        return self.wal.at

    def read_commit(self, words):
        drops = [self.tables[words.after("drops")]] if words.has("drops") else ()
        return self.commit(int(words.list[0]), words.numbers("subs"), drops)[0]

    def read_abort(self, words):
        return self.abort(int(words.list[0]), words.numbers("subs"))[0]

    def read_assign(self, words):
        return self.assign(int(words.list[0]), words.numbers("subs"))[0]

    def read_lock(self, words):
        return self.lock(int(words.list[0]), self.tables[words.list[1]])[0]

    def read_truncate(self, words):
        return self.truncate(int(words.list[0]), self.tables[words.list[1]], words.number("to"))[0]

    def read_switch(self, _):
        return self.switch()[0]

    def read_overwrite(self, words):
        return self.overwrite(self.where(words.list[0]))[0]

    def read_pad(self, words):
        return self.pad(self.where(words.list[0]))[0]

    def read_restore(self, words):
        return self.restore(words.list[0])[0]


class Words:
    """The words of an item behind its kind, and the rows that it has in brackets."""

    def __init__(self, words, rows, text):
        self.list, self.rows, self.text = words, rows, text

    def has(self, name):
        return name in self.list

    def after(self, name):
        return self.list[self.list.index(name) + 1]

    def number(self, name, default=None):
        return default if default is not None and not self.has(name) else int(self.after(name))

    def numbers(self, name):
        """The numbers that stand behind a name."""
        if not self.has(name):
            return []
        rest = self.list[self.list.index(name) + 1:]
        end = next((i for i, word in enumerate(rest) if not re.match(r"\d+(\.\.\d+)?$", word)), len(rest))
        return numbers(rest[:end])

    def place(self, index):
        return tuple(map(int, self.list[index].split(",")))

    def deleter(self):
        """The xmax of a delete, an update or a lock, and its bits, where they stand."""
        return {"xmax": self.number("by"), "bits": self.number("bits")} if self.has("by") else {}

    def table(self, log):
        return log.tables[self.after("in")] if self.has("in") else log.table


def cell(kind, text):
    if text == "null":
        return None
    if text == "external":
        return EXTERNAL
    if kind == "int4":
        return int(text)
    many = re.match(r"(.)\*(\d+)$", text)
    return many[1] * int(many[2]) if many else text
