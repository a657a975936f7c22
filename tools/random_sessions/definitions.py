"""What a log says, by the definitions: which transactions committed or ended, which multixacts were made, the versions of
rows, rows, locks, drops and conflicts. It is reckoned from the records alone, by a fold over their steps on rows; no page
stands behind it.

A log is a list of records, oldest first; `n` is the number of records of a front of it. The definitions stand in the
crates transaction_model (Transactions), multixact (Made), row_model (Versions, Multixacts, RowSteps, Rows, Locks) and
recovery_conflict (Causes)."""
import struct
from bisect import bisect_left
from collections import namedtuple

NOBODY, ALWAYS = "nobody", "always"

# who inserted a version is a transaction, NOBODY (taken back) or ALWAYS (born frozen); its deleter is None, a transaction,
# or a multixact that stands for its updater
Multi = namedtuple("Multi", "id")
Version = namedtuple("Version", "block line inserter deleter frozen holds tuple")
Plan = namedtuple("Plan", "xmax mask2 mask")


class Log:
    """The records of a log, the described tables, and what leads from a subtransaction to its top transaction."""

    def __init__(self, records, tables, top, database, start):
        self.records, self.tables, self.database, self.start = records, tables, database, start
        self.tops = top

    def top(self, xid):
        return self.tops.get(xid, xid)


# Tuples.

def lock_only(mask):
    return mask & 0x0080 != 0 or mask & 0x1050 == 0x0040


def masks(version):
    """(infomask2, infomask)"""
    return struct.unpack_from("<HH", version, 18)


def xmin(version):
    return struct.unpack_from("<I", version, 0)[0]


def deleter_by(xmax, mask):
    """The deleter that an xmax with this infomask is."""
    if lock_only(mask) or xmax == 0:
        return None
    return Multi(xmax) if mask & 0x1000 else xmax


def deleter_shown(version):
    return deleter_by(struct.unpack_from("<I", version, 4)[0], masks(version)[1])


def is_frozen(version):
    return masks(version)[1] & 0x0300 == 0x0300


def values(version):
    return version[version[22]:]


def deleter_marked(xmax, bits):
    """The deleter that a tuple shows once a record marked it with these bits."""
    marks = (1, 0x1000), (2, 0x0080), (4, 0x0040), (8, 0x0010)
    return deleter_by(xmax, sum(mask for bit, mask in marks if bits & bit))


def deleter_planned(plan):
    return deleter_by(plan.xmax, plan.mask)


def is_update(status):
    """A member updates or deletes, and does not only lock (MultiXactStatusNoKeyUpdate, MultiXactStatusUpdate)."""
    return status in (4, 5)


def updater_among(members):
    return next((xid for xid, status in members if is_update(status)), None)


# Steps on rows: (what, block, line, ..).

def written(record, block, lines, xmax=0, old=b""):
    """Tuples that the record writes are born at these lines."""
    for line, new in zip(lines, block.tuples):
        own = new.hoff - 23
        rest = new.rest[:own] + old[:new.prefix] + new.rest[own:] + old[len(old) - new.suffix:]
        head = struct.pack("<IIIHHHHHB", record.xid, xmax, 0, block.number >> 16, block.number & 0xFFFF, line, new.mask2,
                           new.mask, new.hoff)
        yield "born", block.number, line, head + rest, False


def is_normal(items, line):
    return 0 < line <= len(items) and isinstance(items[line - 1], bytes)


def tuple_in(items, line):
    """The tuple of a line; zeros where there is none, which no transaction inserted."""
    return items[line - 1] if is_normal(items, line) else bytes(24)


def shown(block, lines):
    """Tuples that the block's image shows are born at these lines."""
    for line in lines:
        yield "born", block.number, line, tuple_in(block.applied(), line), False


def births(record, block, lines, xmax=0, old=b""):
    return written(record, block, lines, xmax, old) if block.applied() is None else shown(block, lines)


def removals(block, lines, versions):
    if block.applied() is not None:
        lines = [v.line for v in versions
                 if v.holds and v.block == block.number and not is_normal(block.applied(), v.line)]
    for line in lines:
        yield "removed", block.number, line


def freezes(record, block, versions):
    if block.applied() is None:
        for xmax, mask2, mask, lines in record.plans:
            for line in lines:
                yield "frozen", block.number, line, Plan(xmax, mask2, mask)
        return
    for v in versions:
        if v.holds and v.block == block.number:
            it = tuple_in(block.applied(), v.line)
            yield "frozen", block.number, v.line, Plan(struct.unpack_from("<I", it, 4)[0], *masks(it))


def update_steps(record, block, versions):
    apart = record.block(1) is not None
    if block.id == 1 or not apart:
        yield "deleter", block.number, record.line, deleter_marked(record.xmax, record.bits)
    if block.id == 0:
        before = None if apart else version_at(versions, block.number, record.line)
        old = values(before.tuple) if before else b""
        yield from births(record, block, [record.new_line], record.new_xmax, old)


def own_steps(record, block, versions):
    """The steps of a record in one of its blocks."""
    kind, number = record.kind, block.number
    if kind == "insert":
        yield from births(record, block, [record.line])
    elif kind == "multi-insert":
        yield from births(record, block, record.lines)
    elif kind == "delete" and record.flags & 0x08:
        yield "undone", number, record.line
    elif kind in ("delete", "lock", "lock-updated"):
        yield "deleter", number, record.line, deleter_marked(record.xmax, record.bits)
    elif kind == "update":
        yield from update_steps(record, block, versions)
    elif kind == "prune":
        lines = [line for line, _ in record.redirected] + record.died + record.freed
        yield from removals(block, lines, versions)
    elif kind == "vacuum":
        yield from removals(block, record.freed, versions)
    elif kind == "freeze":
        yield from freezes(record, block, versions)


def puts_tuples(record, block):
    return record.kind in ("insert", "multi-insert") or record.kind == "update" and block.id == 0


def block_steps(record, block, count, versions):
    """Those of a page that is written whole, at or past the table's end, and those of the record's kind."""
    if block.applied() is not None and not puts_tuples(record, block) and block.number >= count:
        for line, it in enumerate(block.applied(), 1):
            if isinstance(it, bytes):
                yield "born", block.number, line, it, True
    yield from own_steps(record, block, versions)


def steps_of(record, rel, count, versions):
    return [step for block in record.blocks if block.rel == rel for step in block_steps(record, block, count, versions)]


# Versions.

def version_at(versions, block, line):
    """The newest version that holds this place."""
    return next((v for v in reversed(versions) if v.holds and v.block == block and v.line == line), None)


def stepped(v, step):
    """A version after a step at its place."""
    if step[0] == "deleter":
        return v._replace(deleter=step[3])
    if step[0] == "undone":
        return v._replace(inserter=NOBODY)
    if step[0] == "removed":
        return v._replace(holds=False)
    return v._replace(deleter=deleter_planned(step[3]), frozen=step[3].mask & 0x0300 == 0x0300)


def with_step(versions, step):
    """The versions after a step, the newest last."""
    what, block, line = step[:3]
    if what == "born":
        it = step[3]
        inserter = ALWAYS if is_frozen(it) else xmin(it)
        return versions + [Version(block, line, inserter, deleter_shown(it), is_frozen(it), True, it)]
    return [stepped(v, step) if v.holds and v.block == block and v.line == line else v for v in versions]


def is_anew(block):
    return block.init or block.applied() is not None


def is_left(record, block):
    return record.kind in ("images", "visible") and block.applied() is None


def changes(record, rel):
    """The table's blocks that the record changes."""
    return [block for block in record.blocks if block.rel == rel and not is_left(record, block)]


def drops(record, rel):
    return record.kind == "commit" and rel in record.files


# Running transactions.

def overflows(record):
    """A running record leaves subtransactions out; one that counts no top-level id is whole."""
    return bool(record.overflow and record.tops)


def settles(record, first):
    """All running transactions are known after a record: a shutdown checkpoint, or a running record that is whole or whose
    oldest id has reached `first`, the next id of the first running record before it (None: there is none)."""
    if record.kind == "running":
        return not overflows(record) or first is not None and first <= record.oldest
    return record.kind == "checkpoint" and record.shutdown


class Definitions:
    """The definitions over one log. What is asked of each front is kept as it is first reckoned."""

    def __init__(self, log):
        self.log, self.records = log, log.records
        self.committed_from, self.finished_from, self.assigned_from, self.low = {}, {}, {}, [0]
        self.made = {}
        for n, record in enumerate(self.records):
            self.tell(n, record)
        self.rows_told = {table.rel: [([], 0)] for table in log.tables}

    def tell(self, n, record):
        """What a record says of transactions and multixacts."""
        low = self.low[-1]
        if record.kind in ("commit", "abort"):
            for xid in [record.xid] + record.subs:
                self.finished_from.setdefault(xid, n)
                if record.kind == "commit":
                    self.committed_from.setdefault(xid, n)
        elif record.kind == "assignment":
            for xid in record.subs:
                self.assigned_from.setdefault(xid, n)
        elif record.kind == "multixact" and record.id:
            self.made.setdefault(record.id, []).append((n, updater_among(record.members)))
        elif record.kind == "running":
            low = max(low, record.oldest)
        elif record.kind == "checkpoint" and record.shutdown:
            low = max(low, record.next)
        self.low.append(low)

    # Transactions. A front of n records has those numbered below n.

    def committed(self, xid, n):
        return xid in (1, 2) or self.committed_from.get(xid, n) < n

    def finished(self, xid, n):
        return xid in (1, 2) or self.finished_from.get(xid, n) < n

    def ended(self, xid, n):
        """Committed, aborted, or given up by a running record or a shutdown checkpoint."""
        return self.finished(xid, n) or xid < self.low[n]

    def live(self, xid, n):
        return xid >= 3 and not self.ended(xid, n)

    def failed(self, xid, n):
        return self.ended(xid, n) and not self.committed(xid, n)

    def least_live(self, n):
        xid = max(3, self.low[n])
        while not self.live(xid, n):
            xid += 1
        return xid

    def least_horizon(self, xid):
        """The least horizon that covers a transaction that committed: its id, or the least that was live as it did."""
        return min(xid, self.least_live(self.committed_from[xid])) if xid in self.committed_from else xid

    def covers(self, horizon, xid):
        return self.least_horizon(xid) <= horizon

    def state(self, n):
        """What a standby knows of the running transactions after n records: all, or what the first running record told, or
        nothing."""
        first = None
        for record in self.records[:n]:
            if settles(record, first):
                return "ready"
            if record.kind == "running" and first is None:
                first = record.next
        return "initialized" if first is None else "pending"

    def are_known_by_parent(self, n):
        """A live subtransaction was assigned by then."""
        return any(number < n and self.live(xid, n) for xid, number in self.assigned_from.items())

    # Multixacts. One that was made twice is as it was made last; id 0 is none.

    def updaters(self, id, n):
        """The updater of a multixact each time it was made: a transaction, or None where all its members lock."""
        return [updater for number, updater in self.made.get(id, []) if number < n]

    def was_made(self, deleter, n):
        """A deleter is no multixact, or one that was made."""
        return not isinstance(deleter, Multi) or bool(self.updaters(deleter.id, n))

    def deleting(self, deleter, n):
        """The transaction that a deleter stands for, or None."""
        if not isinstance(deleter, Multi):
            return deleter
        return next(reversed(self.updaters(deleter.id, n)), None)

    # Rows.

    def told(self, rel, n):
        """(the versions of a table after n records, how many blocks it has)"""
        told = self.rows_told[rel]
        while len(told) <= n:
            told.append(self.folded(rel, self.records[len(told) - 1], *told[-1]))
        return told[n]

    def folded(self, rel, record, versions, count):
        blocks = [block for block in record.blocks if block.rel == rel]
        for step in steps_of(record, rel, count, versions) if blocks else ():
            versions = with_step(versions, step)
        count = max([count] + [block.number + 1 for block in changes(record, rel)])
        if record.kind == "truncate" and record.rel == rel:
            count = min(count, record.blocks_left)
        return versions, count

    def versions(self, rel, n):
        return self.told(rel, n)[0]

    def blocks(self, rel, n):
        return self.told(rel, n)[1]

    def counts(self, inserter, n):
        return inserter == ALWAYS or inserter != NOBODY and self.committed(inserter, n)

    def is_row(self, v, n):
        deleter = self.deleting(v.deleter, n)
        return self.counts(v.inserter, n) and not (deleter is not None and self.committed(deleter, n))

    def rows(self, rel, n):
        """The rows after n records, in order of place."""
        return sorted((v for v in self.versions(rel, n) if self.is_row(v, n)), key=lambda v: v[:2])

    # Locks, drops and conflicts.

    def releases(self, n, xid):
        """Record n ends or gives up a transaction."""
        record = self.records[n]
        if record.kind in ("commit", "abort"):
            return xid == record.xid or xid in record.subs
        if record.kind == "running":
            return xid < record.oldest
        return record.kind == "checkpoint" and record.shutdown and xid < record.next

    def locks(self, table, n, since=0):
        """[(xid, start of the record that told it)] in force, the last one last, by the records from `since` on."""
        held = []
        for number in range(since, n):
            record = self.records[number]
            held = [lock for lock in held if not self.releases(number, lock[0])]
            if record.kind == "locks":
                held += [(xid, record.start) for xid, database, oid in record.entries
                         if database == self.log.database and oid == table.oid]
        return held

    def is_under_lock(self, table, xid, n):
        """A live transaction of its tree holds the table's lock, told since the last shutdown checkpoint."""
        shutdowns = [k for k in range(n) if self.records[k].kind == "checkpoint" and self.records[k].shutdown]
        held = self.locks(table, n, shutdowns[-1] + 1 if shutdowns else 0)
        return any(self.live(holder, n) and self.log.top(holder) == self.log.top(xid) for holder, _ in held)

    def gone(self, rel, n):
        """The start of the first record that drops the table, or None."""
        return next((record.start for record in self.records[:n] if drops(record, rel)), None)

    def number_from(self, position):
        """The number of the first record that starts at a position or past it."""
        return bisect_left([record.start for record in self.records], position)

    def cause(self, record, table, xmin):
        """Why a record cancels a scan of a table whose snapshot has this least live id, as text; or None."""
        if record.kind in ("prune", "freeze", "visible") and record.horizon and xmin <= record.horizon \
                and any(block.rel[1] in (self.log.database, 0) for block in record.blocks):
            return "horizon %s %d" % (lsn(record.start), record.horizon)
        for xid, database, oid in record.entries if record.kind == "locks" else ():
            if database == self.log.database and oid == table.oid:
                return "lock %s %d" % (lsn(record.start), xid)
        return None


def lsn(position):
    return "%X/%X" % (position >> 32, position & 0xFFFFFFFF)
