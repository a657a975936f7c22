"""Near misses: logs that differ from a legal one in one thing, and that no primary could write (those on transactions are
in transaction_misses.py, those on multixacts in multixact_misses.py).

Of each, the check of legality has to say that it is none. Where a standby answers otherwise than the rows of the log are,
the miss was one that matters to a scan; the sessions of a miss are drawn so that it may."""
from . import multixact_misses, transaction_misses
from .definitions import ALWAYS, NOBODY, drops, version_at
from .pages import header, with_header
from .transaction_misses import Miss, reading


def horizon_misses(log):
    """A prune or a freeze whose horizon is one below the least that covers what it removes or freezes."""
    for number, record in enumerate(log.records):
        if record.kind in ("prune", "freeze") and getattr(record, "least", 0):
            yield number, record.least - 1


def horizon_miss(draw, log, d):
    found = list(horizon_misses(log))
    if not found:
        return None
    number, horizon = draw.choice(found)
    records = list(log.records)
    records[number] = records[number].copied()
    records[number].horizon = horizon
    table = next(table for table in log.tables if table.rel == records[number].blocks[0].rel)
    before = opening_before(draw, log, d, number, horizon + 1)
    lines = ["replay %d" % before] if before else []
    lines += ["open " + table.name, "replay %d" % (number + 1 - before)]
    return Miss("horizon", records, number, lines + reading(1, 1) + ["replay 4294967295"])


def opening_before(draw, log, d, number, least):
    """Where a scan is opened that the horizon spares and the removal harms, if there is such a place: the last front
    whose least live id is the horizon that is asked."""
    fronts = [n for n in range(number + 1) if d.least_live(n) == least]
    record = log.records[number]
    harmed = [n for n in fronts if harms(d, record, number, n)]
    return draw.choice(harmed or fronts or [number])


def harms(d, record, number, n):
    """What the record does to a block, a scan of the front would see: a row is removed, or one frozen that is none yet."""
    rel, block = record.blocks[0].rel, record.blocks[0].number
    then = {v[:2] for v in d.rows(rel, n) if v.block == block}
    if record.kind == "prune":
        return not then <= {v[:2] for v in d.rows(rel, number)}
    frozen = {v[:2] for v in d.versions(rel, number + 1) if v.holds and v.frozen and v.block == block}
    return bool(frozen & {v[:2] for v in d.rows(rel, number)} - then)


# Marks that are not true.

def false_marks(d, n, v):
    """The marks that are false of a version after n records: (of which transaction, bits taken off, bits set)."""
    if v.inserter not in (NOBODY, ALWAYS) and not v.frozen:
        if not d.committed(v.inserter, n):
            yield v.inserter, 0x0300, 0x0100
        if not d.failed(v.inserter, n):
            yield v.inserter, 0x0300, 0x0200
    deleter = d.deleting(v.deleter, n)
    if v.inserter != NOBODY and deleter is not None:
        if not d.committed(deleter, n):
            yield deleter, 0x0C00, 0x0400
        if not d.failed(deleter, n):
            yield deleter, 0x0C00, 0x0800


def mark_misses(log, d):
    for number, record in enumerate(log.records):
        for at, block in enumerate(record.blocks):
            if block.applied() is None or block.rel not in d.rows_told:
                continue
            versions = d.versions(block.rel, number + 1)
            for line, it in enumerate(block.applied(), 1):
                v = version_at(versions, block.number, line) if isinstance(it, bytes) else None
                for mark in false_marks(d, number, v) if v else ():
                    yield number, at, line, *mark


def mark_miss(draw, log, d):
    """An image of which one tuple bears a mark of its inserter or its deleter that is not true before the record."""
    found = list(mark_misses(log, d))
    if not found:
        return None
    number, at, line, xid, off, on = draw.choice(found)
    records = list(log.records)
    records[number] = records[number].copied()
    items = records[number].blocks[at].image.items
    head = header(items[line - 1])
    head[7] = head[7] & ~off | on
    items[line - 1] = with_header(items[line - 1], head)
    table = next(table for table in log.tables if table.rel == records[number].blocks[at].rel)
    ended = max(number, d.finished_from.get(xid, 0)) + 1
    return Miss("mark", records, number, opened_at(table, {number + 1, ended, len(records)}))


def opened_at(table, fronts):
    """Scans that are opened at some fronts, and read at once."""
    lines, at = [], 0
    for id, front in enumerate(sorted(fronts), 1):
        lines += ["replay %d" % (front - at)] * (front > at) + ["open " + table.name] + reading(1, id)
        at = front
    return lines


# Locks that are left out.

def lock_miss(draw, log, _):
    """A truncation or a drop of a table that no record told a lock of."""
    found = [(number, table) for number, record in enumerate(log.records) for table in log.tables
             if drops(record, table.rel) or record.kind == "truncate" and record.rel == table.rel]
    if not found:
        return None
    number, table = draw.choice(found)
    records = list(log.records)
    for n in range(number):
        if records[n].kind == "locks":
            records[n] = records[n].copied()
            records[n].entries = [(*entry[:2], 1259 if entry[2] == table.oid else entry[2]) for entry in records[n].entries]
    before = ["replay %d" % number] if number else []
    return Miss("lock", records, number, before + ["open " + table.name, "replay 1"] + reading(1, 1))


KINDS = (horizon_miss, mark_miss, lock_miss) + transaction_misses.KINDS + multixact_misses.KINDS


def drawn(draw, log, d):
    """Near misses of a log, at most one of each kind and at most four."""
    found = [miss for kind in draw.sample(KINDS, len(KINDS)) for miss in [kind(draw, log, d)] if miss]
    return found[:4]
