"""Near misses on transactions: logs that break one clause on assignments or on running-transactions records, and no other
(but a top transaction that a whole record leaves out breaks two, since both ask for it). The session of each opens scans
where the miss may show: just before the end of a transaction of which a standby may not know that it lives."""
from .definitions import overflows
from .legal import named_by


class Miss:
    """What was missed, the log's records, the number of the changed one, and the session that looks at it. `clauses` are
    those that the record breaks, where the log breaks no other; `first` is the first fault, (number of the record, clause),
    where that is known."""

    def __init__(self, what, records, number, lines, clauses=()):
        self.what, self.records, self.number = what, records, number
        self.clauses, self.first = ["transactions: " + clause for clause in clauses], None
        self.source = b"".join(line.encode() + b"\n" for line in lines)


def reading(first, last):
    return ["next %d" % id for _ in range(8) for id in range(first, last + 1)]


class Missed:
    """One record that is changed, and the session that looks at it."""

    def __init__(self, log, d, number):
        self.log, self.d, self.number = log, d, number
        self.records = list(log.records)
        self.record = self.records[number] = self.records[number].copied()

    def listed(self):
        return self.record.tops + self.record.subs

    def leave_out(self, xid, other):
        """In the place of an id of a running record another one is listed twice."""
        self.record.tops = [other if it == xid else it for it in self.record.tops]
        self.record.subs = [other if it == xid else it for it in self.record.subs]

    def seen(self, what, spans, *clauses):
        """Scans of all tables, each opened at one front behind the record and read at another; then some at the end."""
        last, opens = len(self.records), ["open " + table.name for table in self.log.tables]
        spans = {(max(opened, self.number + 1), min(read, last)) for opened, read in spans}
        events = sorted({(read, "a read") for _, read in spans} | {(opened, "opening") for opened, _ in spans})
        lines, at, id = [], 0, 0
        for front, event in events + [(last, "opening"), (last, "a read")]:
            lines += ["replay %d" % (front - at)] * (front > at)
            at, id = max(at, front), id + len(opens) * (event == "opening")
            lines += opens if event == "opening" else ["status"] + reading(1, id)
        return Miss(what, self.records, self.number, lines, clauses)

    def seen_by(self, xid, what, *clauses):
        """Scans that are opened just before the end of a transaction, and read just after it."""
        end = self.d.finished_from.get(xid, len(self.records))
        return self.seen(what, {(self.number + 1, end + 1), (end, end + 1)}, *clauses)


def running_records(log, test=lambda number, record: True):
    return [number for number, record in enumerate(log.records) if record.kind == "running" and test(number, record)]


def may_show(log, d, xid):
    """A scan may see whether a standby knows that this transaction lives: it changes rows and commits, and a later one
    ended before."""
    end = d.committed_from.get(xid, 0)
    writes = any(record.xid == xid and record.blocks for record in log.records[:end])
    return writes and any(later > xid and number < end for later, number in d.finished_from.items())


def one_of(draw, log, d, pairs):
    """One of some pairs of a record's number and a transaction: if possible one of which a scan may see that it was
    missed, by a record that tells a standby which transactions run."""
    ways = [pair for pair in pairs if may_show(log, d, pair[1])]
    ways = [pair for pair in ways if d.state(pair[0]) != "ready" or log.records[pair[0]].kind != "running"] or ways
    return draw.choice(ways or pairs) if pairs else (None, None)


# Live ones that a running record does not list.

TOPS = "a running record lists the live top transactions"
SUBS = "a running record lists the live subtransactions"


def left_out(draw, log, d, what, test, *clauses):
    """A record that lists one live id twice, and another one not."""
    pairs = [(number, xid) for number in running_records(log) for record in [log.records[number]]
             for listed in [record.tops + record.subs] if len(set(listed)) > 1
             for xid in listed if d.live(xid, number + 1) and test(record, xid)]
    number, xid = one_of(draw, log, d, pairs)
    if number is None:
        return None
    one = Missed(log, d, number)
    one.leave_out(xid, draw.choice([it for it in one.listed() if it != xid]))
    return one.seen_by(xid, what, *clauses)


def top_left_out(draw, log, d):
    return left_out(draw, log, d, "running", lambda record, xid: log.top(xid) == xid and not record.overflow, TOPS, SUBS)


def top_left_out_of_overflowed(draw, log, d):
    return left_out(draw, log, d, "running overflowed", lambda record, xid: log.top(xid) == xid and overflows(record), TOPS)


def sub_left_out(draw, log, d):
    return left_out(draw, log, d, "running sub", lambda record, xid: log.top(xid) != xid and not record.overflow, SUBS)


# Numbers of a running record.

def ended_above(d, number, record, latest):
    """The ids that ended, are above this one, and are not listed."""
    listed = set(record.tops + record.subs)
    return [xid for xid in range(latest + 1, record.next) if d.ended(xid, number + 1) and xid not in listed]


def no_tops(draw, log, d):
    """A record that counts no top transaction and lists a live one; if possible it leaves a subtransaction out."""
    def may_miss(number, record):
        live = [xid for xid in record.tops + record.subs if log.top(xid) == xid and d.live(xid, number + 1)]
        return live and record.tops and not ended_above(d, number, record, record.latest)
    found = running_records(log, may_miss)
    pairs = [(number, xid) for number in found for record in [log.records[number]] for xid in log.tops
             if d.live(xid, number + 1) and xid < record.next and xid not in record.tops + record.subs]
    number, xid = one_of(draw, log, d, pairs or [(number, log.records[number].tops[0]) for number in found])
    if number is None:
        return None
    one = Missed(log, d, number)
    one.record.tops, one.record.subs = [], one.listed()
    return one.seen_by(xid, "running no tops", "no top transaction is listed where none is counted")


def latest_lives(draw, log, d):
    """A record whose latest completed id is live: mostly one that has not begun."""
    pairs = [(number, xid) for number in running_records(log) for record in [log.records[number]]
             for xid in range(max(3, record.latest + 1), record.next + 6) if d.live(xid, number + 1)]
    later = [pair for pair in pairs if pair[1] >= log.records[pair[0]].next and pair[1] in d.committed_from]
    later = [pair for pair in later if d.state(pair[0]) != "ready"] or later
    number, xid = draw.choice(later if later and draw.random() < 0.8 else pairs) if pairs else (None, None)
    if number is None:
        return None
    one = Missed(log, d, number)
    one.record.latest = xid
    begins = next((n for n, it in enumerate(log.records) if xid in named_by(it)), len(log.records))
    ends = d.finished_from.get(xid, len(log.records)) + 1
    return one.seen("running latest", {(number + 1, ends), (begins, ends)}, "the latest completed id has ended")


def ended_left_out(draw, log, d):
    """A record that is whole, whose latest completed id is below one that ended and that it does not list."""
    found = running_records(log, lambda number, record: not overflows(record) and record.oldest and
                            ended_above(d, number, record, record.oldest - 1))
    if not found:
        return None
    one = Missed(log, d, draw.choice([found[0], draw.choice(found)]))
    hidden = ended_above(d, one.number, one.record, one.record.oldest - 1)
    lower = [xid for xid in hidden if xid < max(hidden)] + [one.record.oldest - 1]
    one.record.latest = draw.choice(lower)
    return one.seen("running ended", {(one.number + 1, one.number + 1)}, "ended ones above the latest completed are listed")


def next_seen(draw, log, d):
    """A record whose next id is that of a live transaction which an older record names."""
    def may_miss(number, record):
        last, older = record.next - 1, log.records[:number]
        seen = any(last in named_by(it) for it in older) and d.live(last, number + 1)
        others = set(record.tops + record.subs) - {last}
        return seen and others and last > record.oldest and all(it.next <= last for it in older if it.kind == "running")
    pairs = [(number, log.records[number].next - 1) for number in running_records(log, may_miss)]
    number, xid = one_of(draw, log, d, pairs)
    if number is None:
        return None
    one = Missed(log, d, number)
    one.record.next = xid
    one.leave_out(xid, draw.choice([it for it in one.listed() if it != xid]))
    return one.seen_by(xid, "running next", "the next id is above those seen")


# Assignments.

def assigned(log):
    """Pairs of an assignment's number and a subtransaction that it lists."""
    return [(number, xid) for number, record in enumerate(log.records) if record.kind == "assignment" for xid in record.subs]


def assigned_none(draw, log, d):
    """An assignment that lists none; its record takes as much room as one that lists one."""
    number, xid = one_of(draw, log, d, [pair for pair in assigned(log) if len(log.records[pair[0]].subs) == 1])
    if number is None:
        return None
    one = Missed(log, d, number)
    one.record.subs = []
    return one.seen_by(xid, "assigned none", "an assignment lists some")


def assigned_otherwise(draw, log, d):
    """An assignment to another transaction than the top one, which mostly ends before that."""
    number, xid = one_of(draw, log, d, assigned(log))
    if number is None:
        return None
    one = Missed(log, d, number)
    others = {it for record in log.records for it in named_by(record) if it} - {one.record.top}
    ended = [it for it in others if d.finished_from.get(it, len(log.records)) < d.finished_from.get(xid, 0)]
    if not others:
        return None
    one.record.top = draw.choice(sorted(ended) if ended and draw.random() < 0.8 else sorted(others))
    return one.seen_by(xid, "assigned otherwise", "assigned ones are its subtransactions")


KINDS = (top_left_out, top_left_out_of_overflowed, sub_left_out, no_tops, latest_lives, ended_left_out, next_seen,
         assigned_none, assigned_otherwise)
