"""Whether a log is one that a primary could write: the clauses of docs/formats/legal-log.md, record by record. It stands
on the definitions, not on what the log maker knew as it wrote.

`fault(definitions)` answers None, or (number of the record, clause) of the first record that breaks a clause, and
`faults(definitions)` all that are broken."""
import struct

from .definitions import ALWAYS, NOBODY, changes, deleter_planned, deleter_shown, drops, is_anew, is_frozen, is_normal, \
    is_update, masks, overflows, steps_of, version_at, with_step, xmin
from .pages import NoRedo, redo

MADE_BEFORE, MADE_ONCE = "multixacts: one that is shown was made before", "multixacts: each is made once"
ONE_UPDATER, NO_ID_0 = "multixacts: one updater at most", "multixacts: the id is not 0"


def named_by(record):
    """The ids that a record names. An assignment's top transaction is none of them."""
    return [record.xid] + (record.subs if record.kind in ("commit", "abort", "assignment") else [])


class Legality:
    def __init__(self, definitions):
        self.d, self.log = definitions, definitions.log
        self.records = self.log.records
        self.known = {table.rel for table in self.log.tables}
        self.seen_below, self.greatest_next, self.last_redo = 0, 0, 0
        self.begins = {record.start: n for n, record in enumerate(self.records)}
        self.at, self.broken = 0, []

    def ask(self, holds, clause):
        """A clause is asked of the record at hand."""
        if not holds:
            self.broken.append((self.at, clause))

    def judged(self, to_the_end):
        """The clauses that are broken, each as (number of the record, clause): those of the first record that breaks
        some, or all."""
        pages = {}
        self.origin()
        for self.at, record in enumerate(self.records):
            self.record(self.at, record)
            if self.broken and not to_the_end:
                return self.broken
            try:
                redo(record, self.known, pages)
            except NoRedo as refused:
                self.ask(False, "redo: %s" % refused)
        if not self.broken or to_the_end:
            self.renewal()
        return self.broken

    def record(self, n, record):
        if record.kind == "multixact":
            self.multixact(n, record)
        places = [(block.rel, block.number) for block in record.blocks]
        self.ask(len(places) == len(set(places)), "blocks apart")
        self.transactions(n, record)
        for table in self.log.tables:
            self.table(n, record, table)

    # Transactions (LegalTransactions). `n` records are older, and n + 1 stand with this one.

    def origin(self):
        """Where the log begins no transaction has a status, so each normal id is live."""
        top = self.log.top
        self.ask(all(top(top(xid)) == top(xid) <= xid and (xid < 3 or top(xid) >= 3) for xid in self.log.tops),
                 "transactions: a subtransaction's top transaction is a lower one")

    def transactions(self, n, record):
        if record.kind in ("commit", "abort"):
            self.end(n, record)
        elif record.kind == "assignment":
            self.assignment(record)
        self.seen_below = max(self.seen_below, max(named_by(record)) + 1)
        if record.kind == "running":
            self.greatest_next = max(self.greatest_next, record.next)
            self.running(n + 1, record)
        elif record.kind == "checkpoint":
            self.checkpoint(n, record)

    def are_subs_of(self, top, subs):
        return all(self.log.top(it) == top and top < it for it in subs)

    def end(self, n, record):
        xid, subs, top = record.xid, record.subs, self.log.top(record.xid)
        self.ask(record.kind == "abort" or top == xid, "transactions: a commit is a top transaction's")
        self.ask(all(self.d.live(it, n) for it in [xid] + subs), "transactions: ended ones are live")
        self.ask(self.are_subs_of(top, subs), "transactions: listed ones are its subtransactions")
        if top == xid:
            self.ask(all(it in subs for it in self.log.tops if self.log.top(it) == xid != it and self.d.live(it, n)),
                     "transactions: all its live subtransactions end")

    def assignment(self, record):
        self.ask(record.subs, "transactions: an assignment lists some")
        self.ask(self.are_subs_of(record.top, record.subs), "transactions: assigned ones are its subtransactions")

    def is_next(self, next, n, seen_below, greatest_next):
        self.ask(next >= 3, "transactions: the next id is normal")
        self.ask(seen_below <= next, "transactions: the next id is above those seen")
        self.ask(greatest_next <= next, "transactions: the next id is not below an earlier one")
        ended = [xid for xid, number in self.d.finished_from.items() if number < n]
        self.ask(max(ended + [0]) < next and self.d.low[n] <= next, "transactions: no id from the next on has ended")

    def subs_end(self, low, n):
        self.ask(all(self.d.ended(it, n) for it in self.log.tops if self.log.top(it) < low),
                 "transactions: a subtransaction ends with its top transaction")

    def running(self, n, record):
        listed = set(record.tops + record.subs)
        self.is_next(record.next, n, self.seen_below, self.greatest_next)
        live = [xid for xid in range(max(3, record.oldest), record.next) if self.d.live(xid, n)]
        tops = [xid for xid in live if self.log.top(xid) == xid]
        self.ask(all(xid in listed for xid in tops), "transactions: a running record lists the live top transactions")
        self.ask(record.overflow or all(xid in listed for xid in live),
                 "transactions: a running record lists the live subtransactions")
        self.ask(record.tops or all(self.log.top(xid) < xid for xid in listed if self.d.live(xid, n)),
                 "transactions: no top transaction is listed where none is counted")
        self.ask(all(record.oldest <= xid < record.next for xid in listed), "transactions: listed ones are spanned")
        self.ask(all(xid >= 3 for xid in listed), "transactions: listed ones are normal")
        self.ask(all(not self.d.ended(xid, n) or self.d.finished(xid, n) for xid in listed),
                 "transactions: listed ones that ended committed or aborted")
        self.subs_end(record.oldest, n)
        self.ask(self.d.ended(record.latest, n), "transactions: the latest completed id has ended")
        self.ask(overflows(record) or all(xid in listed or not self.d.ended(xid, n)
                                          for xid in range(record.latest + 1, record.next)),
                 "transactions: ended ones above the latest completed are listed")

    def checkpoint(self, n, record):
        if record.shutdown:
            self.ask(record.redo == record.start, "shutdown checkpoints")
            self.is_next(record.next, n + 1, self.seen_below, self.greatest_next)
            self.subs_end(record.next, n + 1)
            self.last_redo = record.start
            return
        before = self.begins.get(record.redo, len(self.records))
        self.ask(before <= n and self.last_redo <= record.redo, "transactions: the redo of a checkpoint")
        self.is_next(record.next, before, *self.seen(before))
        self.last_redo = record.redo

    def seen(self, n):
        """(one past the greatest id that n records name, the greatest next id of their running records)"""
        named = [max(named_by(record)) + 1 for record in self.records[:n]]
        nexts = [record.next for record in self.records[:n] if record.kind == "running"]
        return max(named, default=0), max(nexts, default=0)

    # Multixacts (NewMultixactRule, MultixactStep).

    def multixact(self, n, record):
        self.ask(record.id != 0, NO_ID_0)
        self.ask(not self.d.updaters(record.id, n), MADE_ONCE)
        self.ask(sum(is_update(status) for _, status in record.members) <= 1, ONE_UPDATER)

    def is_made(self, n, deleter):
        self.ask(self.d.was_made(deleter, n), MADE_BEFORE)

    # Tables (TableRule).

    def table(self, n, record, table):
        versions, count = self.d.told(table.rel, n)
        self.locks(n, record, table)
        if record.kind == "checkpoint" and not record.shutdown:
            self.locks_written(n, record, table)
        if record.kind == "truncate" and record.rel == table.rel:
            self.ask(all(v.block < record.blocks_left for v in self.d.versions(table.rel, n + 1) if v.holds), "cut")
        blocks = [block for block in record.blocks if block.rel == table.rel]
        if not blocks:
            return
        now = versions
        for step in steps_of(record, table.rel, count, versions):
            self.step(n, record, table, now, step)
            now = with_step(now, step)
        for block in blocks:
            if block.applied() is not None:
                self.image(n, now, block)
            if block.init:
                self.ask(not any(v.holds and v.block == block.number for v in versions), "images and new pages")

    def step(self, n, record, table, versions, step):
        if step[0] == "born":
            return self.birth(n, table, versions, *step[1:])
        if step[0] in ("deleter", "frozen"):
            self.is_made(n, step[3] if step[0] == "deleter" else deleter_planned(step[3]))
        v = version_at(versions, *step[1:3])
        if v is None:
            return None
        if step[0] == "deleter":
            return self.deleter(n, v, step[3])
        if step[0] == "undone":
            return self.ask(v.inserter not in (NOBODY, ALWAYS) and self.d.live(v.inserter, n), "deleters")
        if step[0] == "removed":
            return self.ask(self.may_be_removed(n, v, getattr(record, "horizon", 0)), "removals")
        self.deleter(n, v, deleter_planned(step[3]))
        return self.plan(n, v, record.horizon, step[3])

    def birth(self, n, table, versions, block, line, it, whole):
        self.is_made(n, deleter_shown(it))
        self.ask(version_at(versions, block, line) is None and self.d.live(xmin(it), n), "births")
        self.ask(masks(it)[1] & 0x0300 == 0 or is_frozen(it) and self.d.is_under_lock(table, xmin(it), n), "births")
        self.ask(masks(it)[1] & 0x0400 == 0 and (whole or self.is_spent(n, deleter_shown(it))), "births")

    def is_spent(self, n, deleter):
        """A deleter never counts: it is none, or stands for none or for a transaction that failed."""
        xid = self.d.deleting(deleter, n)
        return xid is None or self.d.failed(xid, n)

    def is_same_tree(self, x, y):
        return self.log.top(x) == self.log.top(y)

    def may_delete(self, n, inserter, xid):
        if inserter in (NOBODY, ALWAYS):
            return inserter == ALWAYS
        return self.d.committed(inserter, n) or self.is_same_tree(inserter, xid)

    def deleter(self, n, v, now):
        xid = self.d.deleting(now, n)
        stays = xid == self.d.deleting(v.deleter, n)
        takes = xid is not None and self.d.live(xid, n) and self.is_spent(n, v.deleter)
        takes = takes and self.may_delete(n, v.inserter, xid)
        fades = self.is_spent(n, v.deleter) and self.is_spent(n, now)
        self.ask(stays or takes or fades, "deleters")

    def may_be_removed(self, n, v, horizon):
        if v.inserter == NOBODY or v.inserter != ALWAYS and self.d.failed(v.inserter, n):
            return True
        deleter = self.d.deleting(v.deleter, n)
        if deleter is None or not self.d.committed(deleter, n):
            return False
        if v.inserter != ALWAYS and self.is_same_tree(v.inserter, deleter):
            return True
        return not self.d.counts(v.inserter, n) or self.d.covers(horizon, deleter)

    def plan(self, n, v, horizon, plan):
        head = struct.pack("<I", 0 if v.inserter == NOBODY else xmin(v.tuple))
        it = head + struct.pack("<I", plan.xmax) + v.tuple[8:18] + struct.pack("<HH", plan.mask2, plan.mask) + v.tuple[22:]
        frozen = plan.mask & 0x0300 == 0x0300
        self.ask(self.shows(n, v._replace(deleter=deleter_planned(plan), frozen=frozen), it), "removals: a plan")
        self.ask(frozen or not v.frozen, "removals: a frozen version stays so")
        if frozen and not v.frozen:
            self.ask(v.inserter != NOBODY and self.d.committed(v.inserter, n) and self.d.covers(horizon, v.inserter),
                     "removals: a freeze's horizon")

    # Images (Shows).

    def image(self, n, versions, block):
        items = block.applied()
        lines = {v.line for v in versions if v.holds and v.block == block.number}
        self.ask(all(line in lines for line in range(1, len(items) + 1) if is_normal(items, line)), "images: no version")
        for line in lines:
            is_there = is_normal(items, line)
            self.ask(is_there, "images: a version is left out")
            self.ask(not is_there or self.shows(n, version_at(versions, block.number, line), items[line - 1]),
                     "images: what a tuple shows")

    def shows(self, n, v, it):
        mask2, mask = masks(it)
        written2, written = masks(v.tuple)
        same = mask2 & 0x07FF == written2 & 0x07FF and mask & 1 == written & 1 and it[22:] == v.tuple[22:]
        inserter = {NOBODY: xmin(it) == 0, ALWAYS: is_frozen(it)}.get(v.inserter, xmin(it) == v.inserter)
        deleter = v.inserter == NOBODY or deleter_shown(it) == v.deleter
        return same and inserter and deleter and is_frozen(it) == v.frozen and self.marks_true(n, v, mask)

    def marks_true(self, n, v, mask):
        if v.inserter not in (NOBODY, ALWAYS):
            if mask & 0x0300 == 0x0100 and not self.d.committed(v.inserter, n):
                return False
            if mask & 0x0300 == 0x0200 and not self.d.failed(v.inserter, n):
                return False
        deleter = self.d.deleting(v.deleter, n)
        if deleter is None:
            return True
        return (mask & 0x0400 == 0 or self.d.committed(deleter, n)) and (mask & 0x0800 == 0 or self.d.failed(deleter, n))

    def renewal(self):
        """From each redo position on, the first record that changes a block restores it or makes it anew."""
        redos = {0} | {record.redo for record in self.records if record.kind == "checkpoint"}
        for redo_at in sorted(redos):
            renewed = set()
            for self.at in range(self.d.number_from(redo_at), len(self.records)):
                for rel in self.known:
                    changed = changes(self.records[self.at], rel)
                    self.ask(all(is_anew(block) or (rel, block.number) in renewed for block in changed), "renewal")
                    renewed |= {(rel, block.number) for block in changed}

    # Locks.

    def locks(self, n, record, table):
        if drops(record, table.rel) or record.kind == "truncate" and record.rel == table.rel:
            self.ask(self.d.is_under_lock(table, record.xid, n), "locks")
        if changes(record, table.rel):
            self.ask(self.d.gone(table.rel, n) is None, "locks: the table is gone")

    def locks_written(self, n, record, table):
        """Between a checkpoint's redo and its record stands a running record, and up to the last one each lock in force of
        a live transaction is written again."""
        since = self.d.number_from(record.redo)
        up_to = max((k + 1 for k in range(n) if self.records[k].kind == "running"), default=0)
        self.ask(since < up_to, "locks of a checkpoint: no running record")
        again = {xid for xid, _ in self.d.locks(table, up_to, since)}
        held = {xid for xid, _ in self.d.locks(table, up_to) if self.d.live(xid, up_to)}
        self.ask(all(xid in again or self.log.top(xid) in again for xid in held), "locks of a checkpoint")


def fault(definitions):
    return next(iter(Legality(definitions).judged(False)), None)


def faults(definitions):
    return Legality(definitions).judged(True)
