"""The random primary's transactions: which begin, nest, are assigned, commit and abort, and which of them it lists as
running."""
from .records import Record

DATABASE = 16384

# files that are not described: of the database, of another one, and of those that all databases share
FOREIGN = [(1663, DATABASE, 20001), (1664, DATABASE, 30011), (1663, 16999, 30011), (1664, 0, 1260), (1664, 0, 1262)]

LAST_XID = 4294967290


class Transactions:
    def begin_transactions(self):
        """The first id, and the habits of this log: how many transactions run side by side, how many of them are
        subtransactions, and how often a running record leaves those out."""
        draw = self.draw
        self.next = draw.choice([3, 4, 700, 700, 700, draw.randrange(3, 5000), draw.randrange(3, 1 << 20)])
        self.assigned, self.lasting = [], 0
        self.most_live = draw.choice([5, 7, 7, 12, 25])
        self.chance_of_sub = draw.choice([0.1, 0.35, 0.35, 0.7])
        self.chance_of_overflow = draw.choice([0, 0.2, 0.6, 0.9, 1])

    def choose_lasting(self):
        """Some logs have a top transaction that seldom ends."""
        tops = self.live_tops()
        self.lasting = self.draw.choice(tops) if tops and self.chance(0.3) else 0

    def live(self):
        return [xid for xid in self.assigned if self.d.live(xid, self.n)]

    def live_tops(self):
        return [xid for xid in self.live() if self.log.top(xid) == xid]

    def live_subs(self, top):
        return [xid for xid in self.live() if self.log.top(xid) == top and xid != top]

    def some_xid(self):
        """A live transaction or subtransaction, which may begin right now; or None where no id is left."""
        live = self.live()
        if self.next > LAST_XID:
            return self.draw.choice(live) if live else None
        if live and self.chance(0.65 if len(live) < self.most_live else 1):
            return self.draw.choice(live)
        tops = self.live_tops()
        return self.new_xid(self.draw.choice(tops) if tops and self.chance(self.chance_of_sub) else None)

    def new_xid(self, top=None):
        """The next id, of a new transaction or of a subtransaction of this top one."""
        xid = self.next
        self.next += 1
        if top is not None:
            self.log.tops[xid] = top
        self.assigned.append(xid)
        return xid

    # Subtransactions.

    def nest(self):
        """A top transaction begins several subtransactions, some of which are mostly assigned."""
        tops, count = self.live_tops(), self.draw.choice([1, 2, 3, 3, 5, 8]) if self.chance(0.98) else 70
        if self.next + count > LAST_XID or len(self.live()) > 2 * self.most_live:
            return False
        top = self.draw.choice(tops) if tops and self.chance(0.7) else self.new_xid()
        for _ in range(count):
            self.new_xid(top)
        return self.chance(0.3) or self.assign(top)

    def assign(self, top=None):
        """Some subtransactions of one top transaction: mostly live ones that were not assigned yet, at times also others;
        rarely of one that has ended."""
        subs = {}
        for xid, of in self.log.tops.items():
            subs.setdefault(of, []).append(xid)
        tops = [it for it in subs if self.d.live(it, self.n)]
        if top is None:
            tops = list(subs) if self.chance(0.05) else tops
            top = self.draw.choice(tops) if tops else None
        if top is None:
            return False
        new = [xid for xid in subs[top] if self.d.live(xid, self.n) and xid not in self.d.assigned_from]
        listed = new if new and self.chance(0.7) else subs[top]
        listed = self.draw.sample(listed, self.draw.choice([1, len(listed), self.draw.randint(1, len(listed))]))
        if self.chance(0.7):
            listed.sort()
        writer = self.draw.choice([0, top, self.draw.choice(listed)])
        return self.write(Record("assignment", writer if self.d.live(writer, self.n) else 0, top=top, subs=listed))

    # Ends.

    def end(self, xid=None, commits=None):
        """Commits or aborts a top transaction, or aborts a subtransaction."""
        if xid is None:
            others = [it for it in self.live() if self.log.top(it) != self.lasting or self.chance(0.05)]
            tops = [it for it in others if self.log.top(it) == it]
            if not others:
                return False
            xid = self.draw.choice(tops if tops and self.chance(0.4) else others)
        if commits is None and self.log.top(xid) != xid and self.chance(0.5):
            return self.abort_alone(xid)
        xid = self.log.top(xid)
        commits = self.chance(0.75) if commits is None else commits
        files = self.dropped(xid) if commits else self.foreign_files(0.05)
        kind = "commit" if commits else "abort"
        return self.write(Record(kind, xid, subs=self.live_subs(xid), files=files, inside=self.chance(0.2)))

    def abort_alone(self, xid):
        """A subtransaction aborts while its top transaction lives, with others of it, which mostly are later ones."""
        others, is_any = self.live_subs(self.log.top(xid)), self.chance(0.2)
        others = [it for it in others if it != xid and (it > xid or is_any) and self.chance(0.3)]
        return self.write(Record("abort", xid, subs=others, files=[], inside=False))

    def foreign_files(self, p):
        return [self.draw.choice(FOREIGN)] if self.chance(p) else []

    def dropped(self, xid):
        """Files that a commit drops: described tables only under their locks."""
        files = self.foreign_files(0.05)
        for table in self.tables:
            if self.d.is_under_lock(table, xid, self.n) and self.chance(0.2):
                files.append(table.rel)
        return files

    # Running transactions.

    def running(self):
        """The running transactions; at times without some subtransactions. Rarely some that just ended are still listed,
        or some are given up."""
        live = self.live()
        if live and self.chance(0.04):
            live = self.without_given_up(live)
        oldest = min(live, default=self.next)
        extra = []
        if self.chance(0.15):
            extra = [xid for xid in self.assigned if xid >= oldest and self.d.finished(xid, self.n) and self.chance(0.5)]
        ended = [xid for xid in self.assigned if xid >= oldest and self.d.ended(xid, self.n) and xid not in extra]
        latest = max(ended + [oldest - 1])
        listed = live + extra
        self.draw.shuffle(listed)
        tops = [xid for xid in listed if self.log.top(xid) == xid]
        subs = [xid for xid in listed if self.log.top(xid) != xid]
        overflow = self.chance(self.chance_of_overflow if tops else 0.3)
        if overflow and tops:
            keeps = self.draw.choice([0, 0, 0.5, 1])
            subs = [xid for xid in subs if self.chance(keeps)]
            latest = self.draw.choice([latest, latest, oldest - 1] + ended)
        if self.chance(0.1):
            tops, subs = self.counted_otherwise(tops, subs)
        return self.write(Record("running", 0, tops=tops, subs=subs, overflow=self.draw.choice([1, 1, 255]) * overflow,
                                 next=self.next, oldest=oldest, latest=latest))

    def counted_otherwise(self, tops, subs):
        """The ids of a running record are one list: how many of them are top transactions is only asked for 0."""
        at = self.draw.randrange(1, len(tops + subs) + 1) if tops else 0
        return (tops + subs)[:at], (tops + subs)[at:]

    def without_given_up(self, live):
        """The live ones without the oldest, which a running record gives up with all of its subtransactions."""
        for oldest in self.draw.sample(live, len(live)):
            rest = [xid for xid in live if xid > oldest]
            if all(self.log.top(xid) > oldest for xid in rest):
                return rest
        return live
