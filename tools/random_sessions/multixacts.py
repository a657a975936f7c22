"""The random primary's multixacts: which it makes, of which lockers and updaters, and by which of them its tuples are
locked or deleted (multixact.c; heapam.c, compute_new_xmax_infomask and FreezeMultiXactId)."""
from .definitions import Multi, is_update, lock_only
from .records import Record

# of which strength the lock of a status is, as the bits of xl_heap_lock (GetMultiXactIdHintBits, heapam.c)
STRENGTHS = {0: 8, 1: 4 | 8, 2: 4, 3: 4 | 16, 4: 4, 5: 4 | 16}

# the marks of xmax in the infomask (HEAP_XMAX_BITS, htup_details.h)
XMAX_MARKS = 0x1CD0


def infomask_of(bits):
    """The marks that these bits set."""
    return sum(mask for bit, mask in ((1, 0x1000), (2, 0x0080), (4, 0x0040), (8, 0x0010)) if bits & bit)


class Multixacts:
    def begin_multixacts(self):
        """The first ids, and how often rows have a multixact in the place of a transaction."""
        draw = self.draw
        first = draw.choice([1, 1, 1, draw.randrange(1, 5000), draw.randrange(1, 1 << 32), 4294967295])
        self.next_ids = [first]
        self.next_member = draw.choice([0, 0, draw.randrange(1 << 32)])
        self.chance_of_multi = draw.choice([0, 0.1, 0.3, 0.6])

    def new_id(self):
        """An id that was not given yet. Ids go up, behind the last one from 1 on; of some that are given at one time the
        records may stand in another order."""
        while len(self.next_ids) < 3:
            self.next_ids.append(self.next_ids[-1] % 4294967295 + self.draw.choice([1, 1, 1, 2]))
        id = self.next_ids.pop(0 if self.chance(0.8) else self.draw.randrange(2))
        return id if id < 1 << 32 else self.new_id()

    def make(self, members):
        """Writes the record of a multixact with these members; answers its id."""
        id, live = self.new_id(), self.live()
        writers = [xid for xid, _ in members if xid in live]
        offset, self.next_member = self.next_member, (self.next_member + len(members)) % (1 << 32)
        self.write(Record("multixact", self.draw.choice(writers + [0]), id=id, offset=offset, members=members))
        return id

    def multixact(self):
        """One that no tuple may ever show."""
        self.make(self.with_lockers(self.some_updater()))
        return True

    # Members.

    def lockers(self):
        """Members that lock; most of them live."""
        draw, live = self.draw, self.live()
        some = draw.sample(live, min(len(live), draw.choice([0, 1, 1, 2, 2, 3])))
        if self.assigned and self.chance(0.2):
            some.append(draw.choice(self.assigned))
        if self.chance(0.005):
            some = [draw.choice(self.assigned or [700]) for _ in range(1000)]
        return [(xid, draw.choice([0, 0, 1, 2, 3])) for xid in some]

    def with_lockers(self, updater, keys=None):
        """The members of a multixact with this updater, or with none."""
        members = self.lockers()
        if updater is not None:
            status = self.draw.choice([4, 5]) if keys is None else 5 if keys else 4
            members.insert(self.draw.randrange(len(members) + 1), (updater, status))
        return members

    def some_updater(self, test=lambda xid: True):
        some = [xid for xid in self.assigned if test(xid)]
        return self.draw.choice(some) if some and self.chance(0.7) else None

    def failed_updater(self):
        return self.some_updater(lambda xid: self.d.failed(xid, self.n))

    # Marks of tuples.

    def deleter_by(self, xid, keys):
        """(xmax, bits) of a row that this transaction deletes or updates, mostly alone, else with others that lock it."""
        bits = 16 if keys else 0
        if not self.chance(self.chance_of_multi):
            return xid, bits
        return self.make(self.with_lockers(xid, keys)), bits | 1 | (4 if self.chance(0.5) else 0)

    def lock_by(self, xid):
        """(xmax, bits) of a row lock alone: by one transaction, or by several. A multixact without an updater mostly says
        by a mark that it locks alone; of one whose updater failed no mark says so."""
        if not self.chance(self.chance_of_multi):
            return xid, self.draw.choice([2 | 8, 2 | 8, 2 | 8, 2 | 4, 2 | 4 | 16, 2 | 4 | 8, 4])
        failed = self.failed_updater() if self.chance(0.3) else None
        members = self.with_lockers(failed)
        members.append((xid, self.draw.randrange(4)))
        bits = STRENGTHS[max(status for _, status in members)]
        return self.make(members), bits | 1 | (2 if failed is None and self.chance(0.85) else 0)

    def deleter_again(self, v):
        """(xmax, bits) of a row that stays deleted by the same transaction: as it is shown, in another multixact, or by the
        transaction itself."""
        xid, draw = self.d.deleting(v.deleter, self.n), self.draw
        shown = (v.deleter.id, 1) if isinstance(v.deleter, Multi) else (v.deleter, 0)
        kind, bits = draw.random(), draw.choice([0, 16])
        if kind < self.chance_of_multi:
            shown = self.make(self.with_lockers(xid)), 1
        elif kind < 0.7 and xid is not None:
            shown = xid, 0
        return shown[0], shown[1] | bits

    def locks_still(self, head):
        """A transaction that locks a tuple with this header is live."""
        if not head[7] & 0x1000:
            return lock_only(head[7]) and self.d.live(head[1], self.n)
        made = [record for record in self.log.records if record.kind == "multixact" and record.id == head[1]]
        members = made[-1].members if made else []
        return any(self.d.live(xid, self.n) for xid, status in members if not is_update(status))

    def shown_multixact(self):
        """(xmax, marks) of a tuple that shows a multixact, of which the updater may be any."""
        updater = self.some_updater()
        id = self.make(self.with_lockers(updater))
        return id, 0x1000 | (0x0080 if updater is None and self.chance(0.7) else 0)

    def plan_of_multixact(self, v, head):
        """(xmax, marks) that a freeze leaves of a multixact: another one, or its updater alone."""
        xid = self.d.deleting(v.deleter, self.n)
        if lock_only(head[7]):
            return self.make(self.lockers()), 0x1080 | infomask_of(self.draw.choice([8, 12, 4]))
        if xid is not None and self.chance(0.5):
            return xid, 0
        return self.make(self.with_lockers(xid)), 0x1000 | infomask_of(self.draw.choice([0, 4]))
