"""Random sessions: lines that replay records, open scans, read and close them, and lines that ask nothing."""

# lines that are no requests, and requests that are rarely made
ODD = [
    b"", b" ", b"status ", b" status", b"STATUS", b"replay", b"replay 0", b"replay -1", b"replay 4294967296", b"replay 1 1",
    b"replay x", b"open", b"open ", b"open  t", b"open t extra", b"open t\r", b"open \xff\xfe", b"next", b"next -1",
    b"next 1x", b"next 18446744073709551616", b"close", b"close +1", b"replay\t1", b"commit 700", b"\xc3\xbc",
    b"open " + b"t" * 4092, b"status" + b" " * 5000, b"next\x001", b"replay 1\0"]
PLAIN = [
    b"replay 007", b"replay 1", b"next 0", b"next 18446744073709551615", b"close 0", b"open nothing", b"open T",
    b"open " + b"t" * 4091, "open größe".encode(), b"close 99", b"open t\t", b"replay 0002"]


class Requests:
    """Draws the lines of a session; what the evaluation answers tells which scans are open."""

    def __init__(self, draw, standby):
        self.draw, self.log, self.standby = draw, standby.log, standby
        self.lines, self.answers = [], []

    def say(self, text):
        line = text if isinstance(text, bytes) else text.encode()
        self.lines.append(line)
        self.answers += self.standby.answer(line)

    def ids(self):
        return [scan.id for scan in self.standby.scans]

    def replay(self, count):
        self.say("replay %d" % count)

    def open(self):
        """Opens a scan; where none is admitted yet, it mostly replays first."""
        if self.standby.refuses_scans() and self.draw.random() < 0.8:
            return self.replay(1)
        self.say("open " + self.some_table())

    def some_table(self):
        """The name of a table, mostly of one that is there."""
        there = [table for table in self.log.tables if self.standby.d.gone(table.rel, self.standby.n) is None]
        return self.draw.choice(there if there and self.draw.random() < 0.8 else self.log.tables).name

    def read(self):
        """A page or some of a scan that is open, mostly; rarely of one that is not."""
        ids = self.ids()
        if not ids and self.draw.random() < 0.8:
            return self.open()
        id = self.draw.choice(ids) if ids and self.draw.random() < 0.97 else self.draw.randrange(self.standby.next_id + 1)
        for _ in range(self.draw.choice([1, 1, 2, 4])):
            self.say("next %d" % id)
            if id not in self.ids():
                break

    def close(self):
        self.say("close %d" % self.draw.choice(self.ids() or [self.draw.randrange(self.standby.next_id + 1)]))

    def odd(self):
        self.say(self.draw.choice(ODD + PLAIN))

    def status(self):
        self.say("status")

    def read_all(self):
        while self.ids():
            self.say("next %d" % self.draw.choice(self.ids()))

    def to_the_end(self):
        """Replays what is left, and reads each table."""
        if self.draw.random() < 0.5:
            self.read_all()
        self.replay(self.draw.choice([len(self.log.records), 4294967295]))
        self.status()
        for table in self.log.tables:
            self.say("open " + table.name)
        self.read_all()
        self.status()

    def crowd(self):
        """More scans than are open at once."""
        for _ in range(66):
            self.open()
        self.close()
        self.open()

    def late(self):
        """Opens scans at some fronts, mostly where subtransactions are known by their parents alone, and reads them some
        or many records later."""
        draw, count, told = self.draw, len(self.log.records), self.standby
        fronts = [n for n in range(count) if told.d.are_known_by_parent(n)]
        if not fronts or draw.random() < 0.2:
            fronts = list(range(count))
        for front in sorted(draw.sample(fronts, min(len(fronts), draw.choice([1, 2, 4, 8])))):
            if front > told.n:
                self.replay(front - told.n)
            if told.refuses_scans() and draw.random() < 0.5:
                self.status()
            self.say("open " + self.some_table())
        if told.n < count:
            self.replay(draw.choice([1, draw.randint(1, count - told.n), count - told.n]))
        self.status()
        if draw.random() < 0.6:
            self.read_all()

    def source(self):
        """The lines of a session, and (what the evaluation answers, the exit status)."""
        draw, count = self.draw, len(self.log.records)
        steps, crowds = draw.choice([1, 2, 5, 10]), draw.random() < 0.03
        if draw.random() < 0.4:
            self.late()
        elif draw.random() < 0.5:
            self.replay(draw.randrange(1, max(2, count)))
        names, weights = zip(*WEIGHTS.items())
        while self.standby.n < count and len(self.lines) < 200:
            name = draw.choices(names, weights)[0]
            if name == "replay":
                self.replay(draw.randrange(1, steps + 1))
            else:
                getattr(self, name)()
        if crowds:
            self.crowd()
        if draw.random() < 0.8:
            self.to_the_end()
        ends = draw.random() < 0.9 or self.lines[-1:] == [b""]
        return b"\n".join(self.lines) + (b"\n" if ends and self.lines else b"")


WEIGHTS = {"replay": 40, "open": 20, "read": 30, "close": 3, "odd": 3, "status": 3}
