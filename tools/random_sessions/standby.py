"""What a standby answers to the requests of a session, by the definitions of the log alone: the abstract standby of the
crate legal_session, with the texts of session_model. A replay moves a number of records; nothing else is kept of it."""
import re

from .definitions import lsn
from .values import Refused, printed_row

MOST_SCANS = 64


class Scan:
    def __init__(self, id, table, opened, xmin):
        self.id, self.table, self.opened, self.xmin = id, table, opened, xmin
        self.given, self.cause = 0, None


class AbstractStandby:
    """`ending` is why the log goes no further: `end: WHY` or `refused: WHAT`."""

    def __init__(self, definitions, ending):
        self.d, self.log, self.ending = definitions, definitions.log, ending
        self.n, self.scans, self.next_id, self.troubled = 0, [], 1, False

    # Where it stands.

    def at(self):
        return self.log.records[self.n - 1].end if self.n else self.log.start

    def is_awaited(self):
        return not any(record.kind == "backup-end" and record.redo == self.log.start for record in self.log.records[:self.n])

    def state(self):
        return self.d.state(self.n)

    def backup(self):
        return "awaited" if self.is_awaited() else "ended"

    def refuses_scans(self):
        return self.is_awaited() or self.state() != "ready"

    def status(self):
        return [b"status tli=1 at=%s min=%s backup=%s state=%s scans=%d promoted=no" % (
            *texts(lsn(self.at()), lsn(self.log.start), self.backup(), self.state()), len(self.scans))]

    # Requests.

    def answer(self, line):
        """The lines that answer a request, which is a line of the source."""
        words = line.split(b" ")
        if len(line) > 4096 or b"\r" in line or b"" in words or len(words) > 2:
            return [b"error line"]
        if words == [b"status"]:
            return self.status()
        asks = {b"replay": self.replay, b"next": self.next, b"close": self.close}.get(words[0])
        if len(words) < 2 or not (asks or words[0] == b"open"):
            return [b"error line"]
        return self.open(words[1]) if asks is None else self.numbered(words, asks)

    def numbered(self, words, asks):
        if not re.fullmatch(rb"[0-9]+", words[1]):
            return [b"error line"]
        number, is_replay = int(words[1]), words[0] == b"replay"
        fits = 1 <= number < 1 << 32 if is_replay else number < 1 << 64
        return asks(number) if fits else [b"error line"]

    def replay(self, count):
        done = min(count, len(self.log.records) - self.n)
        for record in self.log.records[self.n:self.n + done]:
            for scan in self.scans:
                scan.cause = scan.cause or self.d.cause(record, scan.table, scan.xmin)
        self.n += done
        stop = "" if done == count else " " + self.ending
        self.troubled |= stop.startswith(" refused")
        return [b"replayed %d at %s%s" % (done, *texts(lsn(self.at()), stop))]

    def open(self, name):
        try:
            name.decode()
        except UnicodeDecodeError:
            return [b"error line"]
        table = next((table for table in self.log.tables if table.name.encode() == name), None)
        if table is None:
            return [b"no table"]
        if len(self.scans) >= MOST_SCANS:
            return [b"too many"]
        if self.refuses_scans():
            return [b"not admitted min=%s at=%s backup=%s state=%s" % texts(
                lsn(self.log.start), lsn(self.at()), self.backup(), self.state())]
        gone, locks = self.d.gone(table.rel, self.n), self.d.locks(table, self.n)
        if gone is not None:
            return [b"gone %s" % texts(lsn(gone))]
        if locks:
            return [b"locked %s %d" % (*texts(lsn(locks[-1][1])), locks[-1][0])]
        self.scans.append(Scan(self.next_id, table, self.n, self.d.least_live(self.n)))
        self.next_id += 1
        return [b"scan %d at %s" % (self.next_id - 1, *texts(lsn(self.at())))]

    def scan(self, id):
        return next((scan for scan in self.scans if scan.id == id), None)

    def next(self, id):
        scan = self.scan(id)
        if scan is None:
            return [b"no scan"]
        if scan.cause:
            self.scans.remove(scan)
            return [b"cancelled %d %s" % (id, *texts(scan.cause))]
        lines, refused = [], None
        for v in self.d.rows(scan.table.rel, scan.opened):
            if v.block == scan.given and not refused:
                try:
                    lines.append(b"row " + printed_row(scan.table.columns, v.tuple))
                except Refused as why:
                    column = scan.table.columns[why.column].name
                    refused = b"%s %d %d,%d %s" % (*texts(why.word), id, v.block, v.line, *texts(column))
        scan.given += 1
        more = scan.given < self.d.blocks(scan.table.rel, scan.opened)
        if refused or not more:
            self.scans.remove(scan)
        return lines + [refused or b"%s %d" % (b"more" if more else b"end", id)]

    def close(self, id):
        scan = self.scan(id)
        if scan is None:
            return [b"no scan"]
        self.scans.remove(scan)
        return [b"closed %d" % id]

    def status_at_end(self):
        return 5 if self.troubled else 0


def texts(*words):
    return tuple(word.encode() for word in words)


def lines_of(source):
    """The lines of a source that was read to its end."""
    lines = source.split(b"\n")
    return lines if lines[-1] else lines[:-1]


def answers(standby, source):
    """What a standby answers to the lines of a source."""
    return [line for asked in lines_of(source) for line in standby.answer(asked)]


def scanned(definitions, ending, name):
    """(the lines of `scan NAME`, its exit status): the log is replayed to its end, and the table read at once."""
    standby = AbstractStandby(definitions, ending)
    standby.replay(len(standby.log.records) + 1)
    if standby.troubled:
        return [b"fault log %s %s" % texts(lsn(standby.at()), ending.split(": ")[1])], 5
    lines = standby.open(name)
    if not standby.scans:
        return lines, 1
    while standby.scans:
        lines += standby.next(1)
    return lines, 0 if lines[-1].startswith(b"end") else 1
