"""Runs `standby session` over a log while no scan is open, and while 1, 8 and 64 are, in turn, and prints the best time,
speed and peak memory of each, and how they grow with the number of scans.

usage: compare.py STANDBY MIB:BLOCKS
"""
import os
import sys
import tempfile

sys.path.insert(0, os.path.join(os.path.dirname(os.path.abspath(__file__)), ".."))
from measure import Log, Measured

RUNS = 3
SCANS = (0, 1, 8, 64)
BLOCKS = 10000      # the blocks that the table has where the scans are opened
RECORDS = 1000      # the records between two pages of a scan
PRELUDE = 3         # the records before the first transaction
RUNNING = 65536     # the transactions between two running-transactions records


class Session:
    """The lines of a session with so many scans, in a file of the log's folder."""

    def __init__(self, folder, log, scans):
        self.folder, self.log, self.scans = folder, log, scans
        self.each = log.kinds["inserts"] // log.blocks
        inserts = self.each * min(BLOCKS, log.blocks)
        before = PRELUDE + 2 * inserts + inserts // RUNNING
        turns = -(-(log.kinds["records"] - before) // RECORDS)
        self.pages = min(turns, BLOCKS, log.blocks)
        self.file = "lines.%d" % scans
        turn = ["replay %d" % RECORDS] + ["next %d" % id for id in range(1, scans + 1)]
        lines = ["replay %d" % before] + ["open t"] * scans + turn * turns + ["replay 1"]
        with open(os.path.join(folder, self.file), "w") as file:
            file.write("".join(line + "\n" for line in lines))

    def words(self, standby):
        return ["sh", "-c", 'exec "$0" session < "$1"', standby, self.file]

    def check(self):
        """The log was replayed to its end, and each scan gave its pages, with the rows of its opening."""
        rows, pages, last = 0, 0, b""
        with open(os.path.join(self.folder, "written"), "rb") as file:
            for line in file:
                rows += line.startswith(b"row ")
                pages += line.startswith((b"more ", b"end "))
                last = line
        wanted = self.scans * self.pages
        end = "replayed 0 at %s end: " % self.log.end
        if pages != wanted or rows != wanted * self.each or not last.startswith(end.encode()):
            sys.exit("the session is not as it should be: %d pages, %d rows, %r" % (pages, rows, last))


def main():
    standby, word = os.path.abspath(sys.argv[1]), sys.argv[2]
    with tempfile.TemporaryDirectory() as folder:
        log = Log(folder, word)
        sessions = [Session(folder, log, scans) for scans in SCANS]
        times = [Measured("%d scans" % scans, log.size) for scans in SCANS]
        for _ in range(RUNS):
            for session, time in zip(sessions, times):
                time.run(session.words(standby), folder)
                session.check()
    log.tell(RUNS)
    pages = sessions[0].pages
    print("  each scan reads %d of its %d pages" % (pages, min(BLOCKS, log.blocks)))
    none = times[0]
    for time, scans in zip(times, SCANS):
        time.tell()
        if scans:
            print("    %.0f%% of the speed without scans, %.1f microseconds a page, %.1f KiB more memory a scan" % (
                100 * none.best / time.best, 1e6 * (time.best - none.best) / (scans * pages),
                (time.peak - none.peak) / scans))


main()
