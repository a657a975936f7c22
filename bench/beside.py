"""Recovers a log of bench/real_log.py by an installed PostgreSQL and by `standby scan`, and measures both."""
import os
import shutil
import subprocess
import sys
import tempfile
import threading
import time

from real_log import about, for_server
from server import Server, give

# PostgreSQL's best settings: the log in pg_wal, no fsync, buffers for all blocks, nothing written meanwhile.
BEST = {"fsync": "off", "shared_buffers": "1GB", "max_wal_size": "100GB", "checkpoint_timeout": "1d", "wal_recycle": "off"}
# Ours: the C library asks the system for memory in pages of 2 MiB.
LARGE_PAGES = {"GLIBC_TUNABLES": "glibc.malloc.hugetlb=1"}


class Times:
    """The processor time and the time passed of several runs; the least of each counts."""

    def __init__(self):
        self.cpu, self.passed, self.peak = [], [], 0

    def add(self, cpu, passed, peak=0):
        self.cpu.append(cpu)
        self.passed.append(passed)
        self.peak = max(self.peak, peak)

    def least(self):
        return min(self.cpu)

    def tell(self):
        text = "%.2f s (%.2f to %.2f; passed %.2f s)" % (self.least(), self.least(), max(self.cpu), min(self.passed))
        return text + (", peak memory %d MiB" % (self.peak >> 10) if self.peak else "")


def run(words, folder, out=None, settings=None):
    """Processor time, time passed and peak memory in KiB of one run, whose output goes through a pipe to a program that
    throws it away, or into a file."""
    sink = None if out else subprocess.Popen(["cat"], stdin=subprocess.PIPE, stdout=subprocess.DEVNULL)
    with tempfile.NamedTemporaryFile("r") as memory:
        begun = time.monotonic()
        # Between Python and the program stands a small one, since a process's peak memory counts that of its parent.
        words = ["/usr/bin/time", "-f", "%M", "-o", memory.name, *words]
        child = subprocess.Popen(words, cwd=folder, stdout=out or sink.stdin, env=dict(os.environ, **(settings or {})))
        _, status, used = os.wait4(child.pid, 0)
        passed = time.monotonic() - begun
        child.returncode = os.waitstatus_to_exitcode(status)
        if sink:
            sink.stdin.close()
            sink.wait()
        if child.returncode != 0:
            sys.exit("%s ended with status %d" % (" ".join(words), child.returncode))
        return used.ru_utime + used.ru_stime, passed, int(memory.read())


def processor_time(pid):
    """The seconds of processor time of a process so far, to the nanosecond; it waits for input."""
    time.sleep(0.02)
    with open("/proc/%d/schedstat" % pid) as file:
        return int(file.read().split()[0]) / 1e9


def read_to(out, end):
    """Reads and throws away what a process writes, up to these bytes."""
    tail = b"\n"
    while not tail.endswith(end):
        read = os.read(out, 1 << 20)
        if not read:
            sys.exit("the session ended early")
        tail = (tail + read)[-64:]


def count_same(theirs, ours, name):
    """The number of rows, and of blocks, where a scan has the server's rows in their order."""
    # A line `more` comes between two blocks.
    blocks = [1]

    def without_more():
        for line in ours:
            if line == b"more 1\n":
                blocks[0] += 1
            else:
                yield line
    lines = without_more()
    head = next(lines)
    count = 0
    for line in theirs:
        if next(lines, None) != b"row " + line:
            sys.exit("%s: row %d is another one" % (name, count + 1))
        count += 1
    if not head.startswith(b"scan 1 at ") or list(lines) != [b"end 1\n"]:
        sys.exit("%s: the scan is not of as many rows" % name)
    return count, blocks[0]


class Beside:
    """The server and the program over one log, of which one table has the rows."""

    def __init__(self, standby, table, log, work):
        self.standby, self.table, self.log, self.work = standby, table, log, work
        self.about = about(log)
        self.wal = os.path.join(work, "wal")
        for_server(log, self.wal, self.about["release"], self.about["system"])
        self.replay, self.large, self.scan, self.best, self.default, self.copy = (Times() for _ in range(6))
        self.rows = self.blocks = None

    def cluster(self, data):
        """The base backup as a cluster of its own."""
        shutil.rmtree(os.path.join(self.work, data), ignore_errors=True)
        shutil.copytree(os.path.join(self.log, "server"), os.path.join(self.work, data))
        give(os.path.join(self.work, data))
        os.chmod(os.path.join(self.work, data), 0o700)
        server = Server(self.work, data)
        if os.path.exists(server.log):
            os.remove(server.log)
        return server

    def start_best(self):
        """The server, which has recovered the log with its best settings."""
        server = self.cluster("best")
        for name in os.listdir(self.wal):
            shutil.copy(os.path.join(self.wal, name), os.path.join(server.data, "pg_wal"))
        give(os.path.join(server.data, "pg_wal"))
        server.start(**BEST)
        return server

    def by_best(self):
        """The server's recovery with its best settings, and then COPY of the rows."""
        with self.start_best() as server:
            self.best.add(*server.redo_time())
            for _ in range(3):
                self.copy.add(*server.copy_time("bench", self.table))
            if self.rows is None:
                self.compare(server)

    def by_default(self):
        """The server's recovery from the archive, with the settings that a new cluster has."""
        server = self.cluster("default")
        with open(os.path.join(server.data, "recovery.signal"), "w"):
            pass
        give(server.data)
        with server:
            server.start(restore_command="cp %s/%%f %%p" % self.wal)
            server.wait_recovered("postgres")
            self.default.add(*server.redo_time())

    def ours(self):
        """Our replay, which is a scan of a table without rows, also with large pages of memory; and scans of all rows in a
        session that has replayed."""
        self.replay.add(*run([self.standby, "scan", "u"], self.log))
        self.large.add(*run([self.standby, "scan", "u"], self.log, settings=LARGE_PAGES))
        self.scans(3)

    def scans(self, count):
        """So many scans, one after the other, each from its opening to its last block."""
        child = subprocess.Popen([self.standby, "session"], cwd=self.log, stdin=subprocess.PIPE, stdout=subprocess.PIPE)
        out = child.stdout.fileno()

        def ask(lines):
            child.stdin.write(lines)
            child.stdin.flush()
        ask(b"replay 4294967295\n")
        read_to(out, b"\n")
        for number in range(1, count + 1):
            before, begun = processor_time(child.pid), time.monotonic()
            pages = b"open %s\n" % self.table.encode() + b"next %d\n" % number * self.blocks
            asking = threading.Thread(target=ask, args=(pages,))
            asking.start()
            read_to(out, b"\nend %d\n" % number)
            passed = time.monotonic() - begun
            asking.join()
            self.scan.add(processor_time(child.pid) - before, passed)
        child.stdin.close()
        if child.wait() != 0:
            sys.exit("the session ended with status %d" % child.returncode)

    def compare(self, server):
        """Whether the rows of the scan are those of the server, in the order of their places."""
        theirs, ours = (os.path.join(self.work, name) for name in ("theirs", "ours"))
        server.copy("bench", "SELECT * FROM %s ORDER BY ctid" % self.table, theirs)
        with open(ours, "wb") as out:
            run([self.standby, "scan", self.table], self.log, out)
        with open(theirs, "rb") as theirs, open(ours, "rb") as ours:
            self.rows, self.blocks = count_same(theirs, ours, self.log)

    def tell_scan(self):
        """Rows a second of processor time, of a scan and of COPY, by the least of their times."""
        scan, copy = self.rows / self.scan.least() / 1e6, self.rows / self.copy.least() / 1e6
        print("  scan %.2f million rows/s, COPY TO STDOUT %.2f million rows/s: %.2f" % (scan, copy, scan / copy))
