"""Runs the replay of blocks, the reader alone and pg_waldump over logs of several sizes in turn, and prints the least
processor time (user and system), the speed and the peak memory of each, and how time and memory grow from each log to
the last one: with as many blocks, and with blocks that grow with the log.

usage: compare.py BENCH_LAYERS MIB:BLOCKS|MIB:xN ..
"""
import os
import subprocess
import sys
import tempfile

sys.path.insert(0, os.path.join(os.path.dirname(os.path.abspath(__file__)), ".."))
from measure import Log, waldump_words, written

RUNS = 5


class Program:
    """A program over a log: the run with the least processor time, and the greatest peak memory."""

    def __init__(self, name, words):
        self.name, self.words = name, words
        self.user = self.system = self.peak = 0
        self.least = None

    def run(self, folder):
        memory = os.path.join(folder, "memory")
        with open(os.path.join(folder, "written"), "w") as out:
            words = ["/usr/bin/time", "-f", "%M", "-o", memory] + self.words
            child = subprocess.Popen(words, cwd=folder, stdout=out)
            _, status, used = os.wait4(child.pid, 0)
            child.returncode = status
        if status != 0:
            sys.exit("%s ended with status %d: %s" % (self.name, status, written(folder)[-200:]))
        took = used.ru_utime + used.ru_stime
        if self.least is None or took < self.least:
            self.least, self.user, self.system = took, used.ru_utime, used.ru_stime
        with open(memory) as file:
            self.peak = max(self.peak, int(file.read()))

    def tell(self, size):
        print("  %-22s %.3f s (user %.3f, system %.3f), %.0f MB/s, peak memory %.1f MiB" % (
            self.name, self.least, self.user, self.system, size / self.least / 1e6, self.peak / 1024))


def check(text, log):
    """The replay was of the whole log."""
    if not text.startswith("%d records up to %s, %d blocks" % (log.kinds["records"], log.end, log.blocks)):
        sys.exit("the replay is not of the whole log: " + text)


def over(word, program):
    """Times redo and the others in turn over one log. Answers the log and the replay's times."""
    with tempfile.TemporaryDirectory() as folder:
        log = Log(folder, word)
        ours = Program("redo", [program, "redo"])
        dump = waldump_words(folder, log.start, log.end)
        others = [Program("reader", [program, "read"])] + ([Program("pg_waldump --quiet", dump)] if dump else [])
        for _ in range(RUNS):
            ours.run(folder)
            check(written(folder), log)
            for other in others:
                other.run(folder)
        log.tell(RUNS)
        for program in [ours] + others:
            program.tell(log.size)
        return log, ours


def tell_growth(runs):
    last, many = runs[-1]
    for log, few in runs[:-1]:
        print("redo, from %s to %s: %.2f times the log and %.2f times the blocks take %.2f times the time (user %.2f, "
              "system %.2f) and %.2f times the peak memory" % (
                  log.name, last.name, last.size / log.size, last.blocks / log.blocks, many.least / few.least,
                  many.user / max(few.user, 0.001), many.system / max(few.system, 0.001), many.peak / few.peak))


def main():
    program = os.path.abspath(sys.argv[1])
    tell_growth([over(word, program) for word in sys.argv[2:]])


main()
