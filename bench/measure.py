"""What the scripts in these folders share: a program's time and peak memory, pg_waldump of an installed PostgreSQL,
and the log of bench/redo/make_log.c."""
import os
import re
import subprocess
import sys
import tempfile
import time

PAGE = 8192
# The description of the table of bench/redo/make_log.c, as `standby scan` reads it.
SCHEMA = """database = 16384

[[table]]
name = "t"
oid = 16385
file = 16385

[[table.column]]
name = "id"
type = "int4"

[[table.column]]
name = "note"
type = "text"
"""
# The page magic (XLOG_PAGE_MAGIC, xlog_internal.h) of the releases whose records have the form of release 16.
MAGICS = {"15": 0xD110, "16": 0xD113, "17": 0xD116}


def timed(words, folder):
    """Seconds and peak memory in KiB of one run of a program. What it writes stands in the file `written`."""
    memory = os.path.join(folder, "memory")
    with open(os.path.join(folder, "written"), "w") as out:
        begun = time.monotonic()
        done = subprocess.run(["/usr/bin/time", "-f", "%M", "-o", memory] + words, cwd=folder, stdout=out)
        took = time.monotonic() - begun
    if done.returncode != 0:
        sys.exit("%s ended with status %d: %s" % (words[0], done.returncode, written(folder)[-200:]))
    with open(memory) as file:
        return took, int(file.read())


def written(folder):
    """What the last program wrote."""
    with open(os.path.join(folder, "written"), encoding="latin-1") as file:
        return file.read().strip()


def waldump():
    """The installed pg_waldump of the newest release that is known, and that release."""
    for release in sorted(MAGICS, reverse=True):
        path = "/usr/lib/postgresql/%s/bin/pg_waldump" % release
        if os.access(path, os.X_OK):
            return path, release
    return None, None


def rewrite(source, target, magic):
    """The log with another page magic."""
    os.mkdir(target)
    for name in os.listdir(source):
        with open(os.path.join(source, name), "rb") as file:
            text = bytearray(file.read())
        for place, byte in enumerate(magic.to_bytes(2, "little")):
            text[place::PAGE] = bytes([byte]) * (len(text) // PAGE)
        with open(os.path.join(target, name), "wb") as file:
            file.write(text)


def waldump_words(folder, start, end):
    """The words that read the log of the folder by pg_waldump, over a copy with its magic; none where none is there."""
    path, release = waldump()
    if not path:
        return None
    rewrite(os.path.join(folder, "archive"), os.path.join(folder, "rewritten"), MAGICS[release])
    return [path, "--quiet", "--path=rewritten", "--start=" + start, "--end=" + end]


def length(start, end):
    """The bytes of a log between two positions of one log file number."""
    return int(end.split("/")[1], 16) - int(start.split("/")[1], 16)


class Log:
    """A log of bench/redo/make_log.c, which is made in a folder, by the word MIB:BLOCKS, or MIB:xN where each block is
    filled, pruned and filled again N times."""

    def __init__(self, folder, word):
        mib, shape = word.split(":")
        source = os.path.join(os.path.dirname(os.path.abspath(__file__)), "redo", "make_log.c")
        maker = os.path.join(folder, "make_log")
        subprocess.run(["gcc", "-O2", "-o", maker, source], check=True)
        words = [maker, mib] + (["rounds", shape[1:]] if shape.startswith("x") else [shape])
        out = subprocess.run(words, cwd=folder, check=True, stdout=subprocess.PIPE, text=True).stdout
        os.mkdir(os.path.join(folder, "base"))
        with open(os.path.join(folder, "base", "schema.toml"), "w") as file:
            file.write(SCHEMA)
        self.start, self.end = out.split()[:2]
        self.kinds = {kind: int(count) for kind, count in re.findall(r"(\w+)=(\d+)", out)}
        self.blocks = self.kinds.pop("blocks")
        self.name = "%s MiB over %d blocks" % (mib, self.blocks)
        self.size = length(self.start, self.end)

    def tell(self, runs):
        kinds = ", ".join("%d %s" % (count, kind) for kind, count in self.kinds.items())
        print("log of %s, best of %d runs each: %s" % (self.name, runs, kinds))


class Measured:
    """The best time, and the greatest peak memory, of the runs of one program over a log of so many bytes."""

    def __init__(self, name, size):
        self.name, self.size, self.best, self.peak = name, size, None, 0

    def run(self, words, folder):
        took, memory = timed(words, folder)
        self.best = took if self.best is None else min(self.best, took)
        self.peak = max(self.peak, memory)

    def tell(self):
        print("  %-22s %.3f s, %.0f MB/s, peak memory %.1f MiB" % (
            self.name, self.best, self.size / self.best / 1e6, self.peak / 1024))


def tell_ratio(one, other):
    print("  %s at %.0f%% of the speed of %s" % (one.name, 100 * other.best / one.best, other.name))


def tell_growth(runs):
    """How time and memory grow from each log to the last one. Each of the runs is a log with what was measured."""
    last, many = runs[-1]
    for log, few in runs[:-1]:
        print("%s, from %s to %s: %.2f times the log takes %.2f times the time and %.2f times the peak memory" % (
            many.name, log.name, last.name, many.size / few.size, many.best / few.best, many.peak / few.peak))


def over_log(word, runs, ours, check, others):
    """Times a program, and others in turn, over one log. `ours` and each of `others(folder, log)` is a name and words;
    `check` tests what ours wrote. Answers the log and the times of ours."""
    with tempfile.TemporaryDirectory() as folder:
        log = Log(folder, word)
        one = Measured(ours[0], log.size)
        rest = [(Measured(name, log.size), words) for name, words in others(folder, log)]
        for _ in range(runs):
            one.run(ours[1], folder)
            check(written(folder), log)
            for other, words in rest:
                other.run(words, folder)
        log.tell(runs)
        one.tell()
        for other, _ in rest:
            other.tell()
            tell_ratio(one, other)
        return log, one
