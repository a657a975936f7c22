"""Runs a program over random logs and sessions, and compares each answer with the evaluation."""
import argparse
import multiprocessing
import os
import random
import shutil
import subprocess
import tempfile
from collections import Counter
from pathlib import Path

from . import legal, misses
from .alterations import Alteration
from .archive import Ending, assembled, write_files
from .definitions import Definitions, Log, overflows
from .primary import Primary
from .requests import Requests
from .standby import AbstractStandby, answers, scanned
from .values import Column, Table

SESSIONS_OF_A_LOG, ALTERATIONS_OF_A_LOG = 4, 4
LIMIT = 60
TABLES = [
    Table("t", 16385, 30011, [Column("id", "int4"), Column("note", "text")]),
    Table("u", 16390, 30012, [Column("id", "int4", 7)]),
    Table("größe", 16400, 30013, [
        Column("flag", "bool"), Column("small", "int2"), Column("word", "text"), Column("big", "int8"), Column("id", "uuid"),
        Column("bytes", "bytea"), Column("oid", "oid", 4294967295), Column("real", "raw4"), Column("time", "raw8"),
        Column("late", "text", "mis\tsing")]),
]


class Difference(Exception):
    """The program answers otherwise than the evaluation, or a log is not what it should be."""


class Folder:
    """The folder of a log, in which the program runs."""

    def __init__(self, program, room, log, ending):
        self.program, self.path = program, tempfile.mkdtemp(dir=room)
        wal = assembled(log.records)
        self.ending = ending.put(wal)
        write_files(self.path, wal, ending, log.tables)

    def __enter__(self):
        return self

    def __exit__(self, *fault):
        shutil.rmtree(self.path, ignore_errors=True)

    def run(self, words, source):
        """(what the program answers to its words and the lines of a source, its exit status)"""
        done = subprocess.run([self.program, *words], input=source, cwd=self.path, stdout=subprocess.PIPE,
                              stderr=subprocess.DEVNULL, timeout=LIMIT)
        return done.stdout, done.returncode

    def keep(self, to, source, wanted, found):
        shutil.rmtree(to, ignore_errors=True)
        shutil.copytree(self.path, to)
        for name, text in (("stdin", source), ("wanted", wanted), ("answered", found)):
            (Path(to) / name).write_bytes(text)


def text_of(lines):
    return b"".join(line + b"\n" for line in lines)


def first_difference(wanted, found):
    pairs = zip(wanted.split(b"\n") + [b"(no line)"], found.split(b"\n") + [b"(no line)"])
    return next(("line %d is %r and should be %r" % (number, have[:200], want[:200])
                 for number, (want, have) in enumerate(pairs, 1) if want != have), "the lines are the same")


def words_of(text):
    """How often each kind of answer came, by its first word."""
    return Counter(line.split(b" ")[0].decode("latin-1") for line in text.split(b"\n")[:-1])


def course(d):
    """What a standby knows of the running transactions before it knows all, and which record tells it then."""
    records = d.records
    at = next((n for n in range(len(records)) if d.state(n + 1) == "ready"), None)
    if at is None:
        return "stays " + d.state(len(records))
    what = "a shutdown" if records[at].kind != "running" else "its oldest" if overflows(records[at]) else "a whole record"
    return "%s up to %s" % (d.state(at), what)


class Trial:
    """One random log with its sessions and near misses."""

    def __init__(self, program, room, seed, number, count):
        self.program, self.room, self.name, self.count = program, room, "%s-%d" % (seed, number), count
        self.draw = random.Random("%s/%d" % (seed, number))
        self.told = Counter()

    def run(self):
        draw = self.draw
        tables = [TABLES[0]] + draw.sample(TABLES[1:], draw.randrange(3))
        log = Primary(draw, tables).play(draw.choice([8, 20, 40, 80, 120, 200])).log
        d = Definitions(log)
        fault = legal.fault(d)
        if fault:
            raise Difference("the log maker's record %d (%s) breaks: %s" % (fault[0], log.records[fault[0]].kind, fault[1]))
        self.told.update("record " + record.kind for record in log.records)
        self.told.update(logs=1, records=len(log.records))
        self.told["course " + course(d)] += 1
        with Folder(self.program, self.room, log, Ending(draw)) as folder:
            for _ in range(self.count):
                self.session(folder, AbstractStandby(d, folder.ending))
                self.told["sessions"] += 1
            self.scan(folder, d)
        for miss in misses.drawn(draw, log, d):
            self.miss(log, miss)
        for _ in range(ALTERATIONS_OF_A_LOG):
            self.alteration(log)

    def session(self, folder, standby):
        """A random session, whose answers are those of the evaluation, or else it is kept."""
        requests = Requests(self.draw, standby)
        source = requests.source()
        self.compare(folder, ["session"], source, requests.answers, standby.status_at_end())

    def scan(self, folder, d):
        """A scan of a table by the command of that name."""
        name = self.draw.choice([table.name for table in d.log.tables] * 4 + ["nothing"])
        self.compare(folder, ["scan", name], b"", *scanned(d, folder.ending, name.encode()))

    def compare(self, folder, words, source, lines, status):
        wanted = text_of(lines), status
        found = folder.run(words, source)
        if found != wanted:
            to = os.path.abspath("random-session-" + self.name)
            folder.keep(to, source, wanted[0], found[0])
            raise Difference("`%s`: %s; status %d and should be %d; the files are in %s" % (
                " ".join(words), first_difference(wanted[0], found[0]), found[1], wanted[1], to))
        self.told.update("answer " + word for word in words_of(wanted[0]).elements())

    def alteration(self, log):
        """A log with another number: no primary could write it, or its answers are those of the definitions too."""
        d = Definitions(Log(Alteration(self.draw, log).records(), log.tables, log.tops, log.database, log.start))
        fault = legal.fault(d)
        self.told["altered " + (fault[1] if fault else "legal")] += 1
        if fault is None:
            with Folder(self.program, self.room, d.log, Ending(self.draw)) as folder:
                self.session(folder, AbstractStandby(d, folder.ending))

    def miss(self, log, miss):
        """A near miss has to be refused by the check of legality; whether a scan is harmed is counted."""
        d = Definitions(Log(miss.records, log.tables, log.tops, log.database, log.start))
        found = legal.faults(d)
        self.told.update(["misses", "miss " + miss.what])
        is_other = miss.clauses and found != [(miss.number, clause) for clause in miss.clauses]
        if not found or is_other or miss.first not in (None, found[0]):
            raise Difference("a near miss (%s, at record %d) is not told apart, or breaks more: %s" % (
                miss.what, miss.number, found))
        self.told["told apart"] += 1
        with Folder(self.program, self.room, d.log, Ending(self.draw)) as folder:
            standby = AbstractStandby(d, folder.ending)
            wanted = text_of(answers(standby, miss.source)), standby.status_at_end()
            if folder.run(["session"], miss.source) != wanted:
                self.told.update(["answered otherwise", "otherwise " + miss.what])


def trial(words):
    one = Trial(*words)
    try:
        one.run()
        return one.told, None
    except (Difference, subprocess.TimeoutExpired) as why:
        return one.told, "seed %s: %s" % (one.name, why)


def summary(told, seed, is_long):
    lines = ["%d sessions over %d logs of %d records, and %d over logs with one number changed (seed %s): no difference. "
             "Near misses: %d drawn, %d told apart, %d answered otherwise than the rows" % (
                 told["sessions"], told["logs"], told["records"], told["altered legal"], seed, told["misses"],
                 told["told apart"], told["answered otherwise"])]
    for name, start in (("records", "record "), ("snapshot states", "course "), ("first words of answers", "answer "),
                        ("near misses", "miss "), ("answered otherwise", "otherwise "),
                        ("logs with one number changed", "altered ")):
        counts = ["%s %d" % (word[len(start):], told[word]) for word in sorted(told) if word.startswith(start)]
        lines.append("%s: %s" % (name, ", ".join(counts)))
    return "\n".join(lines if is_long else lines[:1])


def trials(words, room):
    """(what all trials told, the first difference or None)"""
    told, work, left = Counter(), [], words.sessions
    while left > 0:
        number = words.first + len(work)
        work.append((os.path.abspath(words.program), room, words.seed, number, min(left, SESSIONS_OF_A_LOG)))
        left -= SESSIONS_OF_A_LOG
    with multiprocessing.Pool(words.jobs) as pool:
        for counts, difference in pool.imap_unordered(trial, work, 8):
            told += counts
            if difference:
                return told, difference
    return told, None


def main():
    options = argparse.ArgumentParser(description="Random sessions against a plain evaluation of the definitions.")
    options.add_argument("program", help="the built standby")
    options.add_argument("--sessions", type=int, default=10000)
    options.add_argument("--seed", default="1")
    options.add_argument("--jobs", type=int, default=os.cpu_count())
    options.add_argument("--first", type=int, default=0, help="the number of the first log, as a difference names it")
    options.add_argument("--words", action="store_true", help="says also how often each answer came")
    words = options.parse_args()
    with tempfile.TemporaryDirectory(prefix="random-sessions-") as room:
        told, difference = trials(words, room)
    print(difference or summary(told, words.seed, words.words))
    return 1 if difference else 0
