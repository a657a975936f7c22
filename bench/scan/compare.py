"""Scans a table of (int4, int8, text of 80 bytes) by `standby scan`, and by COPY .. TO STDOUT of an installed
PostgreSQL over the same rows, in turn, several times, and prints rows a second of processor time, and their ratio.

usage: compare.py STANDBY [--rows N] [--rounds N]
"""
import argparse
import os
import sys
import tempfile

sys.path.insert(0, os.path.join(os.path.dirname(os.path.abspath(__file__)), ".."))
from beside import Beside
from real_log import Workload, make
from server import give, installed

TABLES = {"r": [("id", "int4"), ("number", "int8"), ("note", "text")]}
ROWS = "SELECT n, n * 1000003::int8, substr(repeat(md5(n::text), 3), 1, 80) FROM generate_series(1, %d) AS n"


def measure(standby, log, work, rounds):
    give(work)
    one = Beside(standby, "r", log, work)
    with one.start_best() as server:
        one.compare(server)
        for _ in range(rounds):
            one.ours()
            one.copy.add(*server.copy_time("bench", "r"))
    print("%d rows of (int4, int8, text of 80 bytes), which are the same; load %.1f" % (one.rows, os.getloadavg()[0]))
    print("  a scan         %s" % one.scan.tell())
    print("  the replay     %s" % one.replay.tell())
    print("  COPY TO STDOUT %s" % one.copy.tell())
    one.tell_scan()


def main():
    parser = argparse.ArgumentParser()
    parser.add_argument("standby")
    parser.add_argument("--rows", type=int, default=1000000)
    parser.add_argument("--rounds", type=int, default=7)
    asked = parser.parse_args()
    if not installed()[0]:
        print("no server of PostgreSQL 15 or 16 is installed: nothing to compare with")
        return
    with tempfile.TemporaryDirectory(dir="/var/tmp") as folder:
        os.chmod(folder, 0o755)
        log, work = os.path.join(folder, "log"), os.path.join(folder, "work")
        # The command makes as many rows as are asked for, whatever the log's size.
        make(log, Workload("rows", TABLES, "", [], "INSERT INTO r " + ROWS % asked.rows), 0, os.path.join(folder, "made"))
        os.mkdir(work)
        measure(os.path.abspath(asked.standby), log, work, asked.rounds)


main()
