"""Recovers the logs of real workloads by an installed PostgreSQL and by `standby scan`, in turn, several times, and
prints the processor time of each and the ratio, and whether both have the same rows.

usage: compare.py STANDBY [--size MIB] [--rounds N] [--logs FOLDER] [--make] [WORKLOAD ..]
"""
import argparse
import os
import shutil
import statistics
import sys
import tempfile

HERE = os.path.dirname(os.path.abspath(__file__))
sys.path.insert(0, os.path.join(HERE, ".."))
from beside import Beside
from real_log import Workload, make
from server import give, installed


def workloads():
    """The workloads by the names that the command takes."""
    with open(os.path.join(HERE, "workloads.sql")) as file:
        procedures = [file.read()]
    tables = {"t": [("id", "int4"), ("note", "text")]}
    # Updates find room in the block of the row, as fillfactor leaves it.
    roomy = "WITH (fillfactor = 40)"
    return {
        "single": Workload("single-row inserts", tables, "", procedures, "CALL single('LIMIT')"),
        "batches": Workload("batches of 20 rows", tables, "", procedures, "CALL batches('LIMIT')"),
        "copy": Workload("COPY", tables, "", procedures, "CALL copies('LIMIT', 'FOLDER/rows')"),
        "mix": Workload("update mix", tables, roomy, procedures, "CALL mix('LIMIT', 0)"),
        "images": Workload("update mix with images", tables, roomy, procedures, "CALL mix('LIMIT', EVERY)"),
    }


def tell(one, name):
    print("%s: %.0f MB of log, %d records, %d rows, which are the same; load %.1f" % (
        name, one.about["bytes"] / 1e6, sum(one.about["kinds"].values()), one.rows, os.getloadavg()[0]))
    print("  replay, ours               %s" % one.replay.tell())
    print("  with large pages           %s" % one.large.tell())
    print("  recovery, best settings    %s" % one.best.tell())
    print("  recovery, default settings %s" % one.default.tell())
    print("  a scan, in a session       %s" % one.scan.tell())
    print("  COPY TO STDOUT             %s" % one.copy.tell())
    for name, ours in (("ours", one.replay), ("with large pages", one.large)):
        each = [mine / theirs for mine, theirs in zip(ours.cpu, one.best.cpu)]
        print("  processor time, %s to best settings %.2f (middle of the rounds %.2f), to default settings %.2f" % (
            name, ours.least() / one.best.least(), statistics.median(each), ours.least() / one.default.least()))
    one.tell_scan()
    sys.stdout.flush()


def measure(standby, workload, log, rounds):
    with tempfile.TemporaryDirectory(dir="/var/tmp") as work:
        os.chmod(work, 0o755)
        give(work)
        one = Beside(standby, "t", log, work)
        for _ in range(rounds):
            one.by_best()
            one.ours()
            one.by_default()
        tell(one, workload.name)


def words():
    parser = argparse.ArgumentParser()
    parser.add_argument("standby")
    parser.add_argument("--size", type=int, default=340, help="MiB of each log")
    parser.add_argument("--rounds", type=int, default=5)
    parser.add_argument("--logs", help="the folder in which logs are kept; those that are there are taken")
    parser.add_argument("--make", action="store_true", help="make the logs that are absent, and measure nothing")
    parser.add_argument("workloads", nargs="*", default=[])
    return parser.parse_intermixed_args()


def main():
    asked = words()
    if not installed()[0]:
        print("no server of PostgreSQL 15 or 16 is installed: nothing to compare with")
        return
    known = workloads()
    with tempfile.TemporaryDirectory(dir="/var/tmp") as own:
        logs = os.path.abspath(asked.logs) if asked.logs else own
        for name in asked.workloads or known:
            log = os.path.join(logs, name)
            if not os.path.exists(os.path.join(log, "about.json")):
                make(log, known[name], asked.size, "/var/tmp/bench-log-%d" % os.getpid())
            if not asked.make:
                measure(os.path.abspath(asked.standby), known[name], log, asked.rounds)
            if not asked.logs:
                shutil.rmtree(log)


main()
